//! The lifted `Writer`'s side of an update.
use super::{content::Content, cut::Cut, supply::Supply};
use lifted::{
    cache::{
        Metadata,
        door::{self, BankFields, Update},
    },
    gtfs::Error,
    standins::flash::{Flash, Operation},
};

/// How an update is to end, and where its supply fails.
#[derive(Clone, Copy, Debug)]
pub struct How {
    pub abandoned: bool,
    pub current: bool,
    pub cut: Option<Cut>,
}

pub const COMMITTED: How = How { abandoned: false, current: true, cut: None };

#[derive(Clone, Copy, Debug, PartialEq, Eq)]
pub enum Outcome {
    Abandoned,
    Obsolete,
    Full,
    Cut,
    Committed,
    /// Committed, but the bank doesn't validate.
    Unfit,
}

pub struct Lifted {
    /// The operations that were begun. The last one of an update that is cut may be
    /// done in part.
    pub operations: Vec<Operation>,
    pub region: Vec<u8>,
    pub outcome: Outcome,
}

impl Lifted {
    /// One update in writing mode.
    pub fn write(region: &[u8], content: &Content, how: How) -> Self {
        let flash = Flash {
            identity: content.key.selection().identity,
            ..Flash::with_region(region.to_vec())
        };
        flash.checked_at.set(content.stamp);
        flash.current.set(how.current);
        let supply = Supply::new(flash, how.cut);
        let active = door::load(&supply).expect("the Rust loads");
        let mut metadata = Metadata::default();
        let mut update = Update::new(&supply, active, false, content.now, &mut metadata);
        let outcome = match content.rust_fill(&mut update) {
            Err(Error::BufferTooSmall) => Outcome::Full,
            Err(_) => Outcome::Cut,
            Ok(()) if how.abandoned => Outcome::Abandoned,
            Ok(()) => match update.commit() {
                Err(Error::InvalidField(_)) => Outcome::Obsolete,
                Err(_) => Outcome::Cut,
                Ok(bank) => match door::validate(&supply, BankFields::from(bank).offset) {
                    Ok(_) => Outcome::Committed,
                    Err(_) => Outcome::Unfit,
                },
            },
        };
        Self { operations: supply.begun.take(), region: supply.flash.region.take(), outcome }
    }
    /// One update in comparing mode: whether the active bank is unchanged, and
    /// how many operations were done.
    pub fn unchanged(region: &[u8], content: &Content) -> (bool, usize) {
        let flash = Flash {
            identity: content.key.selection().identity,
            ..Flash::with_region(region.to_vec())
        };
        let active = door::load(&flash).expect("the Rust loads");
        let mut metadata = Metadata::default();
        let mut update = Update::new(&flash, active, true, content.now, &mut metadata);
        content.rust_fill(&mut update).expect("the Rust appends");
        let same = update.unchanged().expect("the Rust compares");
        (same, flash.operations.borrow().len())
    }
}
