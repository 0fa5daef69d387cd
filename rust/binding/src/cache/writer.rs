//! An update by both layers.
use super::{Picks, Source, Values, answered};
use crate::{
    constants::{BANK_SIZE, answer, operation},
    refusal::Refusal,
    update::{self, Answer, State},
};
use core::ops::Range;

/// What an operation does. All but a comparison are flash operations, on the bank
/// that isn't active; a comparison reads the active one, bank 0 if there is none.
///
/// ```
/// use bankcore::cache::{Kind, Writer};
/// let region = std::fs::read("../../samples/two-good.img")?;
/// let mut comparing = Writer::begin(&region, true, 0)?;
/// comparing.append(&[7; 256])?;
/// assert_eq!(comparing.operation()?.map(|next| next.kind), Some(Kind::Compare));
/// # Ok::<(), Box<dyn std::error::Error>>(())
/// ```
#[derive(Clone, Copy, Debug, PartialEq, Eq)]
pub enum Kind {
    /// A sector is set to 255; `due` does it.
    Erase,
    /// The tail's bytes are written to the data; `due` does it.
    Write,
    /// The tail's bytes are compared with the active bank's; `due` does it.
    Compare,
    /// The header is written, without its commit word; `commit` does it.
    Header,
    /// The commit word is written; `commit_word` does it.
    CommitWord,
}

/// An operation of an update, on some bytes of a bank.
///
/// ```
/// use bankcore::{cache::{Kind, Operation, Writer}, constants::SECTOR_SIZE};
/// let region = std::fs::read("../../samples/two-good.img")?;
/// let mut writer = Writer::begin(&region, false, 0)?;
/// writer.append(&[7; 256])?;
/// // bank 1 is in use: the header sector of bank 0 is erased first
/// let next = Operation { kind: Kind::Erase, bank: 0, offset: 0, length: SECTOR_SIZE };
/// assert_eq!(writer.operation()?, Some(next));
/// assert_eq!(next.range(), 0..SECTOR_SIZE);
/// # Ok::<(), Box<dyn std::error::Error>>(())
/// ```
#[derive(Clone, Copy, Debug, PartialEq, Eq)]
pub struct Operation {
    /// What it does.
    pub kind: Kind,
    /// The number of its bank.
    pub bank: u32,
    /// The offset of its first byte in the bank.
    pub offset: usize,
    /// How many bytes it has, a write's with its padding.
    pub length: usize,
}

impl Operation {
    /// Its bytes of the region.
    pub fn range(&self) -> Range<usize> {
        let start = self.bank as usize * BANK_SIZE + self.offset;
        start..start + self.length
    }
}

/// An update. It may be kept as its bytes and made from any: one out of its ranges
/// is refused (11). A refused call leaves it as it was. Calls of both layers may be
/// mixed.
///
/// ```
/// use bankcore::{cache::{self, JoinedValues, Picks, Source, Writer}, constants::table};
/// let mut region = std::fs::read("../../samples/two-good.img")?;
/// let now = 1_790_000_000;
/// let source = Source { start: 20260101, end: 20261231, present: 1, ..Source::default() };
/// let mut writer = Writer::upper_begin(&mut region, false, now, b"shelter 12", Picks::default())?;
/// writer.upper_source(&mut region, &source)?;
/// writer.upper_table(&mut region, table::ROUTES)?;
/// writer.upper_row(&mut region, &JoinedValues::new(&["r7", "Harbour", "3"]))?;
/// writer.upper_end(&mut region)?;
/// writer.upper_close(&mut region)?;
/// writer.commit(&mut region, None, true)?;
/// assert_eq!(cache::load(&region)?.unwrap().number, 1);
/// writer.commit_word(&mut region)?;
/// assert_eq!(cache::load(&region)?.unwrap().number, 0);
/// # Ok::<(), Box<dyn std::error::Error>>(())
/// ```
#[derive(Clone, Copy, Debug, PartialEq, Eq)]
pub struct Writer(State);

impl Writer {
    /// The update that these bytes are; any are allowed.
    pub fn from_bytes(bytes: [u8; update::SIZE]) -> Self {
        Self(State::from_bytes(bytes))
    }

    /// The update's bytes.
    pub fn bytes(&self) -> [u8; update::SIZE] {
        self.0.to_bytes()
    }
}

/// The lower layer: a call does at most one flash operation.
impl Writer {
    /// Begins an update; in comparing mode nothing is written.
    pub fn begin(region: &[u8], comparing: bool, now: i64) -> Result<Self, Refusal> {
        let mut state = State::default();
        let answer = state.begin(region, comparing, now);
        answered(answer.refusal, Self(state))
    }

    /// Begins a source; its blocks start as zero.
    pub fn source(&mut self, source: &Source) -> Result<(), Refusal> {
        done(self.0.source(&source.encode()))
    }

    /// Begins a table of the last source.
    pub fn table(&mut self, table: u32) -> Result<(), Refusal> {
        done(self.0.table(table))
    }

    /// Appends bytes until the tail is full, and says how many; none while an
    /// operation is due.
    pub fn append(&mut self, bytes: &[u8]) -> Result<usize, Refusal> {
        let answer = self.0.append(bytes);
        answered(answer.refusal, answer.count as usize)
    }

    /// Ends the open table.
    pub fn end(&mut self) -> Result<(), Refusal> {
        done(self.0.end())
    }

    /// No more bytes: what the tail holds is then due.
    pub fn close(&mut self) -> Result<(), Refusal> {
        done(self.0.close())
    }

    /// The operation that comes next, for a driver that does it on the chip: what
    /// `due` does; else, once an update that isn't compared is closed, the header
    /// that `commit` writes unless it is refused, then the commit word; else none.
    pub fn operation(&self) -> Result<Option<Operation>, Refusal> {
        let next = self.0.operation();
        let kind = match next.kind {
            operation::ERASE => Some(Kind::Erase),
            operation::WRITE => Some(Kind::Write),
            operation::COMPARE => Some(Kind::Compare),
            operation::HEADER => Some(Kind::Header),
            operation::COMMIT_WORD => Some(Kind::CommitWord),
            _ => None,
        };
        let (bank, offset, length) = (next.bank, next.offset, next.length);
        answered(next.refusal, kind.map(|kind| Operation { kind, bank, offset, length }))
    }

    /// Does the operation that is due, and says whether there was one.
    pub fn due(&mut self, region: &mut [u8]) -> Result<bool, Refusal> {
        let due = self.0.due(region);
        answered(due.refusal, due.answer != answer::NONE_DUE)
    }

    /// Whether the active bank equals what was compared with it.
    pub fn unchanged(&mut self, region: &[u8]) -> Result<bool, Refusal> {
        let compared = self.0.unchanged(region);
        answered(compared.refusal, compared.answer == answer::SAME)
    }

    /// The first write of a commit: the header without its commit word. The checked
    /// time is the stamp if it is after the beginning's time.
    pub fn commit(
        &mut self,
        region: &mut [u8],
        stamp: Option<i64>,
        current: bool,
    ) -> Result<(), Refusal> {
        done(self.0.commit(region, stamp, current))
    }

    /// The second write of a commit: the commit word.
    pub fn commit_word(&mut self, region: &mut [u8]) -> Result<(), Refusal> {
        done(self.0.commit_word(region))
    }
}

/// The upper layer: a call does all its flash operations, and leaves none due.
impl Writer {
    /// Begins an update, and appends the key of an identity and picks.
    pub fn upper_begin<'a>(
        region: &mut [u8],
        comparing: bool,
        now: i64,
        identity: &[u8],
        picks: impl Into<Picks<'a>>,
    ) -> Result<Self, Refusal> {
        let mut state = State::default();
        let answer = state.upper_begin(region, comparing, now, identity, picks.into());
        answered(answer.refusal, Self(state))
    }

    /// Begins a source, and appends its dates.
    pub fn upper_source(&mut self, region: &mut [u8], source: &Source) -> Result<(), Refusal> {
        done(self.0.upper_source(region, &source.encode()))
    }

    /// Begins a table of the last source, and appends its names line.
    pub fn upper_table(&mut self, region: &mut [u8], table: u32) -> Result<(), Refusal> {
        done(self.0.upper_table(region, table))
    }

    /// Appends a row of the open table.
    pub fn upper_row<'a>(
        &mut self,
        region: &mut [u8],
        values: impl Into<Values<'a>>,
    ) -> Result<(), Refusal> {
        done(self.0.upper_row(region, values.into()))
    }

    /// Ends the open table.
    pub fn upper_end(&mut self, region: &mut [u8]) -> Result<(), Refusal> {
        done(self.0.upper_end(region))
    }

    /// Closes the update: what the tail holds is written.
    pub fn upper_close(&mut self, region: &mut [u8]) -> Result<(), Refusal> {
        done(self.0.upper_close(region))
    }
}

fn done(answer: Answer) -> Result<(), Refusal> {
    answered(answer.refusal, ())
}
