//! Document 01's refusal numbers for what the lifted `validate` says. It has
//! two errors for five refusals: InvalidZip for 3, 5 and 6, CrcMismatch for 4
//! and 7. Only what the error leaves open is decided here, from the header.
use crate::{
    cache::{
        BANK_SIZE, Bank, OFFSET, Storage,
        door::{self, HEADER, SECTOR, get},
    },
    gtfs::Error,
};

#[derive(Clone, Copy, Debug, PartialEq, Eq)]
pub enum Refusal {
    Number(u32),
    /// An error that `validate` has for none of them.
    Other(Error),
}

fn mark(header: &[u8]) -> bool {
    header[..4] == *b"TTFC" && matches!(get(header, 4), 1..=3) && get(header, 44) == door::COMMIT
}

fn seal(header: &[u8]) -> bool {
    let mut sealed = header[..48 + 3 * door::source_size(get(header, 4))].to_vec();
    sealed[40..48].fill(0);
    crc32fast::hash(&sealed) == get(header, 40)
}

fn span(header: &[u8]) -> bool {
    let (length, count, key) = (get(header, 12), get(header, 20), get(header, 24));
    (1..=BANK_SIZE - SECTOR).contains(&length)
        && (1..=length).contains(&key)
        && (1..=3).contains(&count)
        && header[39] < 128
}

/// The lifted `validate` of a bank, its error as a number.
pub fn validate(flash: &impl Storage, bank: u32) -> Result<Bank, Refusal> {
    let offset = OFFSET + bank * BANK_SIZE;
    let error = match door::validate(flash, offset) {
        Ok(bank) => return Ok(bank),
        Err(error) => error,
    };
    let mut header = [0; HEADER];
    flash.read(offset, &mut header).map_err(Refusal::Other)?;
    Err(Refusal::Number(match error {
        Error::InvalidZip if !mark(&header) => 3,
        Error::InvalidZip if !span(&header) => 5,
        Error::InvalidZip => 6,
        Error::CrcMismatch if !seal(&header) => 4,
        Error::CrcMismatch => 7,
        other => return Err(Refusal::Other(other)),
    }))
}
