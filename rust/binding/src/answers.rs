//! The answers of the calls on banks, as they cross the C interface; a length, which
//! has 64 bits there, is a `usize` here. A refusal is its number, 0 for none; beside
//! one the other numbers are 0, times are unknown, and a state is the one that was
//! passed.
pub use crate::refusal::Refusal;

/// What is in a bank: all numbers are 0 if none was found.
///
/// ```
/// let region = std::fs::read("../../samples/two-good.img")?;
/// let bank = bankcore::banks::load(&region);
/// assert_eq!((bank.refusal, bank.found, bank.number, bank.generation), (0, 1, 1, 8));
/// # Ok::<(), std::io::Error>(())
/// ```
#[repr(C)]
#[derive(Clone, Copy, Debug, Default, PartialEq, Eq)]
pub struct BankAnswer {
    /// The refusal's number, 0 for none.
    pub refusal: u32,
    /// 1 if there is a bank.
    pub found: u32,
    /// The bank's number, 0 or 1.
    pub number: u32,
    /// The format's version.
    pub version: u32,
    /// The generation.
    pub generation: u32,
    /// How many bytes of data there are.
    pub length: u32,
    /// The data's CRC-32.
    pub crc: u32,
    /// How many sources there are.
    pub count: u32,
    /// The key's length.
    pub key: u32,
    /// When the bank was checked.
    pub checked: i64,
}

/// When a bank was checked and its sources were updated.
///
/// ```
/// use bankcore::{banks, constants::UNKNOWN_TIME};
/// let days = [20260601, 20260602, 20260603];
/// let fresh = banks::fresh(&[], 0, days, [true; 3], 0);
/// assert_eq!((fresh.refusal, fresh.checked), (1, UNKNOWN_TIME));
/// ```
#[repr(C)]
#[derive(Clone, Copy, Debug, PartialEq, Eq)]
pub struct FreshAnswer {
    /// The refusal's number, 0 for none.
    pub refusal: u32,
    /// When the bank was checked, or unknown.
    pub checked: i64,
    /// When the sources were updated, the oldest time, or unknown.
    pub updated: i64,
}

/// A written key's length.
///
/// ```
/// use bankcore::banks::{self, Picks};
/// let mut out = [7; 4];
/// assert_eq!(banks::key(&[], Picks::default(), &mut out).length, 1);
/// assert_eq!(out, [0, 7, 7, 7]);
/// ```
#[derive(Clone, Copy, Debug, PartialEq, Eq)]
pub struct KeyAnswer {
    /// The refusal's number, 0 for none.
    pub refusal: u32,
    /// How many bytes were written.
    pub length: usize,
}

/// Whether a key is the same.
///
/// ```
/// use bankcore::banks::{self, Picks};
/// assert_eq!(banks::same_key(&[], 0, b"A", Picks::default()).refusal, 1);
/// ```
#[repr(C)]
#[derive(Clone, Copy, Debug, PartialEq, Eq)]
pub struct SameKeyAnswer {
    /// The refusal's number, 0 for none.
    pub refusal: u32,
    /// 1 if it is the same.
    pub same: u32,
}

/// A turn's answer, with the state for the next one: bank, position, CRC.
///
/// ```
/// use bankcore::banks::{check_start, check_turn};
/// let region = std::fs::read("../../samples/two-good.img")?;
/// let mut turn = check_start(&region, 0);
/// while turn.refusal == 0 && turn.verdict == 0 {
///     turn = check_turn(&region, turn.bank, turn.position, turn.crc, 256);
/// }
/// assert_eq!((turn.refusal, turn.verdict), (0, 1));
/// # Ok::<(), std::io::Error>(())
/// ```
#[repr(C)]
#[derive(Clone, Copy, Debug, PartialEq, Eq)]
pub struct TurnAnswer {
    /// The refusal's number, 0 for none.
    pub refusal: u32,
    /// 1 if all data were hashed and their CRC is the header's.
    pub verdict: u32,
    /// How many bytes were hashed in this turn.
    pub count: u32,
    /// The state's bank.
    pub bank: u32,
    /// The state's position: how many bytes were hashed in all.
    pub position: u32,
    /// The state's CRC.
    pub crc: u32,
}

/// A stored row: `found` is 1 if there is one, 0 at the table's end.
///
/// ```
/// use bankcore::{banks, constants::*};
/// let region = std::fs::read("../../samples/two-good.img")?;
/// let (mut out, mut ends) = ([0; MAX_ROW], [0; MAX_COLUMNS]);
/// // the row at 0 is the names line
/// let names = banks::bank_row(&region, 1, 0, table::STOPS, 0, &mut out, &mut ends);
/// assert_eq!((names.found, &out[..ends[0]]), (1, &b"stop_id"[..]));
/// # Ok::<(), std::io::Error>(())
/// ```
#[repr(C)]
#[derive(Clone, Copy, Debug, PartialEq, Eq)]
pub struct BankRowAnswer {
    /// The refusal's number, 0 for none.
    pub refusal: u32,
    /// 1 if there is a row.
    pub found: u32,
    /// The offset of the next row.
    pub next: usize,
    /// How many bytes the values have, joined.
    pub size: usize,
}
