//! The calls with a result or a refusal: those on banks under the names of the
//! firmware's cache.rs, an update's under the words of the C names. Nothing needs a
//! check beforehand: a region of any length and any bank, pick, value and offset
//! have an answer, and so has a checking state or a writer made of any bytes.
mod checking;
mod source;
mod table;
mod writer;

use crate::{
    banks,
    constants::{RECORD_SIZE, UNKNOWN_TIME},
    refusal::Refusal,
    rows,
};
pub use crate::{
    banks::{JoinedPicks, Picks},
    rows::{JoinedValues, Values},
};
pub use checking::{Checking, Turn};
pub use source::{Block, Source};
pub use table::{Row, Rows, values};
pub use writer::{Kind, Operation, Writer};

/// The value, or the refusal with that number; the core gives 0 for none.
fn answered<T>(number: u32, value: T) -> Result<T, Refusal> {
    match Refusal::of(number) {
        Some(refusal) => Err(refusal),
        None if number == 0 => Ok(value),
        None => unreachable!("the core has no refusal {number}"),
    }
}

/// A bank that passed its tests.
///
/// ```
/// use bankcore::cache;
/// let region = std::fs::read("../../samples/two-good.img")?;
/// let bank = cache::load(&region)?.expect("a good bank");
/// assert_eq!((bank.number, bank.generation, bank.count), (1, 8, 2));
/// let source = bank.source(&region, 0)?;
/// assert!(source.start <= source.end);
/// # Ok::<(), Box<dyn std::error::Error>>(())
/// ```
#[derive(Clone, Copy, Debug, PartialEq, Eq)]
pub struct Bank {
    /// 0 or 1.
    pub number: u32,
    /// The format's version, 1 to 3.
    pub version: u32,
    /// The generation: the newer bank is tried first.
    pub generation: u32,
    /// How many bytes of data there are.
    pub length: u32,
    /// The data's CRC-32.
    pub crc: u32,
    /// How many sources there are, 1 to 3.
    pub count: u32,
    /// The key's length.
    pub key_length: u32,
    /// When it was checked, in seconds.
    pub checked: i64,
}

/// When a bank was checked and its sources were updated, if known.
///
/// ```
/// use bankcore::cache;
/// let region = std::fs::read("../../samples/two-good.img")?;
/// let bank = cache::load(&region)?.expect("a good bank");
/// let day = bank.source(&region, 0)?.start;
/// let fresh = bank.fresh(&region, [day; 3], [true; 3], bank.checked)?;
/// assert_eq!(fresh.checked_at, Some(bank.checked));
/// # Ok::<(), Box<dyn std::error::Error>>(())
/// ```
#[derive(Clone, Copy, Debug, Default, PartialEq, Eq)]
pub struct Freshness {
    /// When the bank was checked.
    pub checked_at: Option<i64>,
    /// When the sources of the wanted days were updated, the oldest time.
    pub source_updated_at: Option<i64>,
}

/// A row that was read into lent outputs.
///
/// ```
/// use bankcore::{cache, constants::*};
/// let region = std::fs::read("../../samples/two-good.img")?;
/// let bank = cache::load(&region)?.expect("a good bank");
/// let (mut out, mut ends) = ([0; MAX_ROW], [0; column::stops::COUNT]);
/// // the row at 0 is the names line
/// let names = bank.row(&region, 0, table::STOPS, 0, &mut out, &mut ends)?.unwrap();
/// assert!(cache::values(&out, &ends).eq([&b"stop_id"[..], b"stop_code", b"stop_name"]));
/// assert!(bank.row(&region, 0, table::STOPS, names.next, &mut out, &mut ends)?.is_some());
/// # Ok::<(), Box<dyn std::error::Error>>(())
/// ```
#[derive(Clone, Copy, Debug, PartialEq, Eq)]
pub struct Stored {
    /// The offset of the next row.
    pub next: usize,
    /// How many bytes its values have.
    pub size: usize,
}

fn known(time: i64) -> Option<i64> {
    (time != UNKNOWN_TIME).then_some(time)
}

fn bank(a: crate::answers::BankAnswer) -> Bank {
    Bank {
        number: a.number,
        version: a.version,
        generation: a.generation,
        length: a.length,
        crc: a.crc,
        count: a.count,
        key_length: a.key,
        checked: a.checked,
    }
}

/// All tests of a bank, its data's CRC too.
pub fn validate(region: &[u8], number: u32) -> Result<Bank, Refusal> {
    let answer = banks::validate(region, number);
    answered(answer.refusal, bank(answer))
}

/// All tests of a bank but its data's CRC.
pub fn header(region: &[u8], number: u32) -> Result<Bank, Refusal> {
    let answer = banks::header(region, number);
    answered(answer.refusal, bank(answer))
}

/// The bank in use, if one passes all its tests.
pub fn load(region: &[u8]) -> Result<Option<Bank>, Refusal> {
    let answer = banks::load(region);
    answered(answer.refusal, (answer.found == 1).then(|| bank(answer)))
}

impl Bank {
    /// When it was checked.
    pub fn checked_at(self) -> i64 {
        self.checked
    }

    /// The record of a source below the count.
    pub fn source(&self, region: &[u8], i: u32) -> Result<Source, Refusal> {
        let mut bytes = [0; RECORD_SIZE];
        let refusal = banks::source(region, self.number, i, &mut bytes);
        answered(refusal, Source::decode(&bytes))
    }

    /// How fresh the bank is at `now` for those of three days that are wanted.
    pub fn fresh(
        &self,
        region: &[u8],
        dates: [u32; 3],
        wanted: [bool; 3],
        now: i64,
    ) -> Result<Freshness, Refusal> {
        let answer = banks::fresh(region, self.number, dates, wanted, now);
        let fresh = Freshness {
            checked_at: known(answer.checked),
            source_updated_at: known(answer.updated),
        };
        answered(answer.refusal, fresh)
    }

    /// Whether the bank's key is that of an identity and picks.
    pub fn same_key<'a>(
        &self,
        region: &[u8],
        identity: &[u8],
        picks: impl Into<Picks<'a>>,
    ) -> Result<bool, Refusal> {
        let answer = banks::same_key(region, self.number, identity, picks.into());
        answered(answer.refusal, answer.same == 1)
    }

    /// The row at an offset of a source's table, none at the table's end: its
    /// values joined into `out`, and where each ends into `ends`. `MAX_ROW` bytes
    /// and `MAX_COLUMNS` ends are enough for any. A row ends in LF or CRLF, which is in
    /// no value; a CR outside quotes that no LF follows meets 14.
    pub fn row(
        &self,
        region: &[u8],
        source: u32,
        table: u32,
        place: usize,
        out: &mut [u8],
        ends: &mut [usize],
    ) -> Result<Option<Stored>, Refusal> {
        let a = banks::bank_row(region, self.number, source, table, place, out, ends);
        let stored = Stored { next: a.next, size: a.size };
        answered(a.refusal, (a.found == 1).then_some(stored))
    }

    /// The rows of a source's table after its names line. Each has a buffer of its
    /// own, 8 KB; `row` reads into lent ones, and says what ends a row.
    pub fn rows<'a>(&self, region: &'a [u8], source: u32, table: u32) -> Rows<'a> {
        Rows::new(region, self.number, source, table)
    }
}

/// The key of an identity and picks, into the first bytes of `out`; its length.
pub fn key<'a>(
    identity: &[u8],
    picks: impl Into<Picks<'a>>,
    out: &mut [u8],
) -> Result<usize, Refusal> {
    let answer = banks::key(identity, picks.into(), out);
    answered(answer.refusal, answer.length)
}

/// The row of a table's values, into the first bytes of `out`; its length.
pub fn row<'a>(
    table: u32,
    values: impl Into<Values<'a>>,
    out: &mut [u8],
) -> Result<usize, Refusal> {
    let answer = rows::row(table, values.into(), out);
    answered(answer.refusal, answer.length)
}

/// A table's names line, into the first bytes of `out`; its length.
pub fn names_line(table: u32, out: &mut [u8]) -> Result<usize, Refusal> {
    let answer = rows::names_line(table, out);
    answered(answer.refusal, answer.length)
}

/// How many columns a table has.
pub fn column_count(table: u32) -> Result<usize, Refusal> {
    let answer = rows::column_count(table);
    answered(answer.refusal, answer.count)
}

/// The row of `width` values at an offset of any rows, none at their end: its values
/// joined into `out`, and where each ends into `ends`. A row ends in LF or CRLF, which
/// is in no value; a CR outside quotes that no LF follows meets 14.
pub fn read_row(
    table: &[u8],
    width: usize,
    place: usize,
    out: &mut [u8],
    ends: &mut [usize],
) -> Result<Option<Stored>, Refusal> {
    let a = rows::read_row(table, width, place, out, ends);
    let stored = Stored { next: a.next, size: a.size };
    answered(a.refusal, (a.found == 1).then_some(stored))
}

/// Whether a trip id may be in the filter; with `insert` it is added.
pub fn bloom(bits: &mut [u8], id: &[u8], insert: bool) -> Result<bool, Refusal> {
    let answer = if insert { rows::insert(bits, id) } else { rows::query(bits, id) };
    answered(answer.refusal, answer.present == 1)
}
