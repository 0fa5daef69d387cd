//! Rows and the trip filter. Every table number, value, offset, width and size has
//! an answer; nothing needs a check beforehand.

mod core_interface {
    use super::{FilterAnswer, ReadAnswer};

    #[repr(C)]
    pub struct ColumnNumbers {
        pub refusal: u32,
        pub count: u64,
    }

    #[repr(C)]
    pub struct RowNumbers {
        pub refusal: u32,
        pub length: u64,
    }

    unsafe extern "C" {
        pub safe fn tt_column_count(table: u32) -> ColumnNumbers;
        pub fn tt_names_line(table: u32, out: *mut u8, out_length: u64) -> RowNumbers;
        pub fn tt_row(
            table: u32,
            texts: *const u8,
            texts_length: u64,
            lengths: *const u32,
            lengths_length: u64,
            out: *mut u8,
            out_length: u64,
        ) -> RowNumbers;
        pub fn tt_read_row(
            table: *const u8,
            n: u64,
            width: u64,
            place: u64,
            out: *mut u8,
            out_length: u64,
            ends: *mut u64,
            slots: u64,
        ) -> ReadAnswer;
        pub fn tt_filter_query(
            bits: *const u8,
            n: u64,
            id: *const u8,
            id_length: u64,
        ) -> FilterAnswer;
        pub fn tt_filter_insert(
            bits: *mut u8,
            n: u64,
            id: *const u8,
            id_length: u64,
        ) -> FilterAnswer;
    }
}
use crate::constants::{MAX_COLUMNS, MAX_ROW};
use core_interface::*;

/// A written line's length. A refusal is its number, 0 for none; beside one the
/// length is 0.
///
/// ```
/// use bankcore::{constants::*, rows};
/// let mut out = [0; MAX_NAMES_LINE];
/// let line = rows::names_line(table::STOPS, &mut out);
/// assert_eq!(&out[..line.length], b"stop_id,stop_code,stop_name\n");
/// ```
#[derive(Clone, Copy, Debug, Default, PartialEq, Eq)]
pub struct RowAnswer {
    /// The refusal's number, 0 for none.
    pub refusal: u32,
    /// How many bytes were written.
    pub length: usize,
}

/// A row that was read: the offset of the next one, and how many bytes its values
/// have. All numbers are 0 at the table's end, and beside a refusal.
///
/// ```
/// use bankcore::rows;
/// let (mut out, mut ends) = ([0; 8], [0; 2]);
/// let row = rows::read_row(b"a,\"b,\"\nc,d\n", 2, 0, &mut out, &mut ends);
/// assert_eq!((row.found, row.next), (1, 7));
/// assert_eq!((&out[..row.size], ends), (&b"ab,"[..], [1, 3]));
/// ```
#[repr(C)]
#[derive(Clone, Copy, Debug, Default, PartialEq, Eq)]
pub struct ReadAnswer {
    /// The refusal's number, 0 for none.
    pub refusal: u32,
    /// 1 if there is a row.
    pub found: u32,
    /// The offset of the next row.
    pub next: usize,
    /// How many bytes the values have, joined.
    pub size: usize,
}

/// Whether all four bits were set; 0 beside a refusal.
///
/// ```
/// use bankcore::rows;
/// let mut bits = [0; 64];
/// assert_eq!(rows::insert(&mut bits, b"trip 1").present, 0);
/// assert_eq!(rows::query(&bits, b"trip 1").present, 1);
/// ```
#[repr(C)]
#[derive(Clone, Copy, Debug, Default, PartialEq, Eq)]
pub struct FilterAnswer {
    /// The refusal's number, 0 for none.
    pub refusal: u32,
    /// 1 if the id may be in the filter.
    pub present: u32,
}

/// A row's values as they are passed: all texts one after the other, and a length
/// for each value. A length past the texts' end means what is left; bytes after the
/// last text are ignored. [`JoinedValues`] joins them.
///
/// ```
/// use bankcore::{cache, constants::table, rows::Values};
/// let values = Values { texts: b"2026010120261231", lengths: &[8, 8] };
/// let mut out = [0; 32];
/// let n = cache::row(table::FEED_INFO, values, &mut out)?;
/// assert_eq!(&out[..n], b"20260101,20261231\n");
/// # Ok::<(), bankcore::Refusal>(())
/// ```
#[derive(Clone, Copy, Debug, Default)]
pub struct Values<'a> {
    /// All texts, joined.
    pub texts: &'a [u8],
    /// The length of each.
    pub lengths: &'a [u32],
}

/// A row's values joined from their texts. What a row can't hold, a value too many
/// or more bytes than the longest row has, is cut so that a call with it is refused
/// (14) all the same.
///
/// ```
/// use bankcore::{Refusal, cache, constants::table, rows::JoinedValues};
/// let values = JoinedValues::new(&["r7", "Harbour, east", "3"]);
/// let mut out = [0; 32];
/// let n = cache::row(table::ROUTES, &values, &mut out)?;
/// assert_eq!(&out[..n], b"r7,\"Harbour, east\",3\n");
/// let bytes = JoinedValues::new(&[&[b'a'; 9_000][..], b"", b""]);
/// assert_eq!(cache::row(table::ROUTES, &bytes, &mut out), Err(Refusal::Row));
/// # Ok::<(), Refusal>(())
/// ```
#[derive(Clone, Debug)]
pub struct JoinedValues {
    texts: [u8; MAX_ROW],
    size: usize,
    lengths: [u32; MAX_COLUMNS + 1],
    count: usize,
}

impl JoinedValues {
    /// Joins the texts of some values.
    pub fn new<T: AsRef<[u8]>>(values: &[T]) -> Self {
        let mut joined =
            Self { texts: [0; MAX_ROW], size: 0, lengths: [0; MAX_COLUMNS + 1], count: 0 };
        for value in values.iter().take(MAX_COLUMNS + 1) {
            joined.append(value.as_ref());
        }
        joined
    }

    /// With its LF a row of `MAX_ROW` bytes of texts is too long already.
    fn append(&mut self, text: &[u8]) {
        let text = &text[..text.len().min(MAX_ROW - self.size)];
        self.texts[self.size..][..text.len()].copy_from_slice(text);
        self.size += text.len();
        self.lengths[self.count] = text.len() as u32;
        self.count += 1;
    }
}

impl<'a> From<&'a JoinedValues> for Values<'a> {
    fn from(joined: &'a JoinedValues) -> Self {
        Self { texts: &joined.texts[..joined.size], lengths: &joined.lengths[..joined.count] }
    }
}

/// How many columns a table has; 0 beside a refusal.
///
/// ```
/// use bankcore::{constants::{column, table}, rows};
/// assert_eq!(rows::column_count(table::STOPS).count, column::stops::COUNT);
/// assert_eq!(rows::column_count(8).refusal, 2);
/// ```
#[derive(Clone, Copy, Debug, Default, PartialEq, Eq)]
pub struct ColumnAnswer {
    /// The refusal's number, 0 for none.
    pub refusal: u32,
    /// How many there are.
    pub count: usize,
}

/// How many columns a table has; refusal 2 above table 7.
pub fn column_count(table: u32) -> ColumnAnswer {
    let columns = tt_column_count(table);
    ColumnAnswer { refusal: columns.refusal, count: columns.count as usize }
}

/// A table's names line, into the first bytes of `out`.
pub fn names_line(table: u32, out: &mut [u8]) -> RowAnswer {
    let line = unsafe { tt_names_line(table, out.as_mut_ptr(), out.len() as u64) };
    RowAnswer { refusal: line.refusal, length: line.length as usize }
}

/// The row of some values of a table, into the first bytes of `out`.
pub fn row(table: u32, values: Values, out: &mut [u8]) -> RowAnswer {
    let line = unsafe {
        tt_row(
            table,
            values.texts.as_ptr(),
            values.texts.len() as u64,
            values.lengths.as_ptr(),
            values.lengths.len() as u64,
            out.as_mut_ptr(),
            out.len() as u64,
        )
    };
    RowAnswer { refusal: line.refusal, length: line.length as usize }
}

/// The row of `width` values at an offset of a stored table: the values joined into
/// the first bytes of `out`, and where each ends into `ends`. A row ends in LF or CRLF.
pub fn read_row(
    table: &[u8],
    width: usize,
    place: usize,
    out: &mut [u8],
    ends: &mut [usize],
) -> ReadAnswer {
    // The answer is the core's own struct: copied number by number into another it
    // cost half as much as a short row.
    unsafe {
        tt_read_row(
            table.as_ptr(),
            table.len() as u64,
            width as u64,
            place as u64,
            out.as_mut_ptr(),
            out.len() as u64,
            ends.as_mut_ptr().cast(),
            ends.len() as u64,
        )
    }
}

/// Whether a trip id may be in the filter.
pub fn query(bits: &[u8], id: &[u8]) -> FilterAnswer {
    unsafe { tt_filter_query(bits.as_ptr(), bits.len() as u64, id.as_ptr(), id.len() as u64) }
}

/// Adds a trip id to the filter, and says whether it may have been there.
pub fn insert(bits: &mut [u8], id: &[u8]) -> FilterAnswer {
    unsafe { tt_filter_insert(bits.as_mut_ptr(), bits.len() as u64, id.as_ptr(), id.len() as u64) }
}
