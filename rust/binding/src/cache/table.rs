//! Iterators over a table's rows and over a row's values.
use super::answered;
use crate::{
    banks,
    constants::{MAX_COLUMNS, MAX_ROW},
    refusal::Refusal,
    rows,
};
use core::{fmt, iter::FusedIterator};

/// The rows of a source's table after its names line; it ends after a refusal.
/// `Bank::rows` makes it.
///
/// ```
/// use bankcore::{cache, constants::table};
/// let region = std::fs::read("../../samples/two-good.img")?;
/// let bank = cache::load(&region)?.expect("a good bank");
/// let mut rows = bank.rows(&region, 0, table::STOPS);
/// let first = rows.next().expect("a row")?;
/// assert_eq!(first.values().count(), 3);
/// assert!(rows.all(|row| row.is_ok()));
/// # Ok::<(), Box<dyn std::error::Error>>(())
/// ```
#[derive(Clone, Debug)]
pub struct Rows<'a> {
    region: &'a [u8],
    bank: u32,
    source: u32,
    table: u32,
    offset: usize,
    ended: bool,
}

impl<'a> Rows<'a> {
    pub(super) fn new(region: &'a [u8], bank: u32, source: u32, table: u32) -> Self {
        Self { region, bank, source, table, offset: 0, ended: false }
    }

    /// The offset in the table of the row that comes next, or of the one that was
    /// refused; 0 before the first.
    pub fn offset(&self) -> usize {
        self.offset
    }

    fn read(&mut self) -> Result<Option<Row>, Refusal> {
        let mut row = Row { texts: [0; MAX_ROW], ends: [0; MAX_COLUMNS], count: 0 };
        let answer = banks::bank_row(
            self.region,
            self.bank,
            self.source,
            self.table,
            self.offset,
            &mut row.texts,
            &mut row.ends,
        );
        row.count = rows::column_count(self.table).count;
        if answer.found == 1 {
            self.offset = answer.next;
        }
        answered(answer.refusal, (answer.found == 1).then_some(row))
    }
}

impl Iterator for Rows<'_> {
    type Item = Result<Row, Refusal>;

    fn next(&mut self) -> Option<Self::Item> {
        while !self.ended {
            let names = self.offset == 0;
            match self.read() {
                Ok(Some(_)) if names => (),
                Ok(Some(row)) => return Some(Ok(row)),
                Ok(None) => self.ended = true,
                Err(refusal) => {
                    self.ended = true;
                    return Some(Err(refusal));
                }
            }
        }
        None
    }
}

impl FusedIterator for Rows<'_> {}

/// A row with its values.
///
/// ```
/// use bankcore::{cache, constants::{column, table}};
/// let region = std::fs::read("../../samples/two-good.img")?;
/// let bank = cache::load(&region)?.expect("a good bank");
/// let row = bank.rows(&region, 0, table::ROUTES).next().expect("a row")?;
/// assert_eq!(row.value(column::routes::ROUTE_ID), row.values().next());
/// assert_eq!(row.value(column::routes::COUNT), None);
/// # Ok::<(), Box<dyn std::error::Error>>(())
/// ```
#[derive(Clone, PartialEq, Eq)]
pub struct Row {
    texts: [u8; MAX_ROW],
    ends: [usize; MAX_COLUMNS],
    count: usize,
}

impl Row {
    /// The values, column by column.
    pub fn values(&self) -> impl ExactSizeIterator<Item = &[u8]> {
        values(&self.texts, &self.ends[..self.count])
    }

    /// The value of a column; none at or past the number of columns.
    pub fn value(&self, column: usize) -> Option<&[u8]> {
        self.values().nth(column)
    }
}

impl fmt::Debug for Row {
    fn fmt(&self, f: &mut fmt::Formatter) -> fmt::Result {
        f.debug_list().entries(self.values()).finish()
    }
}

/// The values of a row that was read into lent outputs: each goes from where the one
/// before it ends to its own end. Where the ends aren't such offsets, a value is
/// empty.
pub fn values<'a>(out: &'a [u8], ends: &'a [usize]) -> impl ExactSizeIterator<Item = &'a [u8]> {
    (0..ends.len()).map(move |i| {
        let start = if i == 0 { 0 } else { ends[i - 1] };
        out.get(start..ends[i]).unwrap_or(&[])
    })
}
