//! The stored rows of the bank that load gives, by the lifted reader of stored
//! tables, `csv::Reader`.
use crate::{TABLES, refused, text};
use lifted::{
    cache::{
        Bank, Storage,
        door::{self, BankFields, SECTOR},
    },
    gtfs::{
        Error, Table,
        csv::{Column, Reader},
    },
    standins::{
        embedded_io_async::{ErrorType, Read},
        run::block_on,
        view::View,
    },
};
use std::cell::Cell;

/// Which rows are asked for; none means all.
pub struct Asked {
    pub source: Option<u32>,
    pub table: Option<usize>,
}

/// Bytes, given one at a time and counted, so that the reader reads no more than
/// the row that it gives.
struct Bytes<'a> {
    bytes: &'a [u8],
    taken: &'a Cell<usize>,
}

impl ErrorType for Bytes<'_> {
    type Error = Error;
}

impl Read for Bytes<'_> {
    async fn read(&mut self, out: &mut [u8]) -> Result<usize, Error> {
        let (Some(byte), Some(room)) = (self.bytes.get(self.taken.get()), out.first_mut()) else {
            return Ok(0);
        };
        *room = *byte;
        self.taken.set(self.taken.get() + 1);
        Ok(1)
    }
}

/// Each value in quotes.
fn spell(values: &[String]) -> String {
    text::quoted(values.iter().map(String::as_bytes))
}

/// What the reader says: 14 if it means the row's width or length.
fn error(error: Error) -> String {
    match error {
        Error::InvalidField("CSV record width") | Error::RecordTooLong | Error::TooManyFields => {
            refused(14)
        }
        other => format!("the Rust says {other:?}"),
    }
}

/// A row: its offset, and its values or the reader's error.
type Row = (usize, Result<Vec<String>, Error>);

/// The reader over a table's bytes.
struct Rows<'a> {
    bytes: &'a [u8],
    reader: Reader<Bytes<'a>>,
    taken: &'a Cell<usize>,
    columns: &'static [Column],
}

impl<'a> Rows<'a> {
    fn new(bytes: &'a [u8], taken: &'a Cell<usize>, t: Table) -> Self {
        let reader = Reader::new(Bytes { bytes, taken }, t);
        Self { bytes, reader, taken, columns: door::columns(t) }
    }
    /// The next row's values, and its end. The reader ends a row at a CR, and of a
    /// CRLF takes the LF with the next row: that LF is stepped over here.
    fn next(&mut self) -> Option<(Result<Vec<String>, Error>, usize)> {
        let values = match block_on(self.reader.next()) {
            Ok(None) => return None,
            Ok(Some(record)) => {
                let value = |c: &Column| record.get(*c).unwrap_or("").into();
                Ok(self.columns.iter().map(value).collect())
            }
            Err(error) => Err(error),
        };
        let end = self.taken.get();
        let crlf = self.bytes[..end].ends_with(b"\r") && self.bytes[end..].starts_with(b"\n");
        Some((values, end + usize::from(crlf)))
    }
}

/// The stored names line, which the reader keeps for itself: it is given the
/// table's own names before it, and so reads it as a row. With its end; none if all
/// lines are empty.
fn names(bytes: &[u8], t: Table) -> Option<(Result<Vec<String>, Error>, usize)> {
    let own: Vec<&str> = door::columns(t).iter().map(|c| c.name()).collect();
    let own = own.join(",") + "\n";
    let all = [own.as_bytes(), bytes].concat();
    let taken = Cell::new(0);
    let (values, end) = Rows::new(&all, &taken, t).next()?;
    Some((values, end - own.len()))
}

/// The rows that the reader gives of a table's bytes, the names line first; only
/// the error if it refuses the names.
fn rows(bytes: &[u8], t: Table) -> Vec<Row> {
    let first = names(bytes, t);
    let mut place = first.as_ref().map_or(bytes.len(), |(_, end)| *end);
    let taken = Cell::new(0);
    if let Some((refused, _)) = Rows::new(&bytes[..place], &taken, t).next() {
        return vec![(0, refused)];
    }
    let mut out: Vec<Row> = first.into_iter().map(|(values, _)| (0, values)).collect();
    taken.set(0);
    let mut rest = Rows::new(bytes, &taken, t);
    while let Some((values, end)) = rest.next() {
        let last = values.is_err();
        out.push((place, values));
        if last {
            break;
        }
        place = end;
    }
    out
}

fn table(flash: &View, bank: Bank, i: u32, t: usize) -> Result<Vec<String>, Error> {
    let start = |place| format!("row {i} {} {place}: ", TABLES[t]);
    let source = match door::source(bank, flash, i as usize) {
        Ok(source) => source,
        Err(Error::InvalidZip) => return Ok(vec![start(0) + &refused(6)]),
        Err(other) => return Err(other),
    };
    let [offset, length, _] = source.tables[t];
    if length == 0 {
        return Ok(Vec::new());
    }
    let mut bytes = vec![0; length as usize];
    flash.read(BankFields::from(bank).offset + SECTOR + offset, &mut bytes)?;
    let line = |(place, row): Row| start(place) + &row.map_or_else(error, |values| spell(&values));
    Ok(rows(&bytes, Table::ALL[t]).into_iter().map(line).collect())
}

pub fn lines(flash: &View, bank: Bank, asked: &Asked) -> Result<Vec<String>, Error> {
    let sources = asked.source.map_or(0..BankFields::from(bank).count, |i| i..i + 1);
    let tables = asked.table.map_or(0..TABLES.len(), |t| t..t + 1);
    let mut out = Vec::new();
    for i in sources {
        for t in tables.clone() {
            out.extend(table(flash, bank, i, t)?);
        }
    }
    Ok(out)
}
