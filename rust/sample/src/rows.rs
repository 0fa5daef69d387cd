//! Rows as the lifted `Writer` writes them, and stored rows.
use crate::{banks, hex, region::Region};
use common::{Random, made::SECTOR};
use lifted::{
    cache::{
        Bank, Metadata,
        door::{self, SourceFields, Update},
    },
    gtfs::{Error, Table, csv::values::Values},
    standins::{flash::Flash, settings},
};
use std::fmt::{Result, Write as _};

const CHECKED: i64 = 1_790_000_000;
/// The longest row that document 01 allows, with its LF.
const LONGEST: usize = 8192;

/// Numbers of 16 bits in hexadecimal.
fn pairs(numbers: impl Iterator<Item = usize>) -> String {
    hex(&numbers.flat_map(|n| (n as u16).to_le_bytes()).collect::<Vec<_>>())
}

/// What the writer writes.
fn written(call: impl FnOnce(&mut Update<'_, Flash>) -> std::result::Result<(), Error>) -> Vec<u8> {
    let flash = Flash::default();
    let mut metadata = Metadata::default();
    let mut update = Update::new(&flash, None, false, CHECKED, &mut metadata);
    call(&mut update).expect("room");
    let length = update.position() as usize;
    update.flush().expect("a flash");
    flash.region.borrow()[SECTOR..][..length].to_vec()
}

/// A record of a table, `None` for a column that the feed doesn't have.
fn values(table: Table, row: &[Option<String>]) -> Values {
    let columns = door::columns(table).iter().copied();
    Values::new(table, columns.zip(row).filter_map(|(c, v)| Some((c, v.as_deref()?))))
}

fn value(random: &mut Random) -> Option<String> {
    let pieces =
        ["\"", ",", "\r", "\n", " ", "a", "7", "Åsane", "\"\"", "08:30:00", ";", "'", "\t"];
    match random.below(6) {
        0 => None,
        1 => Some(String::new()),
        2 => Some((0..random.below(40)).map(|_| random.pick(b"abcXYZ019_-") as char).collect()),
        _ => Some((0..random.below(6)).map(|_| random.pick(&pieces)).collect()),
    }
}

fn row(random: &mut Random, table: Table) -> Vec<Option<String>> {
    door::columns(table).iter().map(|_| value(random)).collect()
}

fn line(out: &mut String, table: Table, row: &[Option<String>]) -> Result {
    let texts: String = row.iter().flatten().map(String::as_str).collect();
    let lengths = pairs(row.iter().map(|v| v.as_ref().map_or(0, String::len)));
    let bytes = written(|update| update.row(values(table, row).record()));
    let texts = hex(texts.as_bytes());
    writeln!(out, "row {} {texts} {lengths} {}", table as usize, hex(&bytes))
}

/// Names lines and rows of every table.
fn rows(out: &mut String, random: &mut Random) -> Result {
    for table in Table::ALL {
        let bytes = written(|update| update.start(table));
        writeln!(out, "names {} {}", table as usize, hex(&bytes))?;
    }
    for table in Table::ALL {
        let width = door::columns(table).len();
        for same in ["", " ", "\"", ",", "\n", "\r", "a\"b", "\"\"", "x"] {
            line(out, table, &vec![Some(same.into()); width])?;
        }
        line(out, table, &vec![None; width])?;
        for _ in 0..12 {
            line(out, table, &row(random, table))?;
        }
    }
    // quotes that are doubled up to the longest row: two more around them, commas and LF
    let quotes = (LONGEST - 4) / 2;
    line(out, Table::FeedInfo, &[Some("\"".repeat(quotes)), None])?;
    line(out, Table::FeedInfo, &[Some("y".repeat(300)), Some("z,".repeat(400))])
}

/// A table of rows: its names, then rows of at least one value.
fn stored(random: &mut Random, table: Table) -> Vec<Vec<String>> {
    let names = door::columns(table).iter().map(|c| c.name().into()).collect();
    let mut list = vec![names];
    for _ in 0..3 + random.below(4) {
        list.push(row(random, table).into_iter().map(Option::unwrap_or_default).collect());
    }
    list
}

/// A table in a bank's data.
struct Placed {
    table: Table,
    rows: Vec<Vec<String>>,
    /// Its offset in the data.
    from: u32,
    /// The offset of its rows in it, and its length.
    places: Vec<u32>,
}

/// Writes a table.
fn place(update: &mut Update<'_, Flash>, table: Table, rows: Vec<Vec<String>>) -> Placed {
    let from = update.position();
    update.start(table).expect("room");
    let mut places = vec![0];
    for row in &rows[1..] {
        places.push(update.position() - from);
        let row: Vec<_> = row.iter().cloned().map(Some).collect();
        update.row(values(table, &row).record()).expect("room");
    }
    places.push(update.position() - from);
    update.end(table);
    Placed { table, rows, from, places }
}

/// The lifted reader gives these rows, if it is available.
fn read_back(flash: &Flash, bank: Bank, table: Table, rows: &[Vec<String>]) {
    #[cfg(feature = "reader")]
    assert_eq!(door::rows(flash, bank, 0, table).expect("rows"), rows);
    #[cfg(not(feature = "reader"))]
    let _ = (flash, bank, table, rows);
}

/// The lifted reader gives these rows of a table's bytes, if it is available.
#[cfg(feature = "reader")]
fn read_bytes(bytes: &[u8], table: Table, rows: &[Vec<String>]) {
    use lifted::{
        gtfs::csv::Reader,
        standins::{
            embedded_io_async::{ErrorType, Read},
            run::block_on,
        },
    };
    struct Bytes<'a>(&'a [u8]);
    impl ErrorType for Bytes<'_> {
        type Error = Error;
    }
    impl Read for Bytes<'_> {
        async fn read(&mut self, out: &mut [u8]) -> std::result::Result<usize, Error> {
            let n = out.len().min(self.0.len());
            let (now, later) = self.0.split_at(n);
            out[..n].copy_from_slice(now);
            self.0 = later;
            Ok(n)
        }
    }
    let mut reader = Reader::<_>::new(Bytes(bytes), table);
    for row in rows {
        let record = block_on(reader.next()).expect("a row").expect("a row");
        let value = |c: &_| record.get(*c).unwrap_or("").to_string();
        assert_eq!(door::columns(table).iter().map(value).collect::<Vec<_>>(), *row);
    }
    assert!(block_on(reader.next()).expect("an end").is_none());
}
#[cfg(not(feature = "reader"))]
fn read_bytes(_: &[u8], _: Table, _: &[Vec<String>]) {}

/// The same tables with CRLF after each row, one after the other in a region.
fn crlf_tables(out: &mut String, flash: &Flash, placed: &[Placed]) -> Result {
    let mut region = Region::new(out, 255)?;
    let mut from = 0;
    let mut moved = Vec::new();
    for Placed { table, rows, from: start, places } in placed {
        let text = &flash.region.borrow()[SECTOR + *start as usize..];
        let (mut bytes, mut at) = (Vec::new(), vec![0]);
        for pair in places.windows(2) {
            let row = &text[pair[0] as usize..pair[1] as usize];
            bytes.extend_from_slice(&row[..row.len() - 1]);
            bytes.extend_from_slice(b"\r\n");
            at.push(bytes.len() as u32);
        }
        read_bytes(&bytes, *table, &rows[1..]);
        region.bytes[SECTOR + from as usize..][..bytes.len()].copy_from_slice(&bytes);
        moved.push(Placed { table: *table, rows: rows.clone(), from, places: at });
        from += bytes.len() as u32;
    }
    region.write(out)?;
    moved.iter().try_for_each(|placed| reads(out, placed))
}

/// Each row of a table as it was given, then the table's end.
fn reads(out: &mut String, placed: &Placed) -> Result {
    let Placed { table, rows, from, places } = placed;
    let from = SECTOR as u32 + from;
    let (length, width) = (places[places.len() - 1], door::columns(*table).len());
    for (row, pair) in rows.iter().zip(places.windows(2)) {
        let ends = row.iter().scan(0, |end, v| {
            *end += v.len();
            Some(*end)
        });
        let (ends, values) = (pairs(ends), hex(row.concat().as_bytes()));
        let [place, next] = [pair[0], pair[1]];
        writeln!(out, "read {from} {length} {width} {place} {next} {ends} {values}")?;
    }
    writeln!(out, "read {from} {length} {width} {length} -")
}

/// An update of every table, as the lifted `Writer` writes it; then each row as it
/// was given, by the offset at which the writer began it; and the same with CRLF.
fn tables(out: &mut String, random: &mut Random) -> Result {
    let flash = Flash { identity: b"mdb-1078".to_vec(), ..Flash::default() };
    let config = settings::config(&[["7", "r", "c", "s", "n"]]).expect("one pick");
    let mut metadata = Metadata::default();
    let mut update = Update::new(&flash, None, false, CHECKED, &mut metadata);
    update.key(&config).expect("room");
    let (start, end) = (20260101, 20261231);
    update.source(SourceFields { start, end, ..Default::default() }).expect("room");
    let placed = Table::ALL.map(|table| place(&mut update, table, stored(random, table)));
    update.end_source();
    let bank = update.commit().expect("a good bank");
    let mut region = Region::new(out, 255)?;
    region.bytes.copy_from_slice(&flash.region.borrow());
    banks::questions(out, region)?;
    for placed in &placed {
        read_back(&flash, bank, placed.table, &placed.rows[1..]);
        reads(out, placed)?;
    }
    crlf_tables(out, &flash, &placed)
}

pub fn write(out: &mut String, random: &mut Random) -> Result {
    rows(out, random)?;
    tables(out, random)
}
