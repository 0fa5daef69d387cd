//! Stored rows as they are read: whole tables, damaged ones, every short one.
use crate::{
    rows::{LONGEST, columns, text},
    run::{Case, Plan, Tally},
    shrink::{Input, Moves, bytes, each, fewer, number},
    wrong::{Wrong, tried},
};
use bankcore::rows::{self, ReadAnswer, Values};
use common::Random;

/// The row at the front and its end, by document 01's sentences and request E4's;
/// none if it is malformed. Nothing here is the core's or the Rust's.
fn row_at(bytes: &[u8]) -> Option<(Vec<Vec<u8>>, usize)> {
    enum At {
        Begin,
        Plain,
        Quoted,
        Closed,
    }
    use At::*;
    let mut values = vec![vec![]];
    let mut at = Begin;
    for (i, &b) in bytes.iter().enumerate() {
        let value: &mut Vec<u8> = values.last_mut()?;
        match (&at, b) {
            (Begin, b'"') => at = Quoted,
            // a quote inside an unquoted field
            (Plain, b'"') => return None,
            (Quoted, b'"') => at = Closed,
            (Closed, b'"') => {
                value.push(b);
                at = Quoted;
            }
            (Quoted, _) => value.push(b),
            (_, b',') => {
                values.push(vec![]);
                at = Begin;
            }
            (_, b'\n') => return Some((values, i + 1)),
            // CRLF outside quotes is one row end; a CR without an LF after it is malformed
            (_, b'\r') => {
                return (bytes.get(i + 1) == Some(&b'\n')).then_some((values, i + 2));
            }
            // a byte other than a comma or row end after a closing quote
            (Closed, _) => return None,
            _ => {
                value.push(b);
                at = Plain;
            }
        }
    }
    // the table ends before its row does
    None
}

#[cfg(feature = "reader")]
pub use judges::*;
#[cfg(feature = "reader")]
mod judges {
    use csv_core::{ReadRecordResult, Reader};
    use lifted::{
        cache::door,
        gtfs::{self, Table},
        standins::{
            embedded_io_async::{ErrorType, Read},
            run::block_on,
        },
    };
    use std::cell::RefCell;

    thread_local! {
        static READER: RefCell<Reader> = RefCell::new(Reader::new());
    }

    fn next(reader: &mut Reader, bytes: &[u8]) -> Option<(Vec<Vec<u8>>, usize)> {
        let (mut out, mut ends) = ([0; 8192], [0; 64]);
        let (result, read, _, count) = reader.read_record(bytes, &mut out, &mut ends);
        if result != ReadRecordResult::Record {
            return None;
        }
        let mut from = 0;
        let one = |&to: &usize| {
            let value = out[from..to].to_vec();
            from = to;
            value
        };
        Some((ends[..count].iter().map(one).collect(), read))
    }

    /// The row at the front by csv-core's reader. It ends a row at CR, LF or CRLF, and
    /// of a CRLF it takes the LF with the next read.
    pub fn csv_record(bytes: &[u8]) -> Option<(Vec<Vec<u8>>, usize)> {
        READER.with_borrow_mut(|reader| {
            reader.reset();
            let (row, end) = next(reader, bytes)?;
            let crlf = bytes[..end].ends_with(b"\r") && bytes[end..].starts_with(b"\n");
            Some((row, end + usize::from(crlf)))
        })
    }

    /// All rows by csv-core's reader.
    pub fn csv_records(bytes: &[u8]) -> Vec<Vec<Vec<u8>>> {
        READER.with_borrow_mut(|reader| {
            reader.reset();
            let (mut rows, mut place) = (Vec::new(), 0);
            while let Some((row, read)) = next(reader, &bytes[place..]) {
                rows.push(row);
                place += read;
            }
            rows
        })
    }

    /// A table's bytes for the lifted reader.
    struct Bytes<'a>(&'a [u8]);
    impl ErrorType for Bytes<'_> {
        type Error = gtfs::Error;
    }
    impl Read for Bytes<'_> {
        async fn read(&mut self, out: &mut [u8]) -> Result<usize, gtfs::Error> {
            let n = out.len().min(self.0.len());
            let (now, later) = self.0.split_at(n);
            out[..n].copy_from_slice(now);
            self.0 = later;
            Ok(n)
        }
    }

    /// The rows after the names line by the lifted `csv::Reader`, up to the first
    /// that it refuses.
    pub fn lifted_records(bytes: &[u8], table: Table) -> Vec<Vec<Vec<u8>>> {
        let mut reader = gtfs::csv::Reader::<_>::new(Bytes(bytes), table);
        let mut rows = Vec::new();
        while let Ok(Some(row)) = block_on(reader.next()) {
            let value = |c: &_| row.get(*c).unwrap_or("").as_bytes().to_vec();
            rows.push(door::columns(table).iter().map(value).collect());
        }
        rows
    }
}

/// The answer, and the content of the outputs.
type Outcome = (ReadAnswer, Vec<u8>, Vec<usize>);

struct Question<'a> {
    table: &'a [u8],
    width: usize,
    place: usize,
    room: usize,
    slots: usize,
}

impl Question<'_> {
    fn lent(&self) -> (Vec<u8>, Vec<usize>) {
        let out = (0..self.room).map(|i| (i as u8).wrapping_mul(29) ^ 0x5a).collect();
        (out, (0..self.slots).map(|i| usize::MAX - i).collect())
    }
    fn core(&self) -> Outcome {
        let (mut out, mut ends) = self.lent();
        let mut answer = rows::read_row(self.table, self.width, self.place, &mut out, &mut ends);
        let commas = || self.table.iter().filter(|b| **b == b',').count();
        if tried(Wrong::Stored) && answer.found == 1 && commas() > 2 {
            answer.found = 0;
        }
        (answer, out, ends)
    }
    /// 14 past the end; none at it; 14 for a malformed row, another number of
    /// values or over 8,192 bytes; then 9.
    fn expected(&self, row: Option<&(Vec<Vec<u8>>, usize)>) -> Outcome {
        let (mut out, mut ends) = self.lent();
        let refused = |refusal| ReadAnswer { refusal, ..ReadAnswer::default() };
        let answer = match row {
            _ if self.place > self.table.len() => refused(14),
            _ if self.place == self.table.len() => refused(0),
            Some((values, length)) if values.len() == self.width && *length <= LONGEST => {
                let joined = values.concat();
                if joined.len() > self.room || self.width > self.slots {
                    refused(9)
                } else {
                    out[..joined.len()].copy_from_slice(&joined);
                    let mut to = 0;
                    for (end, value) in ends.iter_mut().zip(values) {
                        to += value.len();
                        *end = to;
                    }
                    let next = self.place + length;
                    ReadAnswer { refusal: 0, found: 1, next, size: to }
                }
            }
            _ => refused(14),
        };
        (answer, out, ends)
    }
    fn ask(&self, tally: &mut Tally, row: Option<&(Vec<Vec<u8>>, usize)>) -> ReadAnswer {
        let expected = self.expected(row);
        tally.refused(expected.0.refusal);
        let core = self.core();
        let answer = core.0;
        tally.same(core, expected, || self.describe("read_row"));
        answer
    }
    fn describe(&self, what: &str) -> (Vec<u64>, String) {
        let from = self.table.get(self.place..).unwrap_or_default();
        let shown = from[..from.len().min(60)].escape_ascii();
        let Self { table, width, place, room, slots } = self;
        (
            vec![table.len() as u64, *width as u64],
            format!(
                "{what}, width {width} at {place} of {}, {room} bytes and {slots} ends, \
                 there is {shown}",
                table.len()
            ),
        )
    }
}

/// What csv-core can say of a row that is read: its values and its end. It skips
/// lines without a byte, and a byte order mark.
fn beside_csv(tally: &mut Tally, question: &Question, answer: ReadAnswer) {
    #[cfg(feature = "reader")]
    if answer.found == 1 {
        let bytes = &question.table[question.place..];
        if !b"\r\n".contains(&bytes[0]) && !bytes.starts_with(b"\xef\xbb\xbf") {
            let (_, out, ends) = question.core();
            let mut from = 0;
            let one = |&to: &usize| {
                let value = out[from..to].to_vec();
                from = to;
                value
            };
            let values: Vec<Vec<u8>> = ends[..question.width].iter().map(one).collect();
            let core = Some((values, answer.next - question.place));
            tally.same(core, csv_record(bytes), || question.describe("beside csv-core"));
            return tally.count("rows beside csv-core", 1);
        }
    }
    let _ = (tally, question, answer);
}

/// Bytes after a table, so that its rows can be read by blocks: the core's fast path
/// needs 16 after the row, and 16 to spare in the output.
const AFTER: [u8; 24] = [b'z'; 24];
const SPARE: usize = 40;

/// Bytes before the tables of at most this length, so that a CR is the last byte of a
/// word of eight, and its LF the first of the next.
const BEFORE: [u8; 7] = [b'b'; 7];
const MOVED: usize = 5;

/// Every table of up to n bytes, read at its start with widths 0 to 5; and again with
/// bytes after it and a longer output, short ones also with bytes before them.
fn short_tables(plan: &Plan, tally: &mut Tally) {
    const BYTES: [u8; 5] = *b"a\",\n\r";
    let longest = if plan.quick { 5 } else { 8 };
    let mut tables = 0;
    for length in 0..=longest {
        let mut at = vec![0; length];
        loop {
            let table: Vec<u8> = at.iter().map(|&i| BYTES[i]).collect();
            let moved = if length > MOVED { 0 } else { BEFORE.len() };
            let longer = |n: usize| ([&BEFORE[..n], &table, &AFTER].concat(), length + n + SPARE);
            let longer: Vec<_> = (0..=moved).map(longer).collect();
            for (table, room) in [(table, length + 1)].iter().chain(&longer) {
                let (row, room) = (row_at(table), *room);
                for width in 0..6 {
                    let question = Question { table, width, place: 0, room, slots: width };
                    let answer = question.ask(tally, row.as_ref());
                    beside_csv(tally, &question, answer);
                }
            }
            tables += 1;
            let Some(k) = (0..length).rev().find(|&k| at[k] + 1 < BYTES.len()) else {
                break;
            };
            at[k] += 1;
            at[k + 1..].fill(0);
        }
    }
    tally.count("short tables with widths 0 to 5", tables);
}

fn word(random: &mut Random) -> Vec<u8> {
    let length = match random.below(60) {
        0 => random.below(2000),
        1 => 2700,
        2..20 => 0,
        _ => random.below(9),
    };
    let plain = random.once_in(2);
    let byte = |_| match random.below(4) {
        0 if !plain => random.pick(b"\"\",\r\n"),
        1 => random.u32() as u8,
        _ => random.pick(b"abc123 "),
    };
    (0..length).map(byte).collect()
}

/// A table as the core writes it, some rows with CRLF instead, the names line too, and
/// then damaged.
fn table(random: &mut Random, number: usize) -> Vec<u8> {
    let mut out = vec![0; LONGEST];
    let line = rows::names_line(number as u32, &mut out);
    let mut table = Vec::new();
    let ends = random.pick(&[0, 0, 1, 2]);
    let mut push = |random: &mut Random, row: &[u8]| {
        table.extend_from_slice(row);
        if !row.is_empty() && (ends == 1 || ends == 2 && random.once_in(2)) {
            table.truncate(table.len() - 1);
            table.extend_from_slice(b"\r\n");
        }
    };
    push(random, &out[..line.length]);
    for _ in 0..random.below(6) {
        let values: Vec<Vec<u8>> = (0..columns(number)).map(|_| word(random)).collect();
        let lengths: Vec<u32> = values.iter().map(|v| v.len() as u32).collect();
        let handed = Values { texts: &values.concat(), lengths: &lengths };
        let row = rows::row(number as u32, handed, &mut out);
        push(random, &out[..row.length]);
    }
    for _ in 0..random.pick(&[0, 1, 1, 1, 2, 3]) {
        let at = random.below(table.len() + 1);
        match random.below(6) {
            0 => table.truncate(at),
            1 => table.insert(at, random.pick(b"\"\",\n\r x")),
            2 if at < table.len() => {
                table.remove(at);
            }
            3 if at < table.len() => table[at] ^= 1 << random.below(8),
            4 if at < table.len() => table[at] = random.pick(b"\"\",\n\r x"),
            // a long piece, so that a row passes 8,192 bytes
            5 if random.once_in(3) => {
                let more = LONGEST - 40 + random.below(80);
                let piece = vec![random.pick(b"y\","); more];
                table.splice(at..at, piece);
            }
            _ => {}
        }
    }
    table
}

/// One read: its offset and width, and the outputs' lengths.
#[derive(Clone, Copy)]
struct Read {
    place: usize,
    width: usize,
    room: usize,
    slots: usize,
}

impl Read {
    fn random(random: &mut Random, table: &[u8], width: usize, place: usize) -> Self {
        let row = table.get(place..).and_then(row_at);
        let size = row.as_ref().map_or(0, |(values, _)| values.iter().map(Vec::len).sum());
        let count = row.as_ref().map_or(width, |(values, _)| values.len());
        let widths = [count, width, count + 1, count - 1, 0, usize::MAX];
        let width = if random.once_in(2) { width } else { random.pick(&widths) };
        let few = width.min(20);
        let short = [size.saturating_sub(1), 0, random.below(size + 1)];
        let spare = random.pick(&[0, 1, 2, 15, 16, SPARE]);
        let room = if random.once_in(4) { random.pick(&short) } else { size + spare };
        let slots = if random.once_in(8) { random.below(few + 1) } else { few + random.below(3) };
        Self { place, width, room, slots }
    }
    fn smaller(&self) -> Moves<'_, Self> {
        let one = |n: usize| number(n as u64).map(|n| n as usize);
        let places = one(self.place).map(|place| Self { place, ..*self });
        let widths = one(self.width).map(|width| Self { width, ..*self });
        let rooms = one(self.room).map(|room| Self { room, ..*self });
        let slots = one(self.slots).map(|slots| Self { slots, ..*self });
        Box::new(places.chain(widths).chain(rooms).chain(slots))
    }
}

/// A table as it is stored, damaged or not, read row by row and at other offsets.
#[derive(Clone)]
pub struct Stored {
    table: Vec<u8>,
    reads: Vec<Read>,
}

impl Input for Stored {
    fn make(case: &Case) -> Self {
        let mut random = case.random();
        let number = random.below(8);
        let table = table(&mut random, number);
        let mut places =
            vec![table.len(), table.len() + 1, usize::MAX, random.below(table.len() + 3)];
        let mut at = 0;
        while let Some((_, length)) = table.get(at..).filter(|t| !t.is_empty()).and_then(row_at) {
            places.push(at);
            at += length;
        }
        places.push(at);
        let width = columns(number);
        let read = |place| [0; 2].map(|_| Read::random(&mut random, &table, width, place));
        let reads = places.into_iter().flat_map(read).collect();
        Self { table, reads }
    }
    fn compare(&self, tally: &mut Tally) {
        for Read { place, width, room, slots } in self.reads.iter().copied() {
            let question = Question { table: &self.table, width, place, room, slots };
            let row = self.table.get(place..).and_then(row_at);
            let answer = question.ask(tally, row.as_ref());
            beside_csv(tally, &question, answer);
        }
        tally.count("stored tables, damaged or not", 1);
    }
    fn smaller(&self) -> Moves<'_, Self> {
        let reads = fewer(&self.reads).chain(each(&self.reads, Read::smaller));
        let reads = reads.map(|reads| Self { reads, ..self.clone() });
        Box::new(reads.chain(bytes(&self.table).map(|table| Self { table, ..self.clone() })))
    }
    fn show(&self) -> Vec<String> {
        let table = format!("table of {} bytes: {}", self.table.len(), text(&self.table));
        let read = |r: &Read| {
            let Read { place, width, room, slots } = r;
            format!("read_row at {place}, width {width}, into {room} bytes and {slots} ends")
        };
        std::iter::once(table).chain(self.reads.iter().map(read)).collect()
    }
}

/// 14 and 9 at once: each way to be malformed with outputs that are too short,
/// one, the other or both.
fn at_once(tally: &mut Tally) {
    let long = |n: usize, end: &[u8]| [&b"a,"[..], &vec![b'x'; n], end].concat();
    let bad: [(&str, Vec<u8>, usize, usize); 16] = [
        ("a quote in a field", b"a\"b,c\n".to_vec(), 2, 0),
        ("a byte after a closing quote", b"\"a\"b,c\n".to_vec(), 2, 0),
        ("no row end", b"a,b".to_vec(), 2, 0),
        ("no closing quote", b"a,\"b\n".to_vec(), 2, 0),
        ("too few values", b"a,b\n".to_vec(), 3, 0),
        ("too many values", b"a,b\n".to_vec(), 1, 0),
        ("a width of 0", b"a\n".to_vec(), 0, 0),
        ("a place past the end", b"a,b\n".to_vec(), 2, 5),
        ("8,193 bytes", long(LONGEST - 2, b"\n"), 2, 0),
        ("8,193 bytes with CRLF", long(LONGEST - 3, b"\r\n"), 2, 0),
        ("a CR at the table's end", b"a,b\r".to_vec(), 2, 0),
        ("two CRs and an LF", b"a,b\r\r\n".to_vec(), 2, 0),
        ("a CR before a comma", b"a\r,b\n".to_vec(), 2, 0),
        ("a CR in a field", b"a\rb,c\n".to_vec(), 2, 0),
        ("a CR after a closing quote", b"\"a\"\rx,b\n".to_vec(), 2, 0),
        ("a CR after a closing quote, at the end", b"a,\"b\"\r".to_vec(), 2, 0),
    ];
    let longer = |(what, table, width, place): &(&'static str, Vec<u8>, usize, usize)| {
        let place = if *place > 0 { place + AFTER.len() } else { 0 };
        (*what, [&table[..], &AFTER].concat(), *width, place)
    };
    for (what, table, width, place) in bad.iter().cloned().chain(bad.iter().map(longer)) {
        for (room, slots) in [(0, 0), (9000, 0), (0, 9), (9000, 9)] {
            let question = Question { table: &table, width, place, room, slots };
            let row = table.get(place..).and_then(row_at);
            let answer = question.ask(tally, row.as_ref());
            tally.same(answer.refusal, 14, || question.describe(what));
            tally.count("sets of 14 with 9", usize::from(room == 0 || slots < width));
        }
    }
}

/// Rows with quotes of about 1,024 bytes, up to which the core reads a row into a
/// buffer: either row end, whole or cut, with bytes after them or none, into outputs
/// with and without space for a block of 16 after the values.
fn around_the_buffer(tally: &mut Tally) {
    for size in 990..1060 {
        for end in [&b"\n"[..], b"\r\n", b"\r", b"\"\n", b""] {
            let value = vec![b'x'; size - 11 - end.len()];
            let row = [b"\"a\"\"\",b,\"c", &value[..], b"\"", end].concat();
            assert_eq!(row.len(), size);
            for table in [row.clone(), [&row[..], &AFTER].concat()] {
                let row = row_at(&table);
                let joined = value.len() + 4;
                for room in [joined - 1, joined, joined + 15, joined + 16, joined + SPARE] {
                    for (width, slots) in [(3, 3), (3, 2), (2, 3), (4, 4), (11, 11)] {
                        let question = Question { table: &table, width, place: 0, room, slots };
                        let answer = question.ask(tally, row.as_ref());
                        let right =
                            match end {
                                b"\n" | b"\r\n" if width == 3 => {
                                    if room >= joined && slots >= width { 0 } else { 9 }
                                }
                                _ => 14,
                            };
                        tally.same(answer.refusal, right, || question.describe("buffer"));
                    }
                }
            }
        }
    }
}

/// The longest row with either row end, its last value with quotes or without, at the
/// table's start or after a row, at the table's end or with bytes after it, into
/// outputs that just fit and just don't; and the same row with a byte more.
fn longest(tally: &mut Tally) {
    for (end, quotes) in [(&b"\n"[..], ""), (b"\r\n", ""), (b"\n", "\""), (b"\r\n", "\"")] {
        let row = |more: usize| {
            let n = LONGEST + more - 2 - 2 * quotes.len() - end.len();
            [b"a,", quotes.as_bytes(), &vec![b'x'; n], quotes.as_bytes(), end].concat()
        };
        let size = LONGEST - 1 - 2 * quotes.len() - end.len();
        for (more, before, after) in (0..8).map(|i| (i & 1, i & 2, i & 4)) {
            let before = if before > 0 { &b"b,c\r\n"[..] } else { b"" };
            let after = if after > 0 { &AFTER[..] } else { b"" };
            let table = [before, &row(more), after].concat();
            let place = before.len();
            let row = row_at(&table[place..]);
            for (room, slots) in [size, size - 1, 0, size + SPARE]
                .into_iter()
                .flat_map(|room| [2, 1, 0].map(|slots| (room, slots)))
            {
                let question = Question { table: &table, width: 2, place, room, slots };
                let answer = question.ask(tally, row.as_ref());
                let right = match more {
                    0 if room >= size && slots == 2 => 0,
                    0 => 9,
                    _ => 14,
                };
                tally.same(answer.refusal, right, || question.describe("longest"));
            }
        }
    }
}

pub fn stored(plan: &Plan, tally: &mut Tally) {
    at_once(tally);
    longest(tally);
    around_the_buffer(tally);
    short_tables(plan, tally);
}
