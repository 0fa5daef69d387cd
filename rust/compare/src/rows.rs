//! Rows: names lines and columns, rows as they are written, and read back.
use crate::{
    run::{Case, Plan, Tally, hex},
    shrink::{Input, Moves, bytes, each, fewer, number},
    update::content::row_line,
    wrong::{Wrong, tried},
};
use bankcore::rows::{self, ColumnAnswer, RowAnswer, Values};
use common::Random;
use lifted::{
    cache::{
        Metadata, OFFSET, Storage,
        door::{self, SECTOR, Update},
    },
    gtfs::{Error, Table, csv::values::Values as Given},
};
use std::cell::RefCell;

/// The longest row, with its row end.
pub const LONGEST: usize = 8192;

/// A flash that keeps what is written after bank 0's header sector.
#[derive(Default)]
struct Sink(RefCell<Vec<u8>>);

impl Storage for Sink {
    fn identity(&self) -> &[u8] {
        &[]
    }
    fn read(&self, _: u32, _: &mut [u8]) -> Result<(), Error> {
        unreachable!("nothing is read while rows are written")
    }
    fn write(&self, offset: u32, bytes: &[u8]) -> Result<(), Error> {
        let mut kept = self.0.borrow_mut();
        assert_eq!((offset - OFFSET - SECTOR) as usize, kept.len());
        kept.extend_from_slice(bytes);
        Ok(())
    }
    fn erase(&self, _: u32, _: u32) -> Result<(), Error> {
        Ok(())
    }
}

/// The lifted `Writer`, for one line at a time.
pub struct Lifted {
    metadata: Metadata,
    sink: Sink,
}

impl Lifted {
    pub fn new() -> Self {
        Self { metadata: Metadata::default(), sink: Sink::default() }
    }
    fn written(
        &mut self,
        fill: impl FnOnce(&mut Update<'_, Sink>) -> Result<(), Error>,
    ) -> Vec<u8> {
        self.sink.0.borrow_mut().clear();
        let mut update = Update::new(&self.sink, None, false, 0, &mut self.metadata);
        fill(&mut update).expect("the Rust writes a line");
        let length = update.position() as usize;
        update.flush().expect("the Rust writes its last bytes");
        let mut bytes = self.sink.0.take();
        bytes.truncate(length);
        bytes
    }
    /// `Writer::start`.
    fn names_line(&mut self, table: usize) -> Vec<u8> {
        self.written(|update| update.start(Table::ALL[table]))
    }
    /// `Writer::row`, if the values are UTF-8.
    fn row(&mut self, table: usize, values: &[&[u8]]) -> Option<Vec<u8>> {
        let table = Table::ALL[table];
        let texts: Vec<&str> =
            values.iter().map(|v| str::from_utf8(v).ok()).collect::<Option<_>>()?;
        let given = Given::new(table, door::columns(table).iter().copied().zip(texts));
        Some(self.written(|update| update.row(given.record())))
    }
}

/// csv-core's writer, whose row ends in LF by default.
#[cfg(feature = "reader")]
fn csv_row(values: &[&[u8]]) -> Option<Vec<u8>> {
    let mut writer = csv_core::Writer::new();
    let size: usize = values.iter().map(|v| 2 * v.len() + 3).sum();
    let mut out = vec![0; size + 1];
    let mut n = 0;
    for (k, value) in values.iter().enumerate() {
        if k > 0 {
            n += writer.delimiter(&mut out[n..]).1;
        }
        let (result, read, wrote) = writer.field(value, &mut out[n..]);
        assert_eq!((result, read), (csv_core::WriteResult::InputEmpty, value.len()));
        n += wrote;
    }
    n += writer.terminator(&mut out[n..]).1;
    out.truncate(n);
    Some(out)
}
#[cfg(not(feature = "reader"))]
fn csv_row(_: &[&[u8]]) -> Option<Vec<u8>> {
    None
}

/// The values as they are passed.
fn cut<'a>(mut texts: &'a [u8], lengths: &[u32]) -> Vec<&'a [u8]> {
    let one = |n: &u32| {
        let (value, rest) = texts.split_at(texts.len().min(*n as usize));
        texts = rest;
        value
    };
    lengths.iter().map(one).collect()
}

pub fn columns(table: usize) -> usize {
    door::columns(Table::ALL[table]).len()
}

/// The row by the lifted writer if the values are UTF-8, else by csv-core's.
fn reference(lifted: &mut Lifted, table: usize, values: &[&[u8]]) -> Option<Vec<u8>> {
    lifted.row(table, values).or_else(|| csv_row(values))
}

/// The answer and the output, which the row's bytes determine.
fn answered(bytes: &[u8], before: &[u8]) -> (RowAnswer, Vec<u8>) {
    let mut after = before.to_vec();
    let refused = |refusal| RowAnswer { refusal, length: 0 };
    let answer = match bytes.len() {
        n if n > LONGEST => refused(14),
        n if n > before.len() => refused(9),
        length => {
            after[..length].copy_from_slice(bytes);
            RowAnswer { refusal: 0, length }
        }
    };
    (answer, after)
}

fn describe(table: u32, values: &[&[u8]], room: usize) -> (Vec<u64>, String) {
    let size: usize = values.iter().map(|v| v.len()).sum();
    let shown: Vec<String> =
        values.iter().map(|v| v[..v.len().min(40)].escape_ascii().to_string()).collect();
    (
        vec![size as u64, values.len() as u64],
        format!("table {table}, {size} bytes of values {shown:?} into {room} bytes"),
    )
}

/// A lent output before the call.
fn lent(room: usize, with: u8) -> Vec<u8> {
    (0..room).map(|i| (i as u8).wrapping_mul(31) ^ with).collect()
}

/// Asks for one row; the answer and every byte of the output are compared.
fn ask(
    tally: &mut Tally,
    table: u32,
    texts: &[u8],
    lengths: &[u32],
    room: usize,
    rust: (RowAnswer, Vec<u8>),
    with: u8,
) {
    let mut out = lent(room, with);
    let mut core = rows::row(table, Values { texts, lengths }, &mut out);
    if tried(Wrong::Row) && texts.contains(&b'"') && texts.contains(&b'\r') && core.length > 0 {
        core.length -= 1;
    }
    tally.same((core, out), rust, || describe(table, &cut(texts, lengths), room));
}

/// Rows with their values, to be read back as one table; `crlf` has them with CRLF
/// after each that isn't too long with it.
pub struct Written {
    table: usize,
    bytes: Vec<u8>,
    crlf: Vec<u8>,
    rows: Vec<Vec<Vec<u8>>>,
}

impl Written {
    pub fn new(table: usize) -> Self {
        let mut bytes = vec![0; 200];
        let line = rows::names_line(table as u32, &mut bytes);
        bytes.truncate(line.length);
        let mut written = Self { table, bytes: Vec::new(), crlf: Vec::new(), rows: Vec::new() };
        written.extend(&bytes);
        written
    }
    fn extend(&mut self, row: &[u8]) {
        self.bytes.extend_from_slice(row);
        match row {
            [fields @ .., b'\n'] if row.len() < LONGEST => {
                self.crlf.extend_from_slice(fields);
                self.crlf.extend_from_slice(b"\r\n");
            }
            _ => self.crlf.extend_from_slice(row),
        }
    }
    fn push(&mut self, row: &[u8], values: &[&[u8]]) {
        self.extend(row);
        self.rows.push(values.iter().map(|v| v.to_vec()).collect());
    }
    fn names(&self) -> Vec<Vec<u8>> {
        let columns = door::columns(Table::ALL[self.table]);
        columns.iter().map(|c| c.name().as_bytes().to_vec()).collect()
    }
    /// Reads all back, with LF and with CRLF.
    fn read_back(&mut self, tally: &mut Tally) {
        self.read_table(tally, &self.bytes);
        self.read_table(tally, &self.crlf);
        *self = Self::new(self.table);
    }
    /// By the core, by csv-core and by the Rust's own reader.
    fn read_table(&self, tally: &mut Tally, bytes: &[u8]) {
        let table = self.table;
        let input = |k: usize, by: &str, row: Option<&Vec<Vec<u8>>>| {
            let values: Vec<&[u8]> = row.map_or(Vec::new(), |r| r.iter().map(|v| &v[..]).collect());
            let (order, text) = describe(table as u32, &values, 0);
            (order, format!("row {k} read back by {by}: {text}"))
        };
        let mut place = 0;
        let names = self.names();
        for (k, values) in std::iter::once(&names).chain(&self.rows).enumerate() {
            let (core, read) = values_at(bytes, columns(table), place);
            tally.same((core.refusal, core.found), (0, 1), || input(k, "the core", Some(values)));
            tally.same(&read, values, || input(k, "the core", Some(values)));
            if core.found == 0 {
                break;
            }
            place = core.next;
        }
        let (core, _) = values_at(bytes, columns(table), place);
        tally.same((core.refusal, core.found), (0, 0), || input(0, "the core, the end", None));
        tally.same(place, bytes.len(), || input(0, "the core, the end's place", None));
        #[cfg(feature = "reader")]
        {
            let read = crate::stored::csv_records(bytes);
            tally.same(read.len(), self.rows.len() + 1, || input(0, "csv-core, all", None));
            for (k, (read, values)) in read.iter().skip(1).zip(&self.rows).enumerate() {
                tally.same(read, values, || input(k, "csv-core", Some(values)));
            }
            if self.rows.iter().flatten().all(|v| str::from_utf8(v).is_ok()) {
                let read = crate::stored::lifted_records(bytes, Table::ALL[table]);
                tally.same(read.len(), self.rows.len(), || input(0, "the Rust, all", None));
                for (k, (read, values)) in read.iter().zip(&self.rows).enumerate() {
                    tally.same(read, values, || input(k, "the Rust", Some(values)));
                }
            }
        }
    }
}

/// A row at an offset, by the core, with its values.
fn values_at(table: &[u8], width: usize, place: usize) -> (rows::ReadAnswer, Vec<Vec<u8>>) {
    let (mut out, mut ends) = ([0; LONGEST], [0; 16]);
    let answer = rows::read_row(table, width, place, &mut out, &mut ends);
    let mut from = 0;
    let one = |&to: &usize| {
        let value = out.get(from..to).unwrap_or_default().to_vec();
        from = to;
        value
    };
    let values = if answer.found == 1 { ends[..width].iter().map(one).collect() } else { vec![] };
    (answer, values)
}

/// Every table number, with outputs of every length around the line's.
pub fn names(_: &Plan, tally: &mut Tally) {
    let mut lifted = Lifted::new();
    for table in (0..40).chain([255, 256, 1 << 16, u32::MAX - 7, u32::MAX]) {
        let line = ((table as usize) < 8).then(|| lifted.names_line(table as usize));
        let count = match &line {
            Some(_) => ColumnAnswer { refusal: 0, count: columns(table as usize) },
            None => ColumnAnswer { refusal: 2, count: 0 },
        };
        tally.same(rows::column_count(table), count, || {
            (vec![table.into()], format!("column_count of table {table}"))
        });
        tally.count("names lines", usize::from(line.is_some()));
        for room in 0..line.as_ref().map_or(3, |line| line.len() + 4) {
            let before = lent(room, table as u8);
            let rust = match &line {
                Some(line) => answered(line, &before),
                None => (RowAnswer { refusal: 2, length: 0 }, before.clone()),
            };
            let mut out = before;
            let core = rows::names_line(table, &mut out);
            tally.same((core, out), rust, || {
                (vec![table.into(), room as u64], format!("names of table {table} into {room}"))
            });
        }
        if let Some(line) = line {
            // the line is the row of the names
            let names: Vec<&[u8]> = door::columns(Table::ALL[table as usize])
                .iter()
                .map(|c| c.name().as_bytes())
                .collect();
            let row = lifted.row(table as usize, &names);
            tally.same(Some(line), row, || {
                (vec![table.into()], format!("names of {table} as a row"))
            });
            Written::new(table as usize).read_back(tally);
        }
    }
}

/// All values up to a length, over some bytes.
fn all_values(bytes: &[u8], longest: usize) -> Vec<Vec<u8>> {
    let mut all = vec![vec![]];
    let mut from = 0;
    for _ in 0..longest {
        let to = all.len();
        for i in from..to {
            for &b in bytes {
                let mut longer: Vec<u8> = all[i].clone();
                longer.push(b);
                all.push(longer);
            }
        }
        from = to;
    }
    all
}

const ALL: [&str; 5] = [
    "short rows of Routes",
    "short rows of Stops",
    "short rows of Trips",
    "short rows of StopTimes",
    "short rows of Calendar",
];
const ALL_FEED_INFO: &str = "short rows of FeedInfo";

/// All rows of a table with values from a list.
fn all_rows(tally: &mut Tally, lifted: &mut Lifted, table: usize, of: &[Vec<u8>]) {
    let width = columns(table);
    let mut at = vec![0; width];
    let mut written = Written::new(table);
    let mut count = 0;
    let (mut texts, mut lengths) = (Vec::new(), Vec::new());
    loop {
        let values: Vec<&[u8]> = at.iter().map(|&i| &of[i][..]).collect();
        texts.clear();
        lengths.clear();
        for value in &values {
            texts.extend_from_slice(value);
            lengths.push(value.len() as u32);
        }
        let bytes = lifted.row(table, &values).expect("the values are UTF-8");
        // one byte too few once in a while, else some more
        let room = if count % 16 == 15 { bytes.len() - 1 } else { bytes.len() + count % 4 };
        let rust = answered(&bytes, &lent(room, count as u8));
        ask(tally, table as u32, &texts, &lengths, room, rust, count as u8);
        let mut out = [0; 256];
        let core = rows::row(table as u32, Values { texts: &texts, lengths: &lengths }, &mut out);
        written.push(&out[..core.length], &values);
        count += 1;
        if count % 4096 == 0 {
            written.read_back(tally);
        }
        let Some(k) = (0..width).rev().find(|&k| at[k] + 1 < of.len()) else {
            written.read_back(tally);
            return tally.count(ALL.get(table).unwrap_or(&ALL_FEED_INFO), count);
        };
        at[k] += 1;
        at[k + 1..].fill(0);
    }
}

/// A value of random bytes: special ones, letters, any UTF-8, or anything.
fn value(random: &mut Random, any: bool) -> Vec<u8> {
    let length = match random.below(40) {
        0 => random.below(300),
        1..10 => 0,
        10..20 => random.below(30),
        _ => random.below(6),
    };
    let mut out = Vec::new();
    while out.len() < length {
        match random.below(if any { 5 } else { 4 }) {
            0 => out.push(random.pick(b"\"\"\",\r\n ")),
            1 | 2 => out.push(random.pick(b"abcXYZ019 .-_:;'#\\\t\0")),
            3 => {
                let c = char::from_u32(random.u32() % 0x11_0000).unwrap_or('\u{e5}');
                out.extend_from_slice(c.encode_utf8(&mut [0; 4]).as_bytes());
            }
            _ => out.push(random.u32() as u8),
        }
    }
    out
}

/// A row's texts and their lengths, and two outputs: one that just fits, and one of
/// n bytes.
#[derive(Clone)]
struct Row {
    texts: Vec<u8>,
    lengths: Vec<u32>,
    room: usize,
    with: u8,
}

impl Row {
    /// Values of random bytes, lengths that say more than is there, outputs that
    /// are too short, rows around the longest, values over it.
    fn random(random: &mut Random, width: usize, any: bool) -> Self {
        let mut values: Vec<Vec<u8>> = (0..width).map(|_| value(random, any)).collect();
        if random.once_in(12) {
            stretch(random, &mut values);
        }
        let with = random.u32() as u8;
        let mut row = Self { room: 0, with, ..Self::of(&values) };
        match random.below(12) {
            0 => row.texts.extend_from_slice(b"not handed over"),
            1 => row.texts.truncate(random.below(row.texts.len() + 1)),
            2 => row.lengths[width - 1] = u32::MAX,
            3 => row.lengths[random.below(width)] = u32::MAX - random.below(3) as u32,
            _ => {}
        }
        let n = row_line(&row.values()).len();
        let rooms = [n, n + 1, n + 37, n - 1, 0, random.below(n)];
        Self { room: random.pick(&rooms), ..row }
    }
    /// From values, exactly.
    fn of(values: &[Vec<u8>]) -> Self {
        let lengths = values.iter().map(|v| v.len() as u32).collect();
        Self { texts: values.concat(), lengths, room: 0, with: 0 }
    }
    fn values(&self) -> Vec<&[u8]> {
        cut(&self.texts, &self.lengths)
    }
    /// Asks for it twice; the line and its values, if it is written.
    fn ask(&self, tally: &mut Tally, lifted: &mut Lifted, table: usize, written: &mut Written) {
        let Self { texts, lengths, room, with } = self;
        let values = self.values();
        let Some(bytes) = reference(lifted, table, &values) else { return };
        let utf8 = values.iter().all(|v| str::from_utf8(v).is_ok());
        tally.count("random rows", 1);
        tally.count("of them UTF-8", usize::from(utf8));
        #[cfg(feature = "reader")]
        tally.same(Some(&bytes), csv_row(&values).as_ref(), || {
            let (order, text) = describe(table as u32, &values, 0);
            (order, format!("the reference beside csv-core: {text}"))
        });
        for room in [bytes.len(), *room] {
            let rust = answered(&bytes, &lent(room, *with));
            tally.refused(rust.0.refusal);
            ask(tally, table as u32, texts, lengths, room, rust, *with);
        }
        let mut out = [0; LONGEST];
        let core = rows::row(table as u32, Values { texts, lengths }, &mut out);
        if core.refusal == 0 {
            written.push(&out[..core.length], &values);
        }
    }
    /// Shorter values; first the lengths are made those of the texts.
    fn smaller(&self) -> Moves<'_, Self> {
        let Self { room, with, .. } = *self;
        let values: Vec<Vec<u8>> = self.values().iter().map(|v| v.to_vec()).collect();
        let plain = Self { room, with, ..Self::of(&values) };
        if (&plain.texts, &plain.lengths) != (&self.texts, &self.lengths) {
            return Box::new(std::iter::once(plain));
        }
        let all: Vec<Vec<Vec<u8>>> = each(&values, |v| bytes(v)).collect();
        let shorter = all.into_iter().map(move |v| Self { room, with, ..Self::of(&v) });
        let rooms = number(room as u64).map(|n| Self { room: n as usize, ..self.clone() });
        let lent = (with != 0).then(|| Self { with: 0, ..self.clone() });
        Box::new(shorter.chain(rooms).chain(lent))
    }
    fn show(&self) -> String {
        let shown: Vec<String> = self.values().iter().map(|v| text(v)).collect();
        let lengths = &self.lengths;
        format!("row {shown:?}, lengths {lengths:?}, and then into {} bytes", self.room)
    }
}

/// Bytes as text: letters if they are few, else how many and their CRC.
pub fn text(bytes: &[u8]) -> String {
    if bytes.len() > 64 { hex(bytes) } else { bytes.escape_ascii().to_string() }
}

/// Rows of one table, written and then read back.
#[derive(Clone)]
pub struct Rows {
    table: usize,
    rows: Vec<Row>,
}

impl Input for Rows {
    fn make(case: &Case) -> Self {
        let mut random = case.random();
        let (table, any) = (random.below(8), random.once_in(3));
        let count = 1 + random.below(9);
        let rows = (0..count).map(|_| Row::random(&mut random, columns(table), any)).collect();
        Self { table, rows }
    }
    fn compare(&self, tally: &mut Tally) {
        let mut lifted = Lifted::new();
        let mut written = Written::new(self.table);
        for row in &self.rows {
            row.ask(tally, &mut lifted, self.table, &mut written);
        }
        written.read_back(tally);
    }
    fn smaller(&self) -> Moves<'_, Self> {
        let rows = fewer(&self.rows).chain(each(&self.rows, Row::smaller));
        Box::new(rows.map(|rows| Self { rows, ..*self }))
    }
    fn show(&self) -> Vec<String> {
        let table = format!("table {} with its names line", self.table);
        let rows = self.rows.iter().map(Row::show);
        std::iter::once(table).chain(rows).collect()
    }
}

/// Makes one value longer, so that the row is about the longest, or far over it.
fn stretch(random: &mut Random, values: &mut [Vec<u8>]) {
    let k = random.below(values.len());
    if random.once_in(6) {
        let length = random.pick(&[LONGEST, LONGEST + 1, 20_000, 70_000]);
        values[k] = vec![random.pick(b"a\""); length];
        return;
    }
    let field = |v: &Vec<u8>| {
        let quoted = v.iter().any(|b| b"\",\r\n".contains(b));
        v.len() + v.iter().filter(|b| **b == b'"').count() + 2 * usize::from(quoted)
    };
    let goal = LONGEST - 3 + random.below(7);
    values[k].clear();
    if random.once_in(2) {
        values[k].push(random.pick(b",\"\r\n"));
    }
    let size: usize = values.iter().map(|v| field(v) + 1).sum();
    let more = goal.saturating_sub(size);
    values[k].extend(std::iter::repeat_n(b'x', more));
}

/// Wrong numbers of values, and refusals that are true at once: 2, then 14, then
/// 9, and the output as it was.
fn refusals(tally: &mut Tally, lifted: &mut Lifted) {
    for table in (0..10).chain([255, 1 << 16, u32::MAX]) {
        for width in 0..13 {
            for long in [false, true] {
                for small in [false, true] {
                    let mut values = vec![b"v".to_vec(); width];
                    if let Some(value) = values.first_mut().filter(|_| long) {
                        *value = vec![b'v'; LONGEST];
                    }
                    let texts = values.concat();
                    let lengths: Vec<u32> = values.iter().map(|v| v.len() as u32).collect();
                    let room = if small { width } else { 9000 };
                    let before = lent(room, 7);
                    let refused = |refusal| (RowAnswer { refusal, length: 0 }, before.clone());
                    let rust = if table > 7 {
                        refused(2)
                    } else if width != columns(table as usize) {
                        refused(14)
                    } else {
                        let values = cut(&texts, &lengths);
                        let bytes = lifted.row(table as usize, &values).unwrap();
                        answered(&bytes, &before)
                    };
                    let wrong = width != rows::column_count(table).count || long && width > 0;
                    let causes = [table > 7, wrong, small && width > 0];
                    let at_once = causes.iter().filter(|c| **c).count() > 1;
                    tally.count("sets of refusals at once", usize::from(at_once));
                    ask(tally, table, &texts, &lengths, room, rust, 7);
                }
            }
        }
    }
}

pub fn rows(plan: &Plan, tally: &mut Tally) {
    let mut lifted = Lifted::new();
    let special: &[u8] = b"a\",\r\n ";
    let longest = if plan.quick { 2 } else { 4 };
    all_rows(tally, &mut lifted, 6, &all_values(special, longest));
    all_rows(tally, &mut lifted, 0, &all_values(special, longest / 2));
    all_rows(tally, &mut lifted, 2, &all_values(special, longest / 4));
    let few = |letters| all_values(letters, usize::from(!plan.quick));
    all_rows(tally, &mut lifted, 3, &few(b"a\","));
    all_rows(tally, &mut lifted, 4, &few(b"a\""));
    refusals(tally, &mut lifted);
}
