//! What updates write: random contents, and the regions before them.
use crate::{
    keys::Selection,
    rows::text,
    run::{hex, hex_then_zeros},
    shrink::{Moves, bytes, each, fewer},
};
use common::{
    Random,
    made::{self, CAPACITY, REGION},
    picks::picks,
};
use lifted::{
    cache::{
        Storage,
        door::{self, EMPTY, SourceFields, Update},
    },
    gtfs::{Error, Table, csv::values::Values, mobility::Snapshot},
};

pub const NOW: i64 = 1_790_000_000;
pub use crate::rows::LONGEST;

#[derive(Clone)]
pub enum Key {
    Bytes(Vec<u8>),
    Picked(Selection),
}

/// Bytes of a table, or a row's values.
#[derive(Clone)]
pub enum Piece {
    Bytes(Vec<u8>),
    Row(Vec<String>),
}

#[derive(Clone)]
pub struct Source {
    pub fields: SourceFields,
    /// Tables by number, with what follows their names.
    pub tables: Vec<(usize, Vec<Piece>)>,
}

#[derive(Clone)]
pub struct Content {
    pub key: Key,
    pub sources: Vec<Source>,
    pub now: i64,
    pub stamp: Option<i64>,
    /// Whether it is a key of picks, and rows alone: the upper calls' arguments.
    pub rows: bool,
}

pub fn names_line(table: usize) -> Vec<u8> {
    let names: Vec<&str> = door::columns(Table::ALL[table]).iter().map(|c| c.name()).collect();
    (names.join(",") + "\n").into_bytes()
}

/// A row as document 01 has it.
pub fn row_line<V: AsRef<[u8]>>(values: &[V]) -> Vec<u8> {
    let mut line = Vec::new();
    for (i, value) in values.iter().map(AsRef::as_ref).enumerate() {
        if i > 0 {
            line.push(b',');
        }
        let quoted = value.iter().any(|b| b"\",\r\n".contains(b));
        let quote: &[u8] = if quoted { b"\"" } else { b"" };
        line.extend(quote);
        for &byte in value {
            line.push(byte);
            if byte == b'"' {
                line.push(byte);
            }
        }
        line.extend(quote);
    }
    line.push(b'\n');
    line
}

impl Key {
    fn smaller(&self) -> Moves<'_, Self> {
        match self {
            Self::Bytes(key) => Box::new(bytes(key).map(Self::Bytes)),
            Self::Picked(selection) => {
                Box::new(selection.smaller().filter(|s| s.key().is_ok()).map(Self::Picked))
            }
        }
    }
    fn show(&self) -> String {
        match self {
            Self::Bytes(key) => format!("key {}", hex(key)),
            Self::Picked(selection) => format!("key of {}", selection.show()),
        }
    }
    /// The selection that its key is of.
    pub fn selection(&self) -> Selection {
        match self {
            Self::Bytes(_) => Selection::default(),
            Self::Picked(selection) => selection.clone(),
        }
    }
    pub fn bytes(&self) -> Vec<u8> {
        match self {
            Self::Bytes(bytes) => bytes.clone(),
            Self::Picked(selection) => selection.key().expect("the Rust makes a key"),
        }
    }
}

impl Piece {
    fn smaller(&self) -> Moves<'_, Self> {
        match self {
            Self::Bytes(piece) => Box::new(bytes(piece).map(Self::Bytes)),
            Self::Row(values) => Box::new(each(values, |value| shorter(value)).map(Self::Row)),
        }
    }
    fn show(&self) -> String {
        match self {
            Self::Bytes(piece) => format!("    bytes {}", hex(piece)),
            Self::Row(values) => {
                let shown: Vec<String> = values.iter().map(|v| text(v.as_bytes())).collect();
                format!("    row {shown:?}")
            }
        }
    }
    pub fn bytes(&self) -> Vec<u8> {
        match self {
            Self::Bytes(bytes) => bytes.clone(),
            Self::Row(values) => row_line(values),
        }
    }
}

/// A text with letters left out.
fn shorter(value: &str) -> Moves<'_, String> {
    let letters: Vec<char> = value.chars().collect();
    let all: Vec<String> = fewer(&letters).map(String::from_iter).collect();
    Box::new(all.into_iter())
}

pub fn fields(random: &mut Random) -> SourceFields {
    let dates = [10101, 20260101, 20260228, 20261231, 20280229, 99991231];
    let first = random.below(dates.len());
    let last = first + random.below(dates.len() - first);
    let mut source = SourceFields {
        start: dates[first],
        end: dates[last],
        present: random.u32() % 256,
        updated: random.pick(&[EMPTY, 0, 1, NOW - 100, NOW]),
        ..SourceFields::default()
    };
    for pair in &mut source.original {
        *pair = [random.u32(), random.u32()];
    }
    if random.once_in(2) {
        let id = format!("mdb-{}", random.below(100_000));
        source.snapshot = Snapshot::from_parts(&id, "202601020304").ok();
    }
    if random.once_in(2) {
        source.validator.0[..4].copy_from_slice(&[2, 0, b'e', b'f']);
    }
    source
}

/// A source that doesn't validate.
fn unfit(random: &mut Random, source: &mut SourceFields) {
    match random.below(6) {
        0 => source.start = 20260230,
        1 => source.end = 0,
        2 => (source.start, source.end) = (20270101, 20260101),
        3 => source.present = 256,
        4 => source.updated = -1,
        _ => source.updated = NOW + 6,
    }
}

fn value(random: &mut Random, longest: usize) -> String {
    let length = random.below(longest + 1);
    let mut value = common::picks::text(random, length);
    if length > 0 && random.once_in(3) {
        value.push(random.pick(&['"', ',', '\r', '\n']));
    }
    value
}

fn table(random: &mut Random, table: usize, longest: usize, rows: bool) -> (usize, Vec<Piece>) {
    if !rows {
        let size = random.below(longest);
        return (table, vec![Piece::Bytes(random.bytes(size))]);
    }
    let columns = crate::rows::columns(table);
    let count = random.pick(&[0, 1, 1, 3, 8]);
    let row = |_| {
        let longest = random.pick(&[0, 4, 12, longest / 10 + 1]).min(600);
        Piece::Row((0..columns).map(|_| value(random, longest)).collect())
    };
    (table, (0..count).map(row).collect())
}

impl Content {
    pub fn random(random: &mut Random, rows: bool) -> Self {
        let longest = random.pick(&[1, 40, 300, 300, 300, 3000, 20_000]);
        let key = if rows || random.once_in(8) {
            let size = random.pick(&[0, 0, 5, 200]);
            let count = random.below(5);
            Key::Picked(Selection::of(&random.bytes(size), &picks(random, count, false)))
        } else {
            let size = random.below(400) + usize::from(!random.once_in(50));
            Key::Bytes(random.bytes(size))
        };
        let count = 1 + random.below(3);
        let sources = (0..count).map(|i| Source::random(random, i == 0, longest, rows)).collect();
        let stamp = random.pick(&[None, Some(NOW - 1), Some(NOW), Some(NOW + 5), Some(-1)]);
        let mut content = Self { key, sources, now: NOW, stamp, rows };
        if random.once_in(30) {
            let which = random.below(count);
            unfit(random, &mut content.sources[which].fields);
        }
        content
    }
    /// Fewer and shorter parts; Routes stays the first table of the first source.
    pub fn smaller(&self) -> Moves<'_, Self> {
        let sources = fewer(&self.sources).chain(each(&self.sources, Source::smaller));
        let routes_first = |sources: &Vec<Source>| {
            sources.first().and_then(|s| s.tables.first()).is_some_and(|t| t.0 == 0)
        };
        let sources = sources.filter(routes_first);
        let sources = sources.map(|sources| Self { sources, ..self.clone() });
        let keys = self.key.smaller().map(|key| Self { key, ..self.clone() });
        let stamp = self.stamp.map(|_| Self { stamp: None, ..self.clone() });
        Box::new(sources.chain(keys).chain(stamp))
    }
    pub fn show(&self) -> Vec<String> {
        let layer = if self.rows { "upper" } else { "lower" };
        let (now, length) = (self.now, self.length());
        let mut lines = vec![
            format!("update by the {layer} calls, {length} bytes, now {now}"),
            format!("  {}", self.key.show()),
        ];
        lines.extend(self.sources.iter().flat_map(Source::show));
        lines.push(format!("  closing, stamp {:?}", self.stamp));
        lines
    }
    pub fn length(&self) -> usize {
        self.data().0.len()
    }
    /// The data, and for each source its tables' offsets, lengths and CRCs.
    pub fn data(&self) -> (Vec<u8>, Vec<[[u32; 3]; 8]>) {
        let mut data = self.key.bytes();
        let mut all = Vec::new();
        for source in &self.sources {
            data.extend(source.fields.start.to_le_bytes());
            data.extend(source.fields.end.to_le_bytes());
            let mut blocks = [[0; 3]; 8];
            for (table, pieces) in &source.tables {
                let from = data.len();
                data.extend(names_line(*table));
                pieces.iter().for_each(|piece| data.extend(piece.bytes()));
                let crc = crc32fast::hash(&data[from..]);
                blocks[*table] = [from as u32, (data.len() - from) as u32, crc];
            }
            all.push(blocks);
        }
        (data, all)
    }
    /// Makes the last table longer, so that the data have this length.
    pub fn stretch(&mut self, random: &mut Random, length: usize) {
        let mut more = length.saturating_sub(self.length());
        let last = self.sources.iter_mut().rev().find_map(|s| s.tables.last_mut());
        let (table, pieces) = last.expect("the first source has Routes");
        if !self.rows {
            return pieces.push(Piece::Bytes(random.bytes(more)));
        }
        let columns = crate::rows::columns(*table);
        while more >= columns {
            let mut size = more.min(LONGEST);
            if more != size && more - size < columns {
                size -= columns;
            }
            let mut values = vec![String::new(); columns];
            values[random.below(columns)] = "x".repeat(size - columns);
            pieces.push(Piece::Row(values));
            more -= size;
        }
    }
    pub fn fits(&self) -> bool {
        self.length() <= CAPACITY
    }
    /// All the appends, by the lifted `Writer`.
    pub fn rust_fill(&self, update: &mut Update<'_, impl Storage>) -> Result<(), Error> {
        match &self.key {
            Key::Bytes(bytes) => update.append(bytes)?,
            Key::Picked(selection) => {
                update.key(&selection.config().expect("settings"))?;
            }
        }
        for source in &self.sources {
            update.source(source.fields)?;
            for (number, pieces) in &source.tables {
                let table = Table::ALL[*number];
                update.start(table)?;
                for piece in pieces {
                    rust_piece(update, table, piece)?;
                }
                update.end(table);
            }
            update.end_source();
        }
        Ok(())
    }
}

fn rust_piece(
    update: &mut Update<'_, impl Storage>,
    table: Table,
    piece: &Piece,
) -> Result<(), Error> {
    match piece {
        Piece::Bytes(bytes) => update.append(bytes),
        Piece::Row(values) => {
            let texts = values.iter().map(String::as_str);
            let given = Values::new(table, door::columns(table).iter().copied().zip(texts));
            update.row(given.record())
        }
    }
}

impl Source {
    fn random(random: &mut Random, first: bool, longest: usize, rows: bool) -> Self {
        let mut tables: Vec<usize> = (0..Table::COUNT).collect();
        for k in (1..tables.len()).rev() {
            tables.swap(k, random.below(k + 1));
        }
        tables.truncate(random.below(Table::COUNT + 1));
        if first {
            tables.retain(|t| *t != 0);
            tables.insert(0, 0);
        }
        let tables = tables.into_iter().map(|t| table(random, t, longest, rows)).collect();
        Self { fields: fields(random), tables }
    }
    fn smaller(&self) -> Moves<'_, Self> {
        let tables = fewer(&self.tables).chain(each(&self.tables, |(number, pieces)| {
            let pieces = fewer(pieces).chain(each(pieces, Piece::smaller));
            Box::new(pieces.map(|pieces| (*number, pieces)))
        }));
        let tables = tables.map(|tables| Self { tables, ..self.clone() });
        let plain = SourceFields { start: 20260101, end: 20260101, ..SourceFields::default() };
        let plain = (self.fields != plain).then(|| Self { fields: plain, ..self.clone() });
        Box::new(tables.chain(plain))
    }
    fn show(&self) -> Vec<String> {
        let mut lines = vec![format!("  source {}", show_record(&self.record()))];
        for (number, pieces) in &self.tables {
            lines.push(format!("    table {number}"));
            lines.extend(pieces.iter().map(Piece::show));
            lines.push("    table end".into());
        }
        lines
    }
    /// Its record, 384 bytes.
    pub fn record(&self) -> [u8; 384] {
        let mut record = [0; 384];
        self.fields.encode(&mut record);
        record
    }
}

/// A source's record in words.
pub fn show_record(record: &[u8]) -> String {
    let word = |at: usize| {
        let byte = |i: usize| record.get(at + i).copied().unwrap_or(0);
        u32::from_le_bytes([byte(0), byte(1), byte(2), byte(3)])
    };
    let (start, end, present) = (word(0), word(4), word(8));
    format!("{start} to {end}, present {present}, record {}", hex_then_zeros(record))
}

/// A region with leftovers: blank, random bytes or one byte, with banks of any
/// version.
pub fn leftovers(random: &mut Random) -> Vec<u8> {
    let mut region = match random.below(3) {
        0 => vec![255; REGION],
        1 => random.bytes(REGION),
        _ => vec![random.u32() as u8; REGION],
    };
    for bank in 0..2 {
        if random.once_in(3) {
            let length = 1000 + random.below(5000) as u32;
            made::good(random, 100, length).write(&mut region, bank);
        }
    }
    region
}
