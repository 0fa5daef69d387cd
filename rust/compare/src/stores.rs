//! The content of regions, as values: banks, and whole regions.
use crate::{
    keys::Selection,
    run::{hex, hex_then_zeros},
    shrink::{Moves, bytes, number},
};
use common::{
    Random,
    made::{self, BANK, CAPACITY, COMMIT, Made, REGION, Record, SECTOR, UNKNOWN},
};
use std::rc::Rc;

/// What is in a header sector before a header is written.
#[derive(Clone, Default, PartialEq, Eq)]
pub enum First {
    #[default]
    Kept,
    Blank,
    Bytes(Vec<u8>),
}

/// The content of a bank.
#[derive(Clone, Default)]
pub struct Store {
    pub bank: usize,
    pub first: First,
    pub data: Vec<u8>,
    pub made: Option<Made>,
    /// The seed of a flipped bit.
    pub flip: Option<u64>,
    /// The selection whose key it may have.
    pub selection: Selection,
}

pub fn blank() -> Vec<u8> {
    vec![255; REGION]
}

pub fn written_to(region: &mut [u8], store: &Store) {
    let bank = &mut region[store.bank * BANK..][..BANK];
    match &store.first {
        First::Kept => {}
        First::Blank => bank[..SECTOR].fill(255),
        First::Bytes(bytes) => bank[..bytes.len()].copy_from_slice(bytes),
    }
    bank[SECTOR..][..store.data.len()].copy_from_slice(&store.data);
    if let Some(made) = &store.made {
        made.write(region, store.bank);
        if let Some(seed) = store.flip {
            made::flip(&mut Random::new(seed), region, store.bank, made.length);
        }
    }
}

fn plain_record() -> Record {
    let (original, tables) = ([[0; 2]; 8], [[0; 3]; 8]);
    let (start, end) = (20260101, 20260101);
    Record { start, end, present: 0, updated: UNKNOWN, original, tables, rest: vec![0; 224] }
}

/// A header with one field as it is in the plainest good one.
fn plainer(made: &Made) -> Vec<Made> {
    let with = |change: &dyn Fn(&mut Made)| {
        let mut made = made.clone();
        change(&mut made);
        made
    };
    let mut all = vec![
        with(&|m| (m.crc, m.seal) = (None, None)),
        with(&|m| (m.magic, m.commit) = (*b"TTFC", COMMIT)),
        with(&|m| m.version = 3),
        with(&|m| (m.generation, m.spare) = (0, 0)),
        with(&|m| m.checked = 0),
        with(&|m| m.count = 1),
        with(&|m| m.key = 1),
    ];
    for i in 0..3 {
        all.push(with(&|m| m.records[i] = plain_record()));
        all.push(with(&|m| m.records[i].rest.fill(0)));
        all.push(with(&|m| m.records[i].original = [[0; 2]; 8]));
        all.extend((0..8).map(|t| with(&|m| m.records[i].tables[t] = [0; 3])));
        all.push(with(&|m| (m.records[i].present, m.records[i].updated) = (0, UNKNOWN)));
    }
    all.extend(number(made.length.into()).map(|n| with(&|m| m.length = n as u32)));
    all.retain(|new| new != made);
    all
}

impl Store {
    pub fn smaller(&self) -> Moves<'_, Self> {
        let kept = (self.first != First::Kept).then(|| Self { first: First::Kept, ..self.clone() });
        let whole = self.flip.map(|_| Self { flip: None, ..self.clone() });
        let data = bytes(&self.data).map(|data| Self { data, ..self.clone() });
        let headers = self.made.iter().flat_map(plainer);
        let headers = headers.map(|made| Self { made: Some(made), ..self.clone() });
        let keys = self.selection.smaller().map(|selection| Self { selection, ..self.clone() });
        Box::new(kept.into_iter().chain(whole).chain(data).chain(headers).chain(keys))
    }
    pub fn show(&self) -> Vec<String> {
        let mut lines = Vec::new();
        match &self.first {
            First::Kept => {}
            First::Blank => lines.push(format!("bank {}: header sector erased", self.bank)),
            First::Bytes(bytes) => lines.push(format!("bank {}: {}", self.bank, hex(bytes))),
        }
        lines.push(format!("bank {}: data {}", self.bank, hex(&self.data)));
        if let Some(made) = &self.made {
            lines.extend(show_header(self.bank, made));
        }
        if let Some(seed) = self.flip {
            lines.push(format!("bank {}: a bit flipped, drawn from {seed}", self.bank));
        }
        lines.push(format!(
            "bank {}: its key asked for is of {}",
            self.bank,
            self.selection.show()
        ));
        lines
    }
}

fn show_header(bank: usize, made: &Made) -> Vec<String> {
    let Made { magic, version, generation, length, crc, count, key, spare, .. } = made;
    let Made { checked, seal, commit, records, .. } = made;
    let mark = magic.escape_ascii();
    let mut lines = vec![format!(
        "bank {bank}: header {mark}, version {version}, generation {generation}, length {length}, \
         data CRC {}, count {count}, key {key}, spare {spare}, checked {checked}, header CRC {}, \
         commit word {commit:08x}",
        crc.map_or("right".into(), |n| format!("{n:08x}")),
        seal.map_or("right".into(), |n| format!("{n:08x}")),
    )];
    for (i, record) in records.iter().enumerate() {
        let Record { start, end, present, updated, original, tables, rest } = record;
        let words =
            |list: &[u32]| -> Vec<u8> { list.iter().flat_map(|n| n.to_le_bytes()).collect() };
        lines.push(format!(
            "bank {bank}: record {i}: {start} to {end}, present {present}, updated {updated}, \
             originals {}, tables {}, rest {}",
            hex_then_zeros(&words(original.as_flattened())),
            hex_then_zeros(&words(tables.as_flattened())),
            hex_then_zeros(rest),
        ));
    }
    lines
}

/// A region before an update.
#[derive(Clone)]
pub struct Found(pub Rc<Vec<u8>>);

impl Found {
    pub fn new(region: Vec<u8>) -> Self {
        Self(Rc::new(region))
    }
    /// Blank, both banks or one, whole or after its header or first data.
    pub fn smaller(&self) -> Moves<'_, Self> {
        let spans = [
            0..REGION,
            0..BANK,
            BANK..REGION,
            SECTOR..BANK,
            BANK + SECTOR..REGION,
            SECTOR + CAPACITY / 64..BANK,
            BANK + SECTOR + CAPACITY / 64..REGION,
        ];
        let other = |span: &std::ops::Range<usize>| self.0[span.clone()].iter().any(|b| *b != 255);
        Box::new(spans.into_iter().filter(other).map(|span| {
            let mut region = self.0.to_vec();
            region[span].fill(255);
            Self::new(region)
        }))
    }
    pub fn show(&self) -> Vec<String> {
        let bank = |(i, bank): (usize, &[u8])| {
            let first = bank[0];
            if bank.iter().all(|b| *b == first) {
                return format!("bank {i}: all {first:#04x}");
            }
            let (header, rest) = bank.split_at(48);
            let crc = crc32fast::hash(rest);
            format!("bank {i}: header {}, CRC of the bytes behind it {crc:08x}", hex(header))
        };
        self.0.chunks(BANK).enumerate().map(bank).collect()
    }
}
