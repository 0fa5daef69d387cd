//! Banks made after document 01, whole or with something wrong in them.
use crate::Random;

pub const REGION: usize = 983_040;
pub const BANK: usize = 491_520;
pub const SECTOR: usize = 4096;
pub const CAPACITY: usize = BANK - SECTOR;
pub const UNKNOWN: i64 = i64::MIN;
pub const COMMIT: u32 = 0x434f_4d54;
/// The commit word's offset in a bank, and how many bytes it has.
pub const WORD: usize = 44;
pub const WORD_SIZE: usize = 4;
const HEADER: usize = 1200;
const LAST: u32 = u32::MAX;

pub const DAYS: [u32; 12] = [
    10101, 20240229, 20251231, 20260101, 20260228, 20260301, 20260615, 20260616, 20260617,
    20261231, 20270101, 99991231,
];
pub const NO_DAYS: [u32; 9] =
    [0, 20230229, 19000229, 20260431, 20260001, 20261301, 99991232, 655380101, LAST];

/// A record's size and its number of tables.
pub fn layout(version: u32) -> (usize, usize) {
    match version {
        1 => (160, 7),
        2 => (352, 7),
        _ => (384, 8),
    }
}

#[derive(Clone, PartialEq, Eq)]
pub struct Record {
    pub start: u32,
    pub end: u32,
    pub present: u32,
    pub updated: i64,
    pub original: [[u32; 2]; 8],
    pub tables: [[u32; 3]; 8],
    /// Stamp, id length, id, validator, and what follows them.
    pub rest: Vec<u8>,
}

impl Record {
    pub fn bytes(&self, version: u32) -> Vec<u8> {
        let (size, tables) = layout(version);
        let mut out = Vec::new();
        for word in [self.start, self.end, self.present] {
            out.extend(word.to_le_bytes());
        }
        out.extend(self.updated.to_le_bytes());
        let words = self.original[..tables].as_flattened();
        let blocks = self.tables[..tables].as_flattened();
        for word in words.iter().chain(blocks) {
            out.extend(word.to_le_bytes());
        }
        out.extend(&self.rest[..size - out.len()]);
        out
    }
}

#[derive(Clone, PartialEq, Eq)]
pub struct Made {
    pub magic: [u8; 4],
    pub version: u32,
    pub generation: u32,
    pub length: u32,
    /// The data's CRC, if a wrong one is wanted.
    pub crc: Option<u32>,
    pub count: u32,
    pub key: u32,
    pub spare: u32,
    pub checked: i64,
    /// The header's CRC, if a wrong one is wanted.
    pub seal: Option<u32>,
    pub commit: u32,
    pub records: [Record; 3],
}

fn time(random: &mut Random, checked: i64) -> i64 {
    match random.below(6) {
        0 => UNKNOWN,
        1 => 0,
        2 => checked,
        3 => checked / 2,
        _ => (random.u64() % (checked as u64 + 1)) as i64,
    }
}

fn block(random: &mut Random, key: u32, length: u32) -> [u32; 3] {
    let room = length - key;
    if room == 0 || random.once_in(3) {
        return [random.pick(&[0, 0, key, length, LAST]), 0, random.u32() >> random.below(32)];
    }
    let offset = match random.below(3) {
        0 => key,
        _ => key + random.below(room as usize) as u32,
    };
    let size = match random.below(3) {
        0 => length - offset,
        _ => 1 + random.below((length - offset) as usize) as u32,
    };
    [offset, size, random.u32()]
}

/// An updated time at or past its bounds.
fn odd_time(random: &mut Random, checked: i64) -> i64 {
    match random.below(3) {
        0 => checked.wrapping_add(1),
        1 => checked.wrapping_sub(1),
        _ => random.pick(&[UNKNOWN, UNKNOWN + 1, -1, 0, 1, i64::MAX]),
    }
}

/// A block at or past its bounds.
fn odd_block(random: &mut Random, key: u32, length: u32) -> [u32; 3] {
    let near = |n: u32| [n.wrapping_sub(1), n, n.wrapping_add(1)];
    let offset = random.pick(&[&[0][..], &near(key), &near(length)].concat());
    let over = (length as i64 + 1 - offset as i64) as u32;
    let size = random.pick(&[0, 1, 2, over, over.wrapping_sub(1), LAST, LAST - offset]);
    [offset, size, random.u32()]
}

/// Stamp, id and validator: what the Rust finds sensible, or nearly so, or
/// anything.
fn rest(random: &mut Random) -> Vec<u8> {
    let mut rest = random.bytes(224);
    if random.once_in(4) {
        return rest;
    }
    let odd = random.once_in(3);
    let stamps: &[&[u8]] = if odd {
        &[b"202602290000", b"202601012400", b"2026010112x0"]
    } else {
        &[b"202601020304", b"202612312359"]
    };
    rest[..12].copy_from_slice(random.pick(stamps));
    let odd = random.once_in(3);
    let length = random.pick(if odd { &[81, 0, 200, 255] } else { &[1, 5, 79, 80] });
    rest[12] = length;
    for byte in &mut rest[13..93] {
        *byte = random.pick(b"abz09-_");
    }
    if random.once_in(6) {
        rest[13 + random.below(80)] = b' ';
    }
    rest
}

pub fn record(random: &mut Random, key: u32, length: u32, checked: i64) -> Record {
    let (a, b) = (random.pick(&DAYS), random.pick(&DAYS));
    let mut tables = [[0; 3]; 8];
    let mut original = [[0; 2]; 8];
    for t in 0..8 {
        tables[t] = block(random, key, length);
        original[t] = [random.u32(), random.u32()];
    }
    Record {
        start: a.min(b),
        end: a.max(b),
        present: random.below(256) as u32,
        updated: time(random, checked),
        original,
        tables,
        rest: rest(random),
    }
}

/// A bank that passes every test.
pub fn good(random: &mut Random, key: u32, length: u32) -> Made {
    let checked = match random.below(5) {
        0 => 0,
        1 => i64::MAX,
        2 => random.below(1000) as i64,
        _ => 1_790_000_000 + random.below(1000) as i64,
    };
    Made {
        magic: *b"TTFC",
        version: 1 + random.below(3) as u32,
        generation: random.u32(),
        length,
        crc: None,
        count: 1 + random.below(3) as u32,
        key,
        spare: if random.once_in(4) { random.u32() } else { 0 },
        checked,
        seal: None,
        commit: COMMIT,
        records: [0; 3].map(|_| record(random, key, length, checked)),
    }
}

impl Made {
    /// Writes the header over data that are already there.
    pub fn write(&self, region: &mut [u8], bank: usize) {
        let bank = &mut region[bank * BANK..][..BANK];
        let data = &bank[SECTOR..][..(self.length as usize).min(CAPACITY)];
        let crc = self.crc.unwrap_or_else(|| crc32fast::hash(data));
        let mut out = self.magic.to_vec();
        let (length, key) = (self.length, self.key);
        for word in [self.version, self.generation, length, crc, self.count, key, self.spare] {
            out.extend(word.to_le_bytes());
        }
        out.extend(self.checked.to_le_bytes());
        out.extend([0; 8]);
        for record in &self.records {
            out.extend(record.bytes(self.version));
        }
        let seal = self.seal.unwrap_or_else(|| crc32fast::hash(&out));
        out[40..44].copy_from_slice(&seal.to_le_bytes());
        out[WORD..][..WORD_SIZE].copy_from_slice(&self.commit.to_le_bytes());
        bank[..out.len()].copy_from_slice(&out);
    }

    /// Sets one field to something at or past its bounds.
    pub fn damage(&mut self, random: &mut Random) {
        let (key, length) = (self.key, self.length);
        let (under, over) = (length.wrapping_sub(1), length.wrapping_add(1));
        let record = &mut self.records[random.below(3)];
        let t = random.below(8);
        match random.below(20) {
            0 => self.magic[random.below(4)] ^= 1 << random.below(8),
            1 => self.version = random.pick(&[0, 1, 2, 3, 4, 255, 256, 0x0100_0003, LAST]),
            2 => self.commit ^= 1 << random.below(32),
            3 => self.length = random.pick(&[0, 1, key, key.wrapping_sub(1), over, LAST]),
            4 => self.length = random.pick(&[0, CAPACITY as u32 + 1, 1 << 31, LAST]),
            5 => self.count = random.pick(&[0, 1, 2, 3, 4, 255, 256, 257, LAST]),
            6 => self.key = random.pick(&[0, 1, length, under, over, LAST]),
            7 => self.checked = random.pick(&[-1, 0, 1, i64::MIN, i64::MAX, -(1 << 32)]),
            8 => self.crc = Some(random.u32()),
            9 => self.seal = Some(random.u32()),
            10 => record.start = random.pick(&NO_DAYS),
            11 => record.end = random.pick(&NO_DAYS),
            12 => (record.start, record.end) = (random.pick(&DAYS), random.pick(&DAYS)),
            13 => record.present = random.pick(&[0, 127, 128, 255, 256, 257, 1 << 31, LAST]),
            14 => record.updated = odd_time(random, self.checked),
            15 => {
                record.tables[t] =
                    [random.pick(&[LAST, LAST - 1, length]), random.pick(&[0, 1, 2, LAST]), 0]
            }
            16 => record.tables[t] = odd_block(random, key, length),
            17 => self.fill_past_count(random, t),
            18 => record.rest = random.bytes(224),
            _ => (self.key, self.length) = (length, key),
        }
    }

    /// Puts anything into the records past the count.
    fn fill_past_count(&mut self, random: &mut Random, t: usize) {
        for record in &mut self.records[(self.count as usize).min(3)..] {
            record.start = random.u32();
            record.present = random.u32();
            record.updated = random.u64() as i64;
            record.tables[t] = [random.u32(), random.u32(), random.u32()];
        }
    }
}

/// Flips a bit of the header or of the data.
pub fn flip(random: &mut Random, region: &mut [u8], bank: usize, length: u32) {
    let at = match random.below(4) {
        0 => random.below(48),
        1 => random.below(HEADER),
        2 => SECTOR + (length as usize).clamp(1, CAPACITY) - 1 + random.below(2).min(CAPACITY - 1),
        _ => SECTOR + random.below((length as usize).clamp(1, CAPACITY)),
    };
    region[bank * BANK + at.min(BANK - 1)] ^= 1 << random.below(8);
}
