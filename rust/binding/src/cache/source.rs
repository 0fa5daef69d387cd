//! A source's record.
use super::known;
use crate::{constants::*, get, get_time, put, put_time};

/// Where a table's bytes are in the data, and their CRC-32.
///
/// ```
/// use bankcore::{cache, constants::table};
/// let region = std::fs::read("../../samples/two-good.img")?;
/// let bank = cache::load(&region)?.expect("a good bank");
/// let routes = bank.source(&region, 0)?.tables[table::ROUTES as usize];
/// assert!(routes.length > 0 && routes.offset + routes.length <= bank.length);
/// # Ok::<(), Box<dyn std::error::Error>>(())
/// ```
#[derive(Clone, Copy, Debug, Default, PartialEq, Eq)]
pub struct Block {
    /// From the start of the data on.
    pub offset: u32,
    /// How many bytes; 0 if the table is absent.
    pub length: u32,
    /// Their CRC-32.
    pub crc: u32,
}

/// A source's record. `stamp`, `id` and `validator` are its bytes as they are. An
/// update's blocks are the core's to fill in: it begins a source with none.
///
/// ```
/// use bankcore::{cache::Source, constants::table};
/// let source = Source {
///     start: 20260101,
///     end: 20261231,
///     present: 1 << table::ROUTES,
///     updated: Some(1_790_000_000),
///     ..Source::default()
/// };
/// assert_eq!(Source::decode(&source.encode()), source);
/// ```
#[derive(Clone, Copy, Debug, PartialEq, Eq)]
pub struct Source {
    /// The first date, year × 10000 + month × 100 + day.
    pub start: u32,
    /// The last date.
    pub end: u32,
    /// Bit t is set if table t is present.
    pub present: u32,
    /// When it was updated, in seconds, if known.
    pub updated: Option<i64>,
    /// For each table CRC-32 and length of the feed's whole file.
    pub original: [[u32; 2]; TABLES],
    /// For each table where its bytes are.
    pub tables: [Block; TABLES],
    /// The snapshot's stamp, raw.
    pub stamp: [u8; STAMP_SIZE],
    /// How many bytes of `id` count.
    pub id_length: u8,
    /// The snapshot's id, raw.
    pub id: [u8; ID_SIZE],
    /// The validator, raw: length and kind, a byte each, then its text.
    pub validator: [u8; VALIDATOR_SIZE],
}

/// No dates, no tables, an unknown time; the raw bytes are 0.
impl Default for Source {
    fn default() -> Self {
        Self {
            start: 0,
            end: 0,
            present: 0,
            updated: None,
            original: [[0; 2]; TABLES],
            tables: [Block::default(); TABLES],
            stamp: [0; STAMP_SIZE],
            id_length: 0,
            id: [0; ID_SIZE],
            validator: [0; VALIDATOR_SIZE],
        }
    }
}

impl Source {
    /// From a record's bytes in version 3's form.
    pub fn decode(bytes: &[u8; RECORD_SIZE]) -> Self {
        let mut s = Self {
            start: get(bytes, RECORD_START),
            end: get(bytes, RECORD_END),
            present: get(bytes, RECORD_PRESENT),
            updated: known(get_time(bytes, RECORD_UPDATED)),
            id_length: bytes[RECORD_ID_LENGTH],
            ..Self::default()
        };
        for t in 0..TABLES {
            let original = RECORD_ORIGINALS + t * ORIGINAL_SIZE;
            s.original[t] = [get(bytes, original), get(bytes, original + 4)];
            let block = RECORD_BLOCKS + t * BLOCK_SIZE;
            s.tables[t] = Block {
                offset: get(bytes, block),
                length: get(bytes, block + 4),
                crc: get(bytes, block + 8),
            };
        }
        s.stamp.copy_from_slice(&bytes[RECORD_STAMP..][..STAMP_SIZE]);
        s.id.copy_from_slice(&bytes[RECORD_ID..][..ID_SIZE]);
        s.validator.copy_from_slice(&bytes[RECORD_VALIDATOR..][..VALIDATOR_SIZE]);
        s
    }

    /// The record's bytes in version 3's form.
    pub fn encode(&self) -> [u8; RECORD_SIZE] {
        let mut out = [0; RECORD_SIZE];
        put(&mut out, RECORD_START, self.start);
        put(&mut out, RECORD_END, self.end);
        put(&mut out, RECORD_PRESENT, self.present);
        put_time(&mut out, RECORD_UPDATED, self.updated.unwrap_or(UNKNOWN_TIME));
        for t in 0..TABLES {
            let original = RECORD_ORIGINALS + t * ORIGINAL_SIZE;
            put(&mut out, original, self.original[t][0]);
            put(&mut out, original + 4, self.original[t][1]);
            let block = RECORD_BLOCKS + t * BLOCK_SIZE;
            put(&mut out, block, self.tables[t].offset);
            put(&mut out, block + 4, self.tables[t].length);
            put(&mut out, block + 8, self.tables[t].crc);
        }
        out[RECORD_STAMP..][..STAMP_SIZE].copy_from_slice(&self.stamp);
        out[RECORD_ID_LENGTH] = self.id_length;
        out[RECORD_ID..][..ID_SIZE].copy_from_slice(&self.id);
        out[RECORD_VALIDATOR..][..VALIDATOR_SIZE].copy_from_slice(&self.validator);
        out
    }
}
