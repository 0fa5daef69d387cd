//! The private items of the lifted cache.rs, for the programs: functions under
//! their own names, private structs as public ones with the same fields.
use super::*;
use crate::{download::Validator, gtfs::mobility::Snapshot, standins::run::block_on};

pub const SECTOR: u32 = super::SECTOR;
pub const HEADER: usize = super::HEADER;
pub const COMMIT: u32 = super::COMMIT;
/// An unknown updated time.
pub const EMPTY: i64 = super::EMPTY;

pub fn get(b: &[u8], i: usize) -> u32 {
    super::get(b, i)
}
pub fn put(b: &mut [u8], i: usize, n: u32) {
    super::put(b, i, n)
}
pub fn valid_date(d: u32) -> bool {
    super::valid_date(d)
}
/// `Date::new`, as the number that the cache stores.
pub fn date_new(year: u16, month: u8, day: u8) -> Result<u32, Error> {
    Date::new(year, month, day).map(super::date)
}
pub fn key(config: &Config, identity: &[u8]) -> Result<Vec<u8>, Error> {
    let mut bytes = Vec::new();
    let length = super::key(config, identity, |part| {
        bytes.extend_from_slice(part);
        Ok(())
    })?;
    assert_eq!(length as usize, bytes.len());
    Ok(bytes)
}
/// The key into a lent buffer, and its length.
pub fn key_into(config: &Config, identity: &[u8], out: &mut [u8]) -> Result<u32, Error> {
    let mut at = 0;
    super::key(config, identity, |part| {
        let room = out.get_mut(at..at + part.len()).ok_or(Error::BufferTooSmall)?;
        room.copy_from_slice(part);
        at += part.len();
        Ok(())
    })
}
pub fn same_key(bank: Bank, flash: &impl Storage, config: &Config) -> Result<bool, Error> {
    super::same_key(bank, flash, config)
}
pub fn source_size(version: u32) -> usize {
    super::source_size(version)
}
pub fn columns(t: Table) -> &'static [C] {
    super::columns(t)
}
pub fn bloom(bits: &mut [u8], id: &str, insert: bool) -> bool {
    super::bloom(bits, id, insert)
}
pub fn validate(flash: &impl Storage, offset: u32) -> Result<Bank, Error> {
    block_on(super::validate(flash, offset))
}
pub fn load(flash: &impl Storage) -> Result<Option<Bank>, Error> {
    block_on(super::load(flash))
}

/// The fields of a `Bank`.
#[derive(Clone, Copy, Debug, PartialEq, Eq)]
pub struct BankFields {
    pub offset: u32,
    pub generation: u32,
    pub length: u32,
    pub key_length: u32,
    pub count: u32,
    pub checked: i64,
    pub version: u32,
}

impl From<Bank> for BankFields {
    fn from(b: Bank) -> Self {
        Self {
            offset: b.offset,
            generation: b.generation,
            length: b.length,
            key_length: b.key_length,
            count: b.count,
            checked: b.checked,
            version: b.version,
        }
    }
}

pub fn source(bank: Bank, flash: &impl Storage, i: usize) -> Result<SourceFields, Error> {
    bank.source(flash, i).map(Into::into)
}
pub fn fresh(
    bank: Bank,
    flash: &impl Storage,
    builder: &Builder,
    now: i64,
) -> Result<Freshness, Error> {
    bank.fresh(flash, builder, now)
}

/// The fields of a `Source`; a table is its offset, length and CRC.
#[derive(Clone, Copy, Debug, Default, PartialEq, Eq)]
pub struct SourceFields {
    pub start: u32,
    pub end: u32,
    pub present: u32,
    pub updated: i64,
    pub original: [[u32; 2]; Table::COUNT],
    pub tables: [[u32; 3]; Table::COUNT],
    pub snapshot: Option<Snapshot>,
    pub validator: Validator,
}

impl From<Source> for SourceFields {
    fn from(s: Source) -> Self {
        Self {
            start: s.start,
            end: s.end,
            present: s.present,
            updated: s.updated,
            original: s.original,
            tables: s.tables.map(|b| [b.offset, b.length, b.crc]),
            snapshot: s.snapshot,
            validator: s.validator,
        }
    }
}

impl From<SourceFields> for Source {
    fn from(s: SourceFields) -> Self {
        Self {
            start: s.start,
            end: s.end,
            present: s.present,
            updated: s.updated,
            original: s.original,
            tables: s.tables.map(|[offset, length, crc]| Block { offset, length, crc }),
            snapshot: s.snapshot,
            validator: s.validator,
        }
    }
}

impl SourceFields {
    pub fn decode(bytes: &[u8]) -> Self {
        Source::decode(bytes).into()
    }
    pub fn encode(self, out: &mut [u8]) {
        Source::from(self).encode(out)
    }
    pub fn mask(self, dates: [Date; 3]) -> u8 {
        Source::from(self).mask(dates)
    }
    pub fn manifest(self) -> Result<zip::Manifest, Error> {
        Source::from(self).manifest()
    }
}

/// A `Writer`, call by call.
pub struct Update<'a, F>(Writer<'a, F>);

impl<'a, F: Storage> Update<'a, F> {
    pub fn new(
        flash: &'a F,
        active: Option<Bank>,
        compare: bool,
        now: i64,
        metadata: &'a mut Metadata,
    ) -> Self {
        let Metadata { sources, buffer } = metadata;
        Self(Writer::new(flash, active, compare, now, sources, buffer))
    }
    pub fn key(&mut self, config: &Config) -> Result<u32, Error> {
        let flash = self.0.flash;
        super::key(config, flash.identity(), |bytes| self.0.append(bytes))
    }
    pub fn append(&mut self, bytes: &[u8]) -> Result<(), Error> {
        self.0.append(bytes)
    }
    /// Begins a source with its dates, as the firmware's `build` does.
    pub fn source(&mut self, source: SourceFields) -> Result<(), Error> {
        self.0.sources[self.0.count as usize] = source.into();
        self.0.append(&source.start.to_le_bytes())?;
        self.0.append(&source.end.to_le_bytes())
    }
    pub fn start(&mut self, t: Table) -> Result<(), Error> {
        self.0.start(t)
    }
    pub fn row(&mut self, row: Record<'_>) -> Result<(), Error> {
        self.0.row(row)
    }
    pub fn end(&mut self, t: Table) {
        self.0.end(t)
    }
    pub fn end_source(&mut self) {
        self.0.count += 1;
    }
    pub fn position(&self) -> u32 {
        self.0.position()
    }
    pub fn target(&self) -> u32 {
        self.0.target()
    }
    pub fn flush(&mut self) -> Result<(), Error> {
        self.0.flush()
    }
    pub fn unchanged(&mut self) -> Result<bool, Error> {
        self.0.unchanged()
    }
    pub fn commit(&mut self) -> Result<Bank, Error> {
        block_on(self.0.commit())
    }
}

/// The rows of a stored table, by the lifted reader.
#[cfg(feature = "reader")]
pub fn rows(
    flash: &impl Storage,
    bank: Bank,
    i: usize,
    t: Table,
) -> Result<Vec<Vec<String>>, Error> {
    let block = bank.source(flash, i)?.tables[t as usize];
    let read = crate::cooperative::Cooperative::new(FlashRead {
        flash,
        offset: bank.offset + super::SECTOR + block.offset,
        remaining: block.length,
    });
    let mut reader = gtfs::csv::Reader::<_>::new(read, t);
    let mut rows = Vec::new();
    while let Some(row) = block_on(reader.next())? {
        rows.push(super::columns(t).iter().map(|c| row.get(*c).unwrap_or("").into()).collect());
    }
    Ok(rows)
}
