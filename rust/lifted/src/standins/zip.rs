//! Stands in for gtfs/src/zip.rs, which isn't available. `Source::matches` and
//! `Source::manifest` name a manifest; here it is one fingerprint a table.
use crate::gtfs::{Error, Table};

#[derive(Clone, Copy, Debug, PartialEq, Eq)]
pub struct Fingerprint {
    pub crc32: u32,
    pub uncompressed_size: u32,
}

#[derive(Clone, Copy, Debug, Default, PartialEq, Eq)]
pub struct Manifest([Option<Fingerprint>; Table::COUNT]);

impl Manifest {
    pub fn get(&self, table: Table) -> Option<Fingerprint> {
        self.0[table as usize]
    }
    pub fn from_fingerprints(
        fingerprints: impl IntoIterator<Item = (Table, Fingerprint)>,
    ) -> Result<Self, Error> {
        let mut manifest = Self::default();
        for (table, fingerprint) in fingerprints {
            manifest.0[table as usize] = Some(fingerprint);
        }
        Ok(manifest)
    }
}
