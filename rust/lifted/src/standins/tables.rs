//! Stands in for crc32fast in the package lifted-tables: its own table path, which
//! it uses without SIMD.

#[derive(Clone)]
pub struct Hasher(crc32fast::Hasher);

impl Default for Hasher {
    fn default() -> Self {
        Self(crc32fast::Hasher::internal_new_baseline(0, 0))
    }
}

impl Hasher {
    pub fn new() -> Self {
        Self::default()
    }
    pub fn update(&mut self, bytes: &[u8]) {
        self.0.update(bytes)
    }
    pub fn finalize(self) -> u32 {
        self.0.finalize()
    }
}

pub fn hash(bytes: &[u8]) -> u32 {
    let mut hash = Hasher::new();
    hash.update(bytes);
    hash.finalize()
}
