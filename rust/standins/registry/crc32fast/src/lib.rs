//! Stands in for the crate crc32fast where it can't be had: the same answers
//! from the Rust's own `crc32`, which is lifted (run rust/lift first). It has no
//! fast path at all.

mod seed {
    include!("../../../../target/lifted/crc32.rs");
}

pub fn hash(bytes: &[u8]) -> u32 {
    seed::crc32(bytes)
}

/// Keeps every byte and hashes them all at the end. An initial CRC is kept as
/// four bytes that have it.
#[derive(Clone, Default)]
pub struct Hasher(Vec<u8>);

impl Hasher {
    pub fn new() -> Self {
        Self::default()
    }
    pub fn new_with_initial(initial: u32) -> Self {
        // The shift register, run backwards over 32 bits.
        let mut register = !initial;
        for _ in 0..32 {
            register =
                if register >> 31 == 1 { (register ^ 0xedb8_8320) << 1 | 1 } else { register << 1 };
        }
        Self((!register).to_le_bytes().into())
    }
    pub fn internal_new_baseline(initial: u32, _: u64) -> Self {
        Self::new_with_initial(initial)
    }
    pub fn update(&mut self, bytes: &[u8]) {
        self.0.extend_from_slice(bytes);
    }
    pub fn finalize(self) -> u32 {
        hash(&self.0)
    }
}
