//! Stands in for the firmware's download.rs, which isn't available. `Source` keeps
//! a validator and only encodes and decodes it: here it is its 66 stored bytes
//! (length, kind, 64 bytes of text), unchanged.

#[derive(Clone, Copy, Debug, PartialEq, Eq)]
pub struct Validator(pub [u8; 66]);

impl Default for Validator {
    fn default() -> Self {
        Self([0; 66])
    }
}

impl Validator {
    pub fn encode(&self, out: &mut [u8]) {
        out.copy_from_slice(&self.0);
    }
    pub fn decode(bytes: &[u8]) -> Self {
        Self(bytes.try_into().unwrap())
    }
    pub fn for_ranges(self) -> Self {
        self
    }
}
