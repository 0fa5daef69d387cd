//! Stands in for the board's flash if it is only read: a region lent by the caller.
//! A few words can be read with other values.
use crate::{
    cache::{OFFSET, SIZE, Storage},
    embedded_io_async::ErrorKind,
    gtfs::Error,
};

#[derive(Clone, Copy)]
pub struct View<'a> {
    pub region: &'a [u8],
    pub identity: &'a [u8],
    /// Offsets in the region and the words that are read there instead.
    pub instead: &'a [(usize, u32)],
}

impl<'a> View<'a> {
    pub fn new(region: &'a [u8]) -> Self {
        assert_eq!(region.len(), SIZE as usize);
        Self { region, identity: &[], instead: &[] }
    }
}

impl Storage for View<'_> {
    fn identity(&self) -> &[u8] {
        self.identity
    }
    fn read(&self, offset: u32, out: &mut [u8]) -> Result<(), Error> {
        let bad = Error::Io(ErrorKind::Other);
        let start = offset.checked_sub(OFFSET).ok_or(bad)? as usize;
        out.copy_from_slice(self.region.get(start..start + out.len()).ok_or(bad)?);
        for (place, word) in self.instead {
            for (i, byte) in word.to_le_bytes().into_iter().enumerate() {
                if let Some(read) = (place + i).checked_sub(start).and_then(|at| out.get_mut(at)) {
                    *read = byte;
                }
            }
        }
        Ok(())
    }
    fn write(&self, _: u32, _: &[u8]) -> Result<(), Error> {
        Err(Error::Io(ErrorKind::Other))
    }
    fn erase(&self, _: u32, _: u32) -> Result<(), Error> {
        Err(Error::Io(ErrorKind::Other))
    }
}
