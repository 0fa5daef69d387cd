//! The stand-in flash, with a supply that fails inside an operation.
use super::{cut::Cut, flash::size};
use lifted::{
    cache::Storage,
    gtfs::Error,
    standins::{
        embedded_io_async::ErrorKind,
        flash::{Flash, Operation},
    },
};
use std::cell::RefCell;

pub struct Supply {
    pub flash: Flash,
    /// Where it fails.
    pub cut: Option<Cut>,
    /// The operations that were begun, as they were requested.
    pub begun: RefCell<Vec<Operation>>,
}

impl Supply {
    pub fn new(flash: Flash, cut: Option<Cut>) -> Self {
        Self { flash, cut, begun: RefCell::default() }
    }
    /// How many bytes of the next operation are done.
    fn begin(&self, operation: Operation) -> usize {
        let mut begun = self.begun.borrow_mut();
        let size = size(&operation);
        let part = match self.cut {
            Some(Cut { k, .. }) if begun.len() > k => 0,
            Some(Cut { k, j }) if begun.len() == k => size.min(j),
            _ => size,
        };
        if part > 0 {
            begun.push(operation);
        }
        part
    }
}

/// A part of an operation gives no answer.
fn answered(part: usize, size: usize) -> Result<(), Error> {
    if part == size { Ok(()) } else { Err(Error::Io(ErrorKind::Other)) }
}

impl Storage for Supply {
    fn identity(&self) -> &[u8] {
        self.flash.identity()
    }
    fn read(&self, offset: u32, out: &mut [u8]) -> Result<(), Error> {
        self.flash.read(offset, out)
    }
    fn write(&self, offset: u32, bytes: &[u8]) -> Result<(), Error> {
        let part = self.begin(Operation::Write { offset, bytes: bytes.into() });
        self.flash.write(offset, &bytes[..part])?;
        answered(part, bytes.len())
    }
    fn erase(&self, start: u32, end: u32) -> Result<(), Error> {
        let part = self.begin(Operation::Erase { start, end });
        self.flash.erase(start, start + part as u32)?;
        answered(part, (end - start) as usize)
    }
    async fn current(&self) -> bool {
        self.flash.current().await
    }
    fn checked_at(&self) -> Option<i64> {
        self.flash.checked_at()
    }
}
