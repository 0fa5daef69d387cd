//! Stands in for the board's flash: the cache's region in memory, by document 01's
//! model (an erase sets a sector to 255, a write clears bits only). It keeps a list
//! of the operations, and can fail after a number of them.
use crate::{
    cache::{OFFSET, SIZE, Storage},
    embedded_io_async::ErrorKind,
    gtfs::Error,
};
use std::cell::{Cell, RefCell};

#[derive(Clone, Debug, PartialEq, Eq)]
pub enum Operation {
    Erase { start: u32, end: u32 },
    Write { offset: u32, bytes: Vec<u8> },
}

pub struct Flash {
    pub region: RefCell<Vec<u8>>,
    pub operations: RefCell<Vec<Operation>>,
    pub identity: Vec<u8>,
    pub current: Cell<bool>,
    pub checked_at: Cell<Option<i64>>,
    /// How many operations are done before every further one fails.
    pub cut: Cell<Option<usize>>,
}

impl Default for Flash {
    fn default() -> Self {
        Self::with_region(vec![255; SIZE as usize])
    }
}

impl Flash {
    pub fn with_region(region: Vec<u8>) -> Self {
        assert_eq!(region.len(), SIZE as usize);
        Self {
            region: RefCell::new(region),
            operations: RefCell::default(),
            identity: Vec::new(),
            current: Cell::new(true),
            checked_at: Cell::new(None),
            cut: Cell::new(None),
        }
    }
    fn span(offset: u32, length: usize) -> Result<core::ops::Range<usize>, Error> {
        let start = offset.checked_sub(OFFSET).ok_or(Error::Io(ErrorKind::Other))? as usize;
        let end = start + length;
        if end > SIZE as usize {
            return Err(Error::Io(ErrorKind::Other));
        }
        Ok(start..end)
    }
    fn count(&self, operation: Operation) -> Result<(), Error> {
        let mut operations = self.operations.borrow_mut();
        if self.cut.get().is_some_and(|cut| operations.len() >= cut) {
            return Err(Error::Io(ErrorKind::Other));
        }
        operations.push(operation);
        Ok(())
    }
}

impl Storage for Flash {
    fn identity(&self) -> &[u8] {
        &self.identity
    }
    fn read(&self, offset: u32, out: &mut [u8]) -> Result<(), Error> {
        let span = Self::span(offset, out.len())?;
        out.copy_from_slice(&self.region.borrow()[span]);
        Ok(())
    }
    fn write(&self, offset: u32, bytes: &[u8]) -> Result<(), Error> {
        let span = Self::span(offset, bytes.len())?;
        self.count(Operation::Write { offset, bytes: bytes.into() })?;
        for (old, new) in self.region.borrow_mut()[span].iter_mut().zip(bytes) {
            *old &= new;
        }
        Ok(())
    }
    fn erase(&self, start: u32, end: u32) -> Result<(), Error> {
        let length = end.checked_sub(start).ok_or(Error::Io(ErrorKind::Other))?;
        let span = Self::span(start, length as usize)?;
        self.count(Operation::Erase { start, end })?;
        self.region.borrow_mut()[span].fill(255);
        Ok(())
    }
    async fn current(&self) -> bool {
        self.current.get()
    }
    fn checked_at(&self) -> Option<i64> {
        self.checked_at.get()
    }
}
