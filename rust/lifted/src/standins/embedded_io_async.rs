//! Stands in for the crate embedded-io-async: the three traits that the lifted
//! readers name, with a single kind of error.

#[derive(Clone, Copy, Debug, PartialEq, Eq)]
pub enum ErrorKind {
    Other,
}

pub trait Error: core::fmt::Debug {
    fn kind(&self) -> ErrorKind;
}

pub trait ErrorType {
    type Error: Error;
}

#[allow(async_fn_in_trait)]
pub trait Read: ErrorType {
    async fn read(&mut self, out: &mut [u8]) -> Result<usize, Self::Error>;
}
