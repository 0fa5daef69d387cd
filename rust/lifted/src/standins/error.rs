//! Stands in for the `Error` of gtfs/src/lib.rs, which isn't available: the
//! variants that lifted code names.
use crate::embedded_io_async;

#[derive(Clone, Copy, Debug, PartialEq, Eq)]
pub enum Error {
    BufferTooSmall,
    CrcMismatch,
    InvalidArchiveName,
    InvalidDate,
    InvalidField(&'static str),
    InvalidUtf8,
    InvalidZip,
    Io(embedded_io_async::ErrorKind),
    MissingColumn(&'static str),
    RecordTooLong,
    TooManyFields,
}

impl embedded_io_async::Error for Error {
    fn kind(&self) -> embedded_io_async::ErrorKind {
        embedded_io_async::ErrorKind::Other
    }
}
