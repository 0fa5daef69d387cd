use super::{Error, Table};
include!(concat!(env!("LIFTED"), "/csv.rs"));

#[cfg(feature = "reader")]
pub use reader::Reader;
#[cfg(feature = "reader")]
mod reader {
    use super::{Column, Error, Record, Table};
    use crate::embedded_io_async::{Error as _, Read};
    use csv_core::ReadRecordResult;
    include!(concat!(env!("LIFTED"), "/reader.rs"));
}

// A stand-in that makes records, so it needs their private fields.
#[path = "../standins/values.rs"]
pub mod values;
