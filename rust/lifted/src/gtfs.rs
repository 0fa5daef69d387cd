pub use crate::standins::{error::Error, zip};
pub use records::{Date, Table};

pub mod csv;

mod records {
    use super::{Error, csv::Column as C};
    use core::{fmt, str::FromStr};
    include!(concat!(env!("LIFTED"), "/gtfs.rs"));
}

pub mod mobility {
    use super::{Date, Error};
    include!(concat!(env!("LIFTED"), "/mobility.rs"));
}
