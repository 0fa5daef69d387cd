//! The lifted cache.rs, with access to its private items.
use crate::{
    embassy_futures,
    embedded_io_async::{ErrorType, Read},
    gtfs::{
        self, Date, Error, Table,
        csv::{Column as C, Record},
        zip,
    },
    timetable_display::{self, Config, config::Pick, feed::Builder, freshness::Freshness},
};

#[cfg(tables)]
use crate::standins::tables as crc32fast;

include!(concat!(env!("LIFTED"), "/cache.rs"));

pub mod door;
