//! The lifted Rust, in modules named as in its own source, over stand-ins for
//! what it only calls (see docs/DIFFERENCES.md). The lifted text itself is written by
//! rust/lift and included here.
#![allow(dead_code)]

pub mod standins;
use standins::{download, embassy_futures, embedded_io_async, heapless};

pub mod cache;
pub mod gtfs;
pub mod numbered;
/// The words, spelled once for all of the Rust; nothing of the core is linked.
#[path = "../../binding/src/refusal.rs"]
pub mod refusal;
pub mod smoke;

pub mod cooperative {
    use crate::embedded_io_async::{ErrorType, Read};
    use core::{future::poll_fn, task::Poll};
    include!(concat!(env!("LIFTED"), "/cooperative.rs"));
}

pub mod timetable_display {
    pub use crate::standins::feed;
    pub use config::Config;

    pub mod config {
        use crate::heapless::{String, Vec};
        use serde::{Deserialize, Serialize};
        include!(concat!(env!("LIFTED"), "/config.rs"));
        include!(concat!(env!("LIFTED"), "/crc32.rs"));
    }
    pub mod freshness {
        include!(concat!(env!("LIFTED"), "/freshness.rs"));
    }
}
