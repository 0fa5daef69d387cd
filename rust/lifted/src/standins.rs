//! What the lifted code only calls; docs/DIFFERENCES.md has the list.
pub mod download;
pub mod embassy_futures;
pub mod embedded_io_async;
pub mod error;
pub mod feed;
pub mod flash;
pub mod heapless;
pub mod run;
pub mod settings;
#[cfg(tables)]
pub mod tables;
pub mod view;
pub mod zip;
