//! Safe functions over the proved core. No call needs a check beforehand: every
//! index, number and length has an answer.
//!
//! [`cache`] is what the firmware calls, with results and refusals; [`constants`] has
//! sizes, record offsets, tables and columns by name. The other modules have the
//! same calls with the numbers of the C interface.
//!
//! ```
//! use bankcore::{cache, constants::{column, table}};
//! let region = std::fs::read("../../samples/two-good.img")?;
//! let bank = cache::load(&region)?.expect("a good bank");
//! for row in bank.rows(&region, 0, table::STOPS) {
//!     let row = row?;
//!     let name = row.value(column::stops::STOP_NAME).unwrap();
//!     assert!(!name.is_empty());
//! }
//! # Ok::<(), Box<dyn std::error::Error>>(())
//! ```
#![no_std]
#![deny(missing_docs)]

// A length has 64 bits in the core's proofs, and so in these declarations. There is
// no core for a target whose pointers have another size, and `ends` are lent as they
// are: docs/FIRMWARE.md.
const _: () = assert!(
    size_of::<usize>() == 8 && align_of::<usize>() == align_of::<u64>(),
    "bankcore: pointers and lengths must have 64 bits"
);

pub mod cache;
pub mod constants;
pub mod refusal;
pub use refusal::Refusal;

/// The core's C interface, all declarations. A slice is a pointer and a length.
mod core_interface {
    use crate::answers::{BankAnswer, BankRowAnswer, FreshAnswer, SameKeyAnswer, TurnAnswer};

    #[repr(C)]
    pub struct KeyNumbers {
        pub refusal: u32,
        pub length: u64,
    }

    unsafe extern "C" {
        pub fn tt_get(b: *const u8, n: u64, i: u64) -> u32;
        pub fn tt_put(b: *mut u8, n: u64, i: u64, v: u32) -> u32;
        pub fn tt_get_time(b: *const u8, n: u64, i: u64) -> i64;
        pub fn tt_put_time(b: *mut u8, n: u64, i: u64, v: i64) -> u32;
        pub fn tt_crc32(start: u32, b: *const u8, n: u64) -> u32;
        pub safe fn tt_newer(a: u32, b: u32) -> bool;
        pub safe fn tt_next(g: u32) -> u32;
        pub safe fn tt_date_new(year: u16, month: u8, day: u8) -> u32;
        pub safe fn tt_valid_date(d: u32) -> bool;
        pub safe fn tt_rotate13(x: u32) -> u32;
        pub fn tt_validate(region: *const u8, n: u64, bank: u32) -> BankAnswer;
        pub fn tt_header(region: *const u8, n: u64, bank: u32) -> BankAnswer;
        pub fn tt_load(region: *const u8, n: u64) -> BankAnswer;
        pub fn tt_source(
            region: *const u8,
            n: u64,
            bank: u32,
            index: u32,
            out: *mut u8,
            out_length: u64,
        ) -> u32;
        pub fn tt_fresh(
            region: *const u8,
            n: u64,
            bank: u32,
            day0: u32,
            day1: u32,
            day2: u32,
            wanted0: bool,
            wanted1: bool,
            wanted2: bool,
            now: i64,
        ) -> FreshAnswer;
        pub fn tt_key(
            identity: *const u8,
            identity_length: u64,
            texts: *const u8,
            texts_length: u64,
            lengths: *const u32,
            lengths_length: u64,
            out: *mut u8,
            out_length: u64,
        ) -> KeyNumbers;
        pub fn tt_same_key(
            region: *const u8,
            n: u64,
            bank: u32,
            identity: *const u8,
            identity_length: u64,
            texts: *const u8,
            texts_length: u64,
            lengths: *const u32,
            lengths_length: u64,
        ) -> SameKeyAnswer;
        pub fn tt_check_start(region: *const u8, n: u64, bank: u32) -> TurnAnswer;
        pub fn tt_check_turn(
            region: *const u8,
            n: u64,
            bank: u32,
            position: u32,
            crc: u32,
            count: u32,
        ) -> TurnAnswer;
        pub fn tt_bank_row(
            region: *const u8,
            n: u64,
            bank: u32,
            source: u32,
            table: u32,
            place: u64,
            out: *mut u8,
            out_length: u64,
            ends: *mut u64,
            slots: u64,
        ) -> BankRowAnswer;
    }
}
use core_interface::*;

pub mod answers;
pub mod banks;
pub mod rows;
pub mod update;

/// The 32-bit number at `i`, little-endian; bytes past the end read 0.
pub fn get(b: &[u8], i: usize) -> u32 {
    unsafe { tt_get(b.as_ptr(), b.len() as u64, i as u64) }
}

/// Writes the number at `i`; 0, or 9 if its four bytes don't fit, and then nothing changes.
pub fn put(b: &mut [u8], i: usize, v: u32) -> u32 {
    unsafe { tt_put(b.as_mut_ptr(), b.len() as u64, i as u64, v) }
}

/// The signed 64-bit time at `i`; bytes past the end read 0.
pub fn get_time(b: &[u8], i: usize) -> i64 {
    unsafe { tt_get_time(b.as_ptr(), b.len() as u64, i as u64) }
}

/// Writes the time at `i`; 0, or 9 if its eight bytes don't fit, and then nothing changes.
pub fn put_time(b: &mut [u8], i: usize, v: i64) -> u32 {
    unsafe { tt_put_time(b.as_mut_ptr(), b.len() as u64, i as u64, v) }
}

/// The CRC-32 of `b`, continued from an earlier CRC; 0 to begin.
///
/// Bytes are fed part after part: each part goes on from the CRC of those before it, and the last
/// answer is the CRC of all parts joined. An empty part changes nothing. A CRC that happens to be
/// 0 is passed on like any other.
///
/// ```
/// use bankcore::crc32;
/// let parts: [&[u8]; 4] = [b"time", b"", b"tab", b"le"];
/// let crc = parts.iter().fold(0, |crc, part| crc32(crc, part));
/// assert_eq!(crc, crc32(0, b"timetable"));
/// ```
pub fn crc32(start: u32, b: &[u8]) -> u32 {
    unsafe { tt_crc32(start, b.as_ptr(), b.len() as u64) }
}

/// Whether generation `a` is newer than `b`, wrapping.
pub fn newer(a: u32, b: u32) -> bool {
    tt_newer(a, b)
}

/// The generation after `g`, wrapping.
pub fn next(g: u32) -> u32 {
    tt_next(g)
}

/// The date's number, or none if there is no such date.
pub fn date_new(year: u16, month: u8, day: u8) -> Option<u32> {
    match tt_date_new(year, month, day) {
        0 => None,
        number => Some(number),
    }
}

/// Whether `d` is a date's number.
pub fn valid_date(d: u32) -> bool {
    tt_valid_date(d)
}

/// `x` rotated left by 13.
pub fn rotate13(x: u32) -> u32 {
    tt_rotate13(x)
}
