//! CRC-32: the core, crc32fast's table path, crc32fast with SIMD, and zlib; a header's
//! sum, in three parts and at once.
use crate::{line::Line, measure::measure, table::grouped};
use bankcore::constants::HEADER_SIZE;
use common::Random;
use std::ffi::{CStr, c_char, c_ulong};

#[link(name = "z")]
unsafe extern "C" {
    fn crc32(crc: c_ulong, bytes: *const u8, length: u32) -> c_ulong;
    fn zlibVersion() -> *const c_char;
}

fn core(bytes: &[u8]) -> u32 {
    bankcore::crc32(0, bytes)
}
fn table(bytes: &[u8]) -> u32 {
    let mut hash = crc32fast::Hasher::internal_new_baseline(0, 0);
    hash.update(bytes);
    hash.finalize()
}
fn simd(bytes: &[u8]) -> u32 {
    crc32fast::hash(bytes)
}
fn zlib(bytes: &[u8]) -> u32 {
    unsafe { crc32(0, bytes.as_ptr(), bytes.len() as u32) as u32 }
}

/// Of a header: the bytes before its CRC, and the CRC and the commit word, which count
/// as zeros.
const FRONT: usize = 40;
const ZEROS: [u8; 8] = [0; 8];

fn in_parts(header: &[u8]) -> u32 {
    let crc = bankcore::crc32(0, &header[..FRONT]);
    let crc = bankcore::crc32(crc, &ZEROS);
    bankcore::crc32(crc, &header[FRONT + ZEROS.len()..])
}

type Run = fn(&[u8]) -> u32;
const RUNS: [Run; 3] = [core, table, simd];
const NAMES: [&str; 4] = ["core", "table", "SIMD", "zlib"];
const ALL: [Run; 4] = [core, table, simd, zlib];
/// Sizes, and the mark to reach.
const SIZES: [(usize, Option<f64>); 6] = [
    (16, Some(1.5)),
    (64, Some(0.85)),
    (256, Some(1.0)),
    (1500, Some(1.15)),
    (4096, Some(1.15)),
    (487_424, Some(1.15)),
];
const WIDTH: usize = 40;

fn few(rounds: usize, size: usize) -> usize {
    if size > 100_000 { rounds / 10 } else { rounds }
}

pub fn lines(rounds: usize) -> Vec<Line> {
    let mut random = Random::new(1);
    let line = |(size, mark)| {
        let bytes = random.bytes(size);
        let line = Line::new(format!("CRC-32, {} bytes", grouped(size)), "crc32fast", mark);
        let answers = ALL.map(|run| run(&bytes));
        if answers.iter().any(|a| *a != answers[0]) {
            return line;
        }
        line.timed(RUNS, &bytes[..], few(rounds, size), 1)
    };
    let mut lines: Vec<Line> = SIZES.map(line).into();
    lines.push(header(&mut random, rounds));
    lines
}

/// The header CRC alone, by `tt_crc32`: in three calls, one for each part that
/// `header::seal` feeds, beside one call for all bytes, those from 40 to 47 being zero.
fn header(random: &mut Random, rounds: usize) -> Line {
    let mut bytes = random.bytes(HEADER_SIZE);
    bytes[FRONT..][..ZEROS.len()].copy_from_slice(&ZEROS);
    let name = format!("header CRC, {} bytes in three parts", grouped(HEADER_SIZE));
    let line = Line::new(name, "in one", None);
    if in_parts(&bytes) != core(&bytes) {
        return line;
    }
    line.timed([in_parts, core], &bytes[..], rounds, 1)
}

/// Draws the speeds, for each size relative to its fastest.
pub fn draw(rounds: usize) {
    let version = unsafe { CStr::from_ptr(zlibVersion()) }.to_string_lossy();
    println!("CRC-32 in MB/s, one run on one machine, warm buffers. core: this library.");
    println!("table: the table path of crc32fast {}.", common::crc32fast());
    println!("SIMD: crc32fast::hash. zlib: the system's zlib {version}.");
    let mut random = Random::new(1);
    for (size, _) in SIZES {
        println!("{} bytes", grouped(size));
        let bytes = random.bytes(size);
        let times = measure(ALL, &bytes[..], few(rounds, size).max(10));
        let speeds = times.map(|t| size as f64 * 1000.0 / t);
        let fastest = speeds.iter().copied().fold(0.0, f64::max);
        for (name, speed) in NAMES.iter().zip(speeds) {
            let bar = "#".repeat(((speed / fastest * WIDTH as f64).round() as usize).max(1));
            println!("  {name:<6}{bar:<WIDTH$} {speed:>7.0}");
        }
    }
}
