//! Dates, generations, CRCs, and numbers and times in bytes.
use crate::hex;
use common::Random;
use lifted::{cache::door, timetable_display::config};
use std::{
    collections::BTreeSet,
    fmt::{Error, Result, Write as _},
};

/// At and past the ends of years, months and days, and of the numbers.
const DATES: [u32; 34] = [
    0, 1, 99, 100, 101, 9999, 10000, 10001, 10100, 10101, 10131, 10132, 10228, 10229, 99991130,
    99991131, 99991200, 99991201, 99991230, 99991231, 99991232, 99991299, 99991301, 99999999,
    100000000, 100000101, 100010101, 100020000, 655360000, 655380101, 1000000000, 2147483647,
    2147483648, 4294967295,
];
/// Years in which the 29th of February is asked for.
const YEARS: [u32; 15] =
    [4, 100, 200, 300, 400, 1600, 1700, 1800, 1900, 1996, 2000, 2004, 2100, 2400, 9996];

const GENERATIONS: [u32; 9] =
    [0, 1, 7, 0x7fff_ffff, 0x8000_0000, 0x8000_0001, 0x8000_0007, u32::MAX - 1, u32::MAX];

const TEXTS: [&[u8]; 7] = [
    b"",
    b"a",
    b"abc",
    b"message digest",
    b"abcdefghijklmnopqrstuvwxyz",
    b"123456789",
    b"The quick brown fox jumps over the lazy dog",
];

const NUMBERS: [u32; 6] = [0, 1, 0x0102_0304, 0x7fff_ffff, 0x8000_0000, u32::MAX];
const TIMES: [i64; 8] = [0, 1, -1, i64::MIN, i64::MAX, 1 << 32, -(1 << 32), 1_790_000_000];

fn dates(out: &mut String, random: &mut Random) -> Result {
    let mut dates = BTreeSet::from(DATES);
    for year in [2023, 2024] {
        for month in 0..=13 {
            for day in [0, 1, 28, 29, 30, 31, 32] {
                dates.insert(year * 10_000 + month * 100 + day);
            }
        }
    }
    for year in YEARS {
        for day in [228, 229, 230, 301] {
            dates.insert(year * 10_000 + day);
        }
    }
    while dates.len() < 400 {
        let date = match random.below(3) {
            0 => random.u32(),
            1 => random.below(100_020_001) as u32,
            _ => {
                let year = 1 + random.below(9999);
                (year * 10_000 + (1 + random.below(12)) * 100 + 1 + random.below(31)) as u32
            }
        };
        dates.insert(date);
    }
    for d in dates {
        writeln!(out, "date {d} {}", u8::from(door::valid_date(d)))?;
    }
    Ok(())
}

fn new_dates(out: &mut String, random: &mut Random) -> Result {
    let mut parts = BTreeSet::new();
    for year in [0, 1, 4, 100, 400, 1900, 2000, 2023, 2024, 9999, 10_000, 65_535] {
        for (month, day) in [(1, 1), (2, 28), (2, 29), (2, 30), (4, 31), (12, 31), (12, 32)] {
            parts.insert((year, month, day));
        }
    }
    for month in 0..=14 {
        for day in [30, 31] {
            parts.insert((2025, month, day));
        }
    }
    for (month, day) in [(0, 0), (0, 1), (1, 0), (255, 255), (1, 255), (255, 1), (13, 1)] {
        parts.insert((2025, month, day));
    }
    while parts.len() < 200 {
        parts.insert(match random.below(2) {
            0 => (random.u32() as u16, random.u32() as u8, random.u32() as u8),
            _ => (random.below(10_001) as u16, random.below(14) as u8, random.below(33) as u8),
        });
    }
    for (year, month, day) in parts {
        let number = door::date_new(year, month, day).unwrap_or(0);
        writeln!(out, "new {year} {month} {day} {number}")?;
    }
    Ok(())
}

fn newer(out: &mut String, random: &mut Random) -> Result {
    let mut pairs = BTreeSet::new();
    for a in GENERATIONS {
        for b in GENERATIONS {
            pairs.insert((a, b));
        }
    }
    while pairs.len() < 200 {
        let a = random.u32();
        let near = (random.below(5) as u32).wrapping_sub(2);
        pairs.insert((
            a,
            match random.below(3) {
                0 => random.u32(),
                1 => a.wrapping_add(near),
                _ => a.wrapping_add(1 << 31).wrapping_add(near),
            },
        ));
    }
    for (a, b) in pairs {
        writeln!(out, "newer {a} {b} {}", u8::from(config::newer(a, b)))?;
    }
    Ok(())
}

fn next(out: &mut String, random: &mut Random) -> Result {
    let mut generations = BTreeSet::from(GENERATIONS);
    while generations.len() < 20 {
        generations.insert(random.u32());
    }
    for g in generations {
        writeln!(out, "next {g} {}", g.wrapping_add(1))?;
    }
    Ok(())
}

/// One CRC, which is returned.
fn crc(out: &mut String, start: u32, bytes: &[u8]) -> std::result::Result<u32, Error> {
    let mut hash = crc32fast::Hasher::new_with_initial(start);
    hash.update(bytes);
    let crc = hash.finalize();
    writeln!(out, "crc {start} {} {crc}", hex(bytes))?;
    Ok(crc)
}

fn crcs(out: &mut String, random: &mut Random) -> Result {
    for bytes in TEXTS {
        crc(out, 0, bytes)?;
    }
    for start in [0, 1, u32::MAX, 0xcbf4_3926] {
        crc(out, start, b"")?;
        crc(out, start, b"\0")?;
        crc(out, start, &[255; 32])?;
    }
    for length in (0..=70).chain((75..=300).step_by(6)).chain([127, 128, 255, 256, 257]) {
        let bytes = random.bytes(length);
        crc(out, if length % 2 == 0 { 0 } else { random.u32() }, &bytes)?;
    }
    for length in [1000, 1024, 1200, 1489, 1500] {
        crc(out, 0, &random.bytes(length))?;
    }
    // One text in two and in three pieces, each continued from the one before.
    let bytes = random.bytes(100);
    for cuts in [&[0, 37, 100][..], &[0, 16, 48, 100], &[0, 0, 1, 99, 100]] {
        let mut start = 0;
        for pair in cuts.windows(2) {
            start = crc(out, start, &bytes[pair[0]..pair[1]])?;
        }
    }
    Ok(())
}

fn numbers(out: &mut String, random: &mut Random) -> Result {
    for length in [4, 5, 8, 24, 48] {
        for i in (0..=length - 4).step_by(if length > 8 { 5 } else { 1 }) {
            let bytes = random.bytes(length);
            writeln!(out, "get {} {i} {}", hex(&bytes), door::get(&bytes, i))?;
        }
    }
    for length in [4, 5, 8, 24, 48] {
        for i in (0..=length - 4).step_by(if length > 8 { 5 } else { 1 }) {
            let bytes = random.bytes(length);
            let value = if i % 2 == 0 { random.u32() } else { random.pick(&NUMBERS) };
            let mut after = bytes.clone();
            door::put(&mut after, i, value);
            writeln!(out, "put {} {i} {value} {}", hex(&bytes), hex(&after))?;
        }
    }
    Ok(())
}

fn times(out: &mut String, random: &mut Random) -> Result {
    for length in [8, 9, 16, 40] {
        for i in (0..=length - 8).step_by(if length > 16 { 4 } else { 1 }) {
            let mut bytes = random.bytes(length);
            if i % 2 == 0 {
                bytes[i..i + 8].copy_from_slice(&random.pick(&TIMES).to_le_bytes());
            }
            let value = i64::from_le_bytes(bytes[i..i + 8].try_into().unwrap());
            writeln!(out, "time {} {i} {value}", hex(&bytes))?;
        }
    }
    for length in [8, 9, 16, 40] {
        for i in (0..=length - 8).step_by(if length > 16 { 4 } else { 1 }) {
            let bytes = random.bytes(length);
            let value = if i % 2 == 0 { random.pick(&TIMES) } else { random.u64() as i64 };
            let mut after = bytes.clone();
            after[i..i + 8].copy_from_slice(&value.to_le_bytes());
            writeln!(out, "puttime {} {i} {value} {}", hex(&bytes), hex(&after))?;
        }
    }
    Ok(())
}

fn rotations(out: &mut String, random: &mut Random) -> Result {
    let mut numbers = BTreeSet::from([0, 1, 1 << 18, 1 << 19, 1 << 31, u32::MAX, 0x1234_5678]);
    while numbers.len() < 30 {
        numbers.insert(random.u32());
    }
    for x in numbers {
        writeln!(out, "rotate {x} {}", x.rotate_left(13))?;
    }
    Ok(())
}

pub fn write(out: &mut String, random: &mut Random) -> Result {
    dates(out, random)?;
    new_dates(out, random)?;
    newer(out, random)?;
    next(out, random)?;
    crcs(out, random)?;
    numbers(out, random)?;
    times(out, random)?;
    rotations(out, random)
}
