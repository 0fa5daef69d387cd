//! Values as text: dates beside numbers, shares of the capacity, texts where
//! they can be printed.
use lifted::cache::{BANK_SIZE, door::SECTOR};
use std::fmt::Write;

const DAY_SECONDS: i64 = 86_400;
/// The first second of the year 10000.
const SECONDS_LIMIT: i64 = 253_402_300_800;
pub const CAPACITY: u32 = BANK_SIZE - SECTOR;

/// Whether a character is for the eye: no control, no mark of direction, no
/// joiner, separator of lines or tag.
fn is_shown(c: char) -> bool {
    match c {
        '"' | '\\' => false,
        ' '..='~' => true,
        '\0'..='\u{9f}' | '\u{ad}' | '\u{61c}' => false,
        '\u{200b}'..='\u{200f}' | '\u{2028}'..='\u{202e}' | '\u{2060}'..='\u{206f}' => false,
        '\u{feff}' | '\u{fff9}'..='\u{ffff}' | '\u{e0000}'..='\u{e0fff}' => false,
        _ => true,
    }
}

/// Bytes as they are printed: characters that can be shown, every other byte
/// as \xNN.
pub fn spell(bytes: &[u8]) -> String {
    let mut out = String::new();
    for chunk in bytes.utf8_chunks() {
        for c in chunk.valid().chars() {
            if is_shown(c) {
                out.push(c);
            } else {
                escape(&mut out, c.encode_utf8(&mut [0; 4]).as_bytes());
            }
        }
        escape(&mut out, chunk.invalid());
    }
    out
}

fn escape(out: &mut String, bytes: &[u8]) {
    for b in bytes {
        write!(out, "\\x{b:02x}").unwrap();
    }
}

/// Texts in quotes, with commas between them.
pub fn quoted<'a>(texts: impl IntoIterator<Item = &'a [u8]>) -> String {
    let texts: Vec<String> = texts.into_iter().map(|t| format!("\"{}\"", spell(t))).collect();
    texts.join(",")
}

/// The year, month and day of a day counted from 1970 on, one year and one
/// month after the other.
fn calendar(mut days: i64) -> (i64, i64, i64) {
    let leap = |y: i64| y % 4 == 0 && (y % 100 != 0 || y % 400 == 0);
    let mut year = 1970;
    while days >= 365 + i64::from(leap(year)) {
        days -= 365 + i64::from(leap(year));
        year += 1;
    }
    let february = 28 + i64::from(leap(year));
    for (month, length) in (1..).zip([31, february, 31, 30, 31, 30, 31, 31, 30, 31, 30, 31]) {
        if days < length {
            return (year, month, days + 1);
        }
        days -= length;
    }
    unreachable!()
}

/// A time in seconds, with its date.
pub fn time(seconds: i64) -> String {
    if !(0..SECONDS_LIMIT).contains(&seconds) {
        return seconds.to_string();
    }
    let (year, month, day) = calendar(seconds / DAY_SECONDS);
    let rest = seconds % DAY_SECONDS;
    format!(
        "{seconds} ({year:04}-{month:02}-{day:02} {:02}:{:02}:{:02} UTC)",
        rest / 3600,
        rest / 60 % 60,
        rest % 60
    )
}

/// A day as 2026-01-01.
pub fn day(d: u32) -> String {
    if lifted::cache::door::valid_date(d) {
        format!("{:04}-{:02}-{:02}", d / 10000, d / 100 % 100, d % 100)
    } else {
        d.to_string()
    }
}

/// A length's share of the capacity, in percent, rounded down.
pub fn share(length: u32) -> String {
    let hundredths = u64::from(length) * 10_000 / u64::from(CAPACITY);
    format!("{}.{:02} %", hundredths / 100, hundredths % 100)
}
