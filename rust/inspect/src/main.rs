//! What the lifted Rust says of a flash image, line by line as the proved
//! program inspect prints it; docs/INSPECT.md has the lines.
mod options;
mod rows;
mod state;
mod text;

use lifted::{
    cache::{
        BANK_SIZE, Bank, OFFSET, SIZE, Storage,
        door::{self, BankFields, EMPTY, SECTOR, SourceFields},
    },
    gtfs::{Date, Error},
    numbered::{self, Refusal},
    refusal,
    standins::{settings, view::View},
    timetable_display::{Config, feed::Builder},
};
use options::{Options, Selection};
use std::{
    ffi::OsStr,
    fs::File,
    io::{self, Read, Write},
    process::ExitCode,
};

const REGION: usize = SIZE as usize;
const SMALL_DUMP: usize = 2_097_152;
const DUMPS: [usize; 3] = [4_194_304, 8_388_608, 16_777_216];
const LARGEST: usize = DUMPS[2];
const GZIP: [u8; 2] = [31, 139];
const SAMPLE: &str = "samples/two-good.img";
const TABLES: [&str; 8] = [
    "routes",
    "stops",
    "trips",
    "stop_times",
    "calendar",
    "calendar_dates",
    "feed_info",
    "transfers",
];

/// The image's bytes and where the region starts in them.
fn image(name: &OsStr, offset: Option<usize>) -> Result<(Vec<u8>, usize), String> {
    let shown = name.to_string_lossy();
    let mut bytes = Vec::new();
    let limit = LARGEST as u64 + 1;
    if name == "-" {
        io::stdin().lock().take(limit).read_to_end(&mut bytes)
    } else {
        File::open(name).and_then(|file| file.take(limit).read_to_end(&mut bytes))
    }
    .map_err(|error| format!("{shown} can't be read: {error}"))?;
    if bytes.starts_with(&GZIP) {
        return Err(format!("{shown} is a gzip file; decompress it first, as with gunzip -k"));
    }
    let length = bytes.len();
    let has = if length > LARGEST {
        format!("{shown} has more than {LARGEST} bytes")
    } else {
        format!("{shown} has {length} bytes")
    };
    let none = |at: usize| {
        Err(format!(
            "{has}; it holds no region of {REGION} bytes at {at}, see --offset; see inspect --help"
        ))
    };
    match (offset, length) {
        (Some(at), _) if length <= LARGEST && at + REGION <= length => Ok((bytes, at)),
        (Some(at), _) => none(at),
        (None, REGION) => Ok((bytes, 0)),
        (None, _) if DUMPS.contains(&length) => Ok((bytes, OFFSET as usize)),
        (None, SMALL_DUMP) => none(OFFSET as usize),
        (None, _) => Err(format!(
            "{has}; expected a region of {REGION} bytes or a whole flash dump of {}, {} or {} bytes, or --offset; see inspect --help",
            DUMPS[0], DUMPS[1], DUMPS[2]
        )),
    }
}

/// CRC-32, of bytes that the Rust's own functions don't check.
fn crc(bytes: &[u8]) -> u32 {
    lifted::timetable_display::config::crc32(bytes)
}

fn refused(number: u32) -> String {
    refusal::Refusal::of(number).map_or_else(|| format!("refusal {number}"), |r| r.to_string())
}

fn time(known: Option<i64>) -> String {
    known.map_or("unknown".into(), text::time)
}

/// The numbers of a bank's header, as its bytes have them.
fn header(bank: &[u8]) -> String {
    let word = |at| door::get(bank, at);
    let checked = i64::from(word(32)) | i64::from(word(36).cast_signed()) << 32;
    format!(
        "version {}, generation {}, data length {} ({} of {}), data crc {:08x}, sources {}, key length {}, checked {}",
        word(4),
        word(8),
        word(12),
        text::share(word(12)),
        text::CAPACITY,
        word(16),
        word(20),
        word(24),
        text::time(checked)
    )
}

fn bank_bytes<'a>(flash: &'a View, number: u32) -> &'a [u8] {
    let start = (number * BANK_SIZE) as usize;
    &flash.region[start..start + BANK_SIZE as usize]
}

fn bank(flash: &View, number: u32) -> String {
    let bytes = bank_bytes(flash, number);
    match numbered::validate(flash, number) {
        Ok(bank) => {
            let b = BankFields::from(bank);
            format!(
                "version {}, generation {}, data length {} ({} of {}), data crc {:08x}, sources {}, key length {}, checked {}",
                b.version,
                b.generation,
                b.length,
                text::share(b.length),
                text::CAPACITY,
                door::get(bytes, 16),
                b.count,
                b.key_length,
                text::time(b.checked)
            )
        }
        Err(Refusal::Number(number)) => {
            format!("{}: {}", refused(number), state::words(bytes, number))
        }
        Err(Refusal::Other(error)) => format!("the Rust says {error:?}"),
    }
}

fn source(out: &mut Vec<String>, data: &[u8], i: u32, s: &SourceFields) {
    let names: Vec<&str> = (0..8).filter(|t| s.present >> t & 1 == 1).map(|t| TABLES[t]).collect();
    out.push(format!(
        "source {i}: start {}, end {}, updated {}, present {}",
        text::day(s.start),
        text::day(s.end),
        time((s.updated != EMPTY).then_some(s.updated)),
        if names.is_empty() { "none".into() } else { names.join(" ") }
    ));
    for (t, name) in TABLES.iter().enumerate() {
        let ([offset, length, crc], [original, size]) = (s.tables[t], s.original[t]);
        if length != 0 || original != 0 || size != 0 {
            let start = data.len().min(offset as usize);
            let end = data.len().min(start + length as usize);
            let computed = self::crc(&data[start..end]);
            out.push(format!(
                "source {i} {name}: offset {offset}, length {length} ({}), crc {crc:08x}{}, \
                 original crc {original:08x}, original length {size}",
                text::share(length),
                if computed == crc {
                    String::new()
                } else {
                    format!(", DAMAGED: computed crc {computed:08x}")
                }
            ));
        }
    }
}

fn fresh(flash: &View, bank: Bank, days: [u32; 3], wanted: [bool; 3], now: i64) -> String {
    let date = |d: u32| {
        door::valid_date(d)
            .then(|| Date::new((d / 10000) as u16, (d / 100 % 100) as u8, (d % 100) as u8).ok())
            .flatten()
    };
    let [Some(a), Some(b), Some(c)] = days.map(date) else {
        return refused(2);
    };
    let wanted = (0..3).map(|i| u8::from(wanted[i]) << i).sum();
    match door::fresh(bank, flash, &Builder { dates: [a, b, c], wanted }, now) {
        Ok(f) => {
            format!("checked {}, updated {}", time(f.checked_at), time(f.source_updated_at))
        }
        Err(error) => format!("the Rust says {error:?}"),
    }
}

/// The settings, or none if document 01 has refusal 2: they hold no more picks and
/// no longer fields.
fn config(selection: &Selection) -> Option<Config> {
    let fields: Vec<[&str; 5]> =
        selection.picks.iter().map(|p| p.each_ref().map(String::as_str)).collect();
    settings::config(&fields)
}

fn matches(flash: &View, bank: Bank, selection: &Selection) -> String {
    let Some(config) = config(selection) else {
        return refused(2);
    };
    let flash = View { identity: &selection.identity, ..*flash };
    match door::same_key(bank, &flash, &config) {
        Ok(true) => "yes".into(),
        Ok(false) => "no".into(),
        Err(Error::BufferTooSmall) => refused(8),
        Err(error) => format!("the Rust says {error:?}"),
    }
}

/// The texts of a key: its identity, if it has one, and five of each pick.
struct KeyTexts<'a> {
    identity: Option<&'a [u8]>,
    fields: Vec<&'a [u8]>,
}

/// A key taken apart; none if the bytes aren't laid out so.
fn key_texts(key: &[u8]) -> Option<KeyTexts<'_>> {
    let (identity, rest) = if *key.first()? == 255 {
        let length = usize::from(u16::from_le_bytes([*key.get(1)?, *key.get(2)?]));
        (Some(key.get(3..3 + length)?), &key[3 + length..])
    } else {
        (None, key)
    };
    let (count, mut rest) = rest.split_first()?;
    let mut fields = Vec::new();
    for _ in 0..5 * usize::from(*count) {
        let (length, after) = rest.split_first()?;
        let (text, left) = after.split_at_checked(usize::from(*length))?;
        fields.push(text);
        rest = left;
    }
    rest.is_empty().then_some(KeyTexts { identity, fields })
}

fn key_lines(out: &mut Vec<String>, key: &[u8]) {
    for (i, part) in key.chunks(32).enumerate() {
        let hex: Vec<String> = part.iter().map(|b| format!("{b:02x}")).collect();
        out.push(format!("key {}: {}", i * 32, hex.join(" ")));
    }
    if let Some(KeyTexts { identity, fields }) = key_texts(key) {
        out.extend(identity.map(|text| format!("identity: {}", text::quoted([text]))));
        for (i, pick) in fields.chunks(5).enumerate() {
            out.push(format!("pick {i}: {}", text::quoted(pick.iter().copied())));
        }
    }
}

/// The lines of a bank: key, sources, and what is asked of it.
fn asked(flash: &View, bank: Bank, options: &Options) -> Result<Vec<String>, Error> {
    let fields = BankFields::from(bank);
    let mut out = Vec::new();
    let data = &bank_bytes(flash, (fields.offset - OFFSET) / BANK_SIZE)[SECTOR as usize..];
    let mut key = vec![0; fields.key_length as usize];
    flash.read(fields.offset + SECTOR, &mut key)?;
    key_lines(&mut out, &key);
    for i in 0..fields.count {
        source(&mut out, data, i, &door::source(bank, flash, i as usize)?);
    }
    if let (Some(days), Some(now)) = (options.days, options.now) {
        out.push(format!("fresh: {}", fresh(flash, bank, days, options.wanted, now)));
    }
    if let Some(selection) = &options.selection {
        out.push(format!("match: {}", matches(flash, bank, selection)));
    }
    if let Some(asked) = &options.rows {
        out.extend(rows::lines(flash, bank, asked)?);
    }
    Ok(out)
}

/// What every call answers on a bank that none of them reads.
fn refused_lines(number: u32, options: &Options) -> Vec<String> {
    let why = refused(number);
    let mut out = vec![format!("key: {why}"), format!("sources: {why}")];
    if let Some(days) = options.days {
        let valid = days.iter().all(|d| door::valid_date(*d));
        out.push(format!("fresh: {}", if valid { why.clone() } else { refused(2) }));
    }
    if let Some(selection) = &options.selection {
        let fits = config(selection).is_some();
        out.push(format!("match: {}", if fits { why.clone() } else { refused(2) }));
    }
    if let Some(asked) = &options.rows {
        let tables = asked.table.map_or(0..TABLES.len(), |t| t..t + 1);
        let i = asked.source.unwrap_or(0);
        out.extend(tables.map(|t| format!("row {i} {} 0: {why}", TABLES[t])));
    }
    out
}

/// The lines of a bank by its number. The Rust has no bank that load doesn't
/// give: one whose data alone are damaged is read with their CRC put right.
fn by_number(flash: &View, number: u32, options: &Options) -> Vec<String> {
    let bytes = bank_bytes(flash, number);
    let length = door::get(bytes, 12) as usize;
    let result = match numbered::validate(flash, number) {
        Ok(bank) => asked(flash, bank, options),
        Err(Refusal::Number(7)) => {
            let data = &bytes[SECTOR as usize..];
            let words = [((number * BANK_SIZE) as usize + 16, crc(&data[..length]))];
            let right = View { instead: &words, ..*flash };
            // The header's CRC covers that of the data, so it is put right too.
            let seal = [
                words[0],
                ((number * BANK_SIZE) as usize + 40, state::header_crc_with(bytes, words[0].1)),
            ];
            let right = View { instead: &seal, ..right };
            match numbered::validate(&right, number) {
                Ok(bank) => asked(&right, bank, options),
                Err(refusal) => return vec![format!("asked: the Rust says {refusal:?}")],
            }
        }
        Err(Refusal::Number(refusal)) => return refused_lines(refusal, options),
        Err(Refusal::Other(error)) => Err(error),
    };
    result.unwrap_or_else(|error| vec![format!("asked: the Rust says {error:?}")])
}

fn inspect(options: &Options) -> Result<Vec<String>, String> {
    let name = options.image.as_deref().unwrap_or(OsStr::new(SAMPLE));
    let (bytes, start) = image(name, options.offset)?;
    let mut out = vec![
        format!("image: {}", text::spell(name.as_encoded_bytes())),
        format!("region: {REGION} bytes"),
    ];
    if bytes.len() != REGION || options.offset.is_some() {
        out[1] += &format!(" at {start} of {}", bytes.len());
    }
    let flash = View::new(&bytes[start..start + REGION]);
    for number in 0..2 {
        out.push(format!("bank {number}: {}", bank(&flash, number)));
    }
    let given = match door::load(&flash) {
        Ok(bank) => bank,
        Err(error) => {
            out.push(format!("load: the Rust says {error:?}"));
            return Ok(out);
        }
    };
    let number = given.map(|bank| (BankFields::from(bank).offset - OFFSET) / BANK_SIZE);
    out.push(number.map_or("load: none".into(), |n| format!("load: bank {n}")));
    if let Some(n) = options.bank {
        let trust = if number == Some(n) { "" } else { ", which load doesn't give" };
        out.push(format!("asked: bank {n}{trust}"));
        out.extend(by_number(&flash, n, options));
    } else if let Some(bank) = given {
        match asked(&flash, bank, options) {
            Ok(lines) => out.extend(lines),
            Err(error) => out.push(format!("load: the Rust says {error:?}")),
        }
    } else {
        let asked = [
            ("fresh", options.days.is_some()),
            ("match", options.selection.is_some()),
            ("rows", options.rows.is_some()),
        ];
        out.extend(asked.iter().filter(|(_, is)| *is).map(|(what, _)| format!("{what}: no bank")));
    }
    Ok(out)
}

fn main() -> ExitCode {
    let text = match options::read(std::env::args_os().skip(1)) {
        Ok(Some(options)) => inspect(&options).map(|lines| lines.join("\n") + "\n"),
        Ok(None) => Ok(options::HELP.into()),
        Err(message) => Err(message),
    };
    let text = match text {
        Ok(text) => text,
        Err(message) => {
            eprintln!("inspect: {message}");
            return ExitCode::from(2);
        }
    };
    match io::stdout().write_all(text.as_bytes()) {
        Err(error) if error.kind() != io::ErrorKind::BrokenPipe => {
            eprintln!("inspect: the output can't be written: {error}");
            ExitCode::from(2)
        }
        _ => ExitCode::SUCCESS,
    }
}
