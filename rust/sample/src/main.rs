//! Writes a fixed list of the Rust's answers, for the core to replay. The core
//! itself is not linked in.
mod banks;
mod filter;
mod keys;
mod leaves;
mod region;
mod rows;

use common::Random;
use std::{fmt::Write as _, fs, io::Write as _, process::ExitCode};

const HELP: &str = "\
sample [FILE]

Writes the fixed list of the Rust's answers to FILE, or to standard output. The
list is always the same. Lines are words with a blank between them:

  date N 0|1                 whether N is a date's number
  new Y M D NUMBER           Date::new; 0 for an error
  newer A B 0|1
  next A B                   the generation B after A
  crc START HEX RESULT       continued from START; - for no bytes
  get HEX INDEX VALUE
  put HEX INDEX VALUE HEX    with the bytes afterwards
  time HEX INDEX VALUE       signed 64-bit
  puttime HEX INDEX VALUE HEX
  rotate X Y                 rotated left by 13
  key IDENTITY TEXTS LENGTHS KEY
                             all in hexadecimal: the picks' texts in a row, their
                             lengths, a byte each and five to a pick (one past the
                             end is what is left, a missing one 0), and the key
  samekey STORED IDENTITY TEXTS LENGTHS 0|1
                             whether a bank whose key is STORED matches

These lines build a region of 983040 bytes, and have no answer:

  region BYTE                all bytes the same
  at PLACE HEX               these bytes at a place
  fill PLACE COUNT BYTE      so many equal bytes from a place on

These ask about the region as it is by then. A refusal is its number, 0 is none
and is followed by the answer. BANK.. is number, version, generation, data
length, data CRC, source count, key length, checked time.

  validate N REFUSAL [BANK..]
  header N REFUSAL [BANK..]  the same without the data
  load 0|1 [BANK..]          whether there is a bank to use
  source N INDEX REFUSAL [HEX]
                             the record in version 3's form
  fresh N DAY DAY DAY WANTED NOW REFUSAL [CHECKED UPDATED]
                             WANTED has bit 0 for the first day; the lowest time
                             is unknown
  start N REFUSAL VERDICT COUNT STATE
                             checking begun; a state is bank, position, CRC
  turn STATE BYTES REFUSAL VERDICT COUNT STATE
                             a turn of so many bytes; verdict 1 is yes
  bankkey N IDENTITY TEXTS LENGTHS REFUSAL [0|1]

Rows. LENGTHS and ENDS are numbers of 16 bits, in hexadecimal.

  names TABLE HEX            a table's names line
  row TABLE TEXTS LENGTHS HEX
                             values in a row, their lengths, the row
  read FROM LENGTH WIDTH PLACE NEXT ENDS VALUES
                             the row of so many values at a place of the table
                             that is at FROM of the region: the next row's
                             place, where each value ends, the values joined; or
                             - instead of these three, at the table's end

The filter is at the region's start.

  insert SIZE ID 0|1         ID in hexadecimal; whether all bits were set before
  query SIZE ID 0|1
  holds PLACE HEX            the region's bytes at a place
  sum PLACE COUNT CRC        the CRC-32 of so many of them
";

const SEED: u64 = 41;

fn hex(bytes: &[u8]) -> String {
    if bytes.is_empty() {
        return "-".into();
    }
    bytes.iter().map(|b| format!("{b:02x}")).collect()
}

fn sample() -> Result<String, std::fmt::Error> {
    let mut out = String::new();
    writeln!(
        out,
        "# Answers of the Rust, no-std-rs/timetable at commit 41cb4f4903, lifted by text."
    )?;
    writeln!(
        out,
        "# Written by the program sample (rust/sample), seed {SEED}; crc32fast {}.",
        common::crc32fast()
    )?;
    writeln!(out, "# A line is a kind, its inputs and its answer; sample --help has the kinds.")?;
    leaves::write(&mut out, &mut Random::new(SEED))?;
    keys::write(&mut out, &mut Random::new(SEED))?;
    banks::write(&mut out, &mut Random::new(SEED))?;
    rows::write(&mut out, &mut Random::new(SEED))?;
    filter::write(&mut out, &mut Random::new(SEED))?;
    Ok(out)
}

fn main() -> ExitCode {
    let arguments: Vec<String> = std::env::args().skip(1).collect();
    let words: Vec<&str> = arguments.iter().map(String::as_str).collect();
    let text = sample().expect("writing to a string");
    match words[..] {
        ["--help"] | ["-h"] => print!("{HELP}"),
        [] => {
            if let Err(error) = std::io::stdout().write_all(text.as_bytes()) {
                eprintln!("sample: {error}");
                return ExitCode::FAILURE;
            }
        }
        [file] if !file.starts_with('-') => {
            if let Err(error) = fs::write(file, text) {
                eprintln!("sample: {file}: {error}");
                return ExitCode::FAILURE;
            }
        }
        _ => {
            eprintln!("sample: wrong arguments; see sample --help");
            return ExitCode::from(2);
        }
    }
    ExitCode::SUCCESS
}
