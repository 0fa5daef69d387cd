//! The core's answers, for programs in other languages to check.
use bankcore::{
    answers::KeyAnswer,
    banks::Picks,
    rows::{self, FilterAnswer, ReadAnswer, RowAnswer, Values},
};
use std::{
    fs,
    io::{self, BufRead, BufWriter, Write},
    process::ExitCode,
};

const HELP: &str = "\
answers < REQUESTS
answers --dates FILE

Reads requests, one a line, and prints the core's answer to each, one a line:

  date N           0 or 1: whether N is a date's number
  new Y M D        the date's number, 0 where there is none
  newer A B        0 or 1
  next G           the generation after G
  crc START HEX    the CRC-32 of the bytes, continued from START; - for no bytes
  get HEX I        the number at I; bytes past the end read 0
  put HEX I V      the bytes after writing V at I
  time HEX I       the signed time at I
  puttime HEX I V  the bytes after writing the time V at I
  rotate X         X rotated left by 13
  key ID TEXTS LENGTHS
                   the key of an identity and picks, or 'refusal N': identity and
                   the picks' texts in a row in hexadecimal, their lengths with
                   commas between, five to a pick; - for none
  columns T        how many columns table T has
  names T          the names line of table T in hexadecimal, or 'refusal N'
  row T TEXTS LENGTHS
                   the row of some values of table T, or 'refusal N': texts in a
                   row and a length for each
  read HEX WIDTH PLACE
                   the row of so many values at a place of a table: the next
                   place and the values in hexadecimal; 'end', or 'refusal N'
  filter N IDS     inserts each id, in hexadecimal with commas between, into an
                   empty filter of N bytes: what a query before, the insertion
                   and a query behind it answer for each, and the filter; or
                   'refusal N'

--dates FILE writes one bit for each number from 0 to 100020000 (bit N modulo 8
of byte N / 8), set where the number is a date's. Exit status: 0 done, 1 a
request isn't understood or the file can't be written, 2 wrong use.
";

const LONGEST_KEY: usize = 67_795;
const LONGEST_ROW: usize = 8192;
/// The numbers that --dates covers.
const DATES: usize = 100_020_001;

fn bytes(hex: &str) -> Option<Vec<u8>> {
    if hex == "-" {
        return Some(Vec::new());
    }
    if !hex.is_ascii() || !hex.len().is_multiple_of(2) {
        return None;
    }
    (0..hex.len()).step_by(2).map(|i| u8::from_str_radix(&hex[i..i + 2], 16).ok()).collect()
}

fn hex(bytes: &[u8]) -> String {
    if bytes.is_empty() {
        return "-".into();
    }
    bytes.iter().map(|b| format!("{b:02x}")).collect()
}

fn lengths(list: &str) -> Option<Vec<u32>> {
    match list {
        "-" => Some(Vec::new()),
        list => list.split(',').map(|n| n.parse().ok()).collect(),
    }
}

fn key(identity: &str, texts: &str, lengths: &str) -> Option<String> {
    let (texts, lengths) = (bytes(texts)?, self::lengths(lengths)?);
    let mut out = vec![0; LONGEST_KEY];
    let picks = Picks { texts: &texts, lengths: &lengths };
    Some(match bankcore::banks::key(&bytes(identity)?, picks, &mut out) {
        KeyAnswer { refusal: 0, length } => hex(&out[..length]),
        KeyAnswer { refusal, .. } => format!("refusal {refusal}"),
    })
}

fn line(answer: RowAnswer, out: &[u8]) -> String {
    match answer {
        RowAnswer { refusal: 0, length } => hex(&out[..length]),
        RowAnswer { refusal, .. } => format!("refusal {refusal}"),
    }
}

fn row(table: u32, texts: &str, lengths: &str) -> Option<String> {
    let (texts, lengths) = (bytes(texts)?, self::lengths(lengths)?);
    let mut out = [0; LONGEST_ROW];
    let values = Values { texts: &texts, lengths: &lengths };
    Some(line(rows::row(table, values, &mut out), &out))
}

fn read(table: &[u8], width: usize, place: usize) -> String {
    let mut out = [0; LONGEST_ROW];
    let mut ends = vec![0; width.min(LONGEST_ROW)];
    match rows::read_row(table, width, place, &mut out, &mut ends) {
        ReadAnswer { refusal: 0, found: 1, next, .. } => {
            let mut words = vec![next.to_string()];
            let mut from = 0;
            for &to in &ends {
                words.push(hex(&out[from..to]));
                from = to;
            }
            words.join(" ")
        }
        ReadAnswer { refusal: 0, .. } => "end".into(),
        ReadAnswer { refusal, .. } => format!("refusal {refusal}"),
    }
}

fn filter(size: usize, ids: &str) -> Option<String> {
    let mut bits = vec![0; size];
    let mut answers = String::new();
    for id in ids.split(',') {
        let id = bytes(id)?;
        let before = rows::query(&bits, &id);
        let inserted = rows::insert(&mut bits, &id);
        for answer in [before, inserted, rows::query(&bits, &id)] {
            match answer {
                FilterAnswer { refusal: 0, present } => answers += &present.to_string(),
                FilterAnswer { refusal, .. } => return Some(format!("refusal {refusal}")),
            }
        }
    }
    Some(format!("{answers} {}", hex(&bits)))
}

fn answer(request: &str) -> Option<String> {
    let words: Vec<&str> = request.split_ascii_whitespace().collect();
    Some(match words[..] {
        ["date", n] => u8::from(bankcore::valid_date(n.parse().ok()?)).to_string(),
        ["new", y, m, d] => {
            let number = bankcore::date_new(y.parse().ok()?, m.parse().ok()?, d.parse().ok()?);
            number.unwrap_or(0).to_string()
        }
        ["newer", a, b] => u8::from(bankcore::newer(a.parse().ok()?, b.parse().ok()?)).to_string(),
        ["next", g] => bankcore::next(g.parse().ok()?).to_string(),
        ["crc", start, text] => bankcore::crc32(start.parse().ok()?, &bytes(text)?).to_string(),
        ["get", text, i] => bankcore::get(&bytes(text)?, i.parse().ok()?).to_string(),
        ["put", text, i, v] => {
            let mut b = bytes(text)?;
            bankcore::put(&mut b, i.parse().ok()?, v.parse().ok()?);
            hex(&b)
        }
        ["time", text, i] => bankcore::get_time(&bytes(text)?, i.parse().ok()?).to_string(),
        ["puttime", text, i, v] => {
            let mut b = bytes(text)?;
            bankcore::put_time(&mut b, i.parse().ok()?, v.parse().ok()?);
            hex(&b)
        }
        ["key", identity, texts, lengths] => key(identity, texts, lengths)?,
        ["columns", table] => {
            let columns = rows::column_count(table.parse().ok()?);
            match columns.refusal {
                0 => columns.count.to_string(),
                refusal => format!("refusal {refusal}"),
            }
        }
        ["names", table] => {
            let mut out = [0; LONGEST_ROW];
            line(rows::names_line(table.parse().ok()?, &mut out), &out)
        }
        ["row", table, texts, lengths] => row(table.parse().ok()?, texts, lengths)?,
        ["read", table, width, place] => {
            read(&bytes(table)?, width.parse().ok()?, place.parse().ok()?)
        }
        ["filter", size, ids] => filter(size.parse().ok()?, ids)?,
        ["rotate", x] => bankcore::rotate13(x.parse().ok()?).to_string(),
        _ => return None,
    })
}

fn dates() -> Vec<u8> {
    let mut bits = vec![0; DATES.div_ceil(8)];
    for n in 0..DATES {
        bits[n / 8] |= u8::from(bankcore::valid_date(n as u32)) << (n % 8);
    }
    bits
}

fn serve() -> io::Result<bool> {
    let mut out = BufWriter::new(io::stdout().lock());
    for line in io::stdin().lock().lines() {
        let line = line?;
        match answer(&line) {
            Some(text) => writeln!(out, "{text}")?,
            None => {
                out.flush()?;
                eprintln!("answers: not understood: {}", line.chars().take(80).collect::<String>());
                return Ok(false);
            }
        }
    }
    out.flush()?;
    Ok(true)
}

fn main() -> ExitCode {
    let arguments: Vec<String> = std::env::args().skip(1).collect();
    let words: Vec<&str> = arguments.iter().map(String::as_str).collect();
    let done = match words[..] {
        ["--help"] | ["-h"] => {
            print!("{HELP}");
            Ok(true)
        }
        ["--dates", file] => fs::write(file, dates()).map(|()| true),
        [] => serve(),
        _ => {
            eprintln!("answers: wrong arguments; see answers --help");
            return ExitCode::from(2);
        }
    };
    match done {
        Ok(true) => ExitCode::SUCCESS,
        Ok(false) => ExitCode::FAILURE,
        Err(error) => {
            eprintln!("answers: {error}");
            ExitCode::FAILURE
        }
    }
}
