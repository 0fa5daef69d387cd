//! Rows: the core beside csv-core, writing and reading.
use crate::line::Line;
use bankcore::rows::{self, Values};
use common::Random;
use csv_core::{ReadRecordResult, Reader, WriteResult, Writer};
use std::cell::RefCell;

/// How many rows a call goes through, each once.
const ROWS: usize = 64;
const LONGEST: usize = 8192;

/// A row's texts, lengths and values.
type Ready = (Vec<u8>, Vec<u32>, Vec<Vec<u8>>);

/// Rows of a table, ready in the form that each side expects.
struct Case {
    number: u32,
    width: usize,
    rows: Vec<Ready>,
    /// How many bytes each row has in the table.
    sizes: Vec<usize>,
    table: Vec<u8>,
    out: RefCell<Vec<u8>>,
    ends: RefCell<Vec<usize>>,
    writer: RefCell<Writer>,
    reader: RefCell<Reader>,
}

impl Case {
    /// The same rows, stored with CRLF. Only reading is timed of them.
    fn with_crlf(mut self) -> Self {
        let mut from = 0;
        let mut table = Vec::new();
        for size in &self.sizes {
            table.extend_from_slice(&self.table[from..from + size - 1]);
            table.extend_from_slice(b"\r\n");
            from += size;
        }
        self.table = table;
        self
    }
    fn new(number: u32, row: impl Fn(&mut Random, usize) -> Vec<String>) -> Self {
        let mut random = Random::new(1);
        let values: Vec<Vec<Vec<u8>>> = (0..ROWS)
            .map(|i| row(&mut random, i).into_iter().map(String::into_bytes).collect())
            .collect();
        let mut case = Self {
            number,
            width: rows::column_count(number).count,
            rows: values
                .into_iter()
                .map(|v| (v.concat(), v.iter().map(|v| v.len() as u32).collect(), v))
                .collect(),
            sizes: Vec::new(),
            table: Vec::new(),
            out: RefCell::new(vec![0; ROWS * LONGEST]),
            ends: RefCell::new(vec![0; 16]),
            writer: RefCell::new(Writer::new()),
            reader: RefCell::new(Reader::new()),
        };
        let length = core::write(&case) as usize;
        case.table = case.out.borrow()[..length].to_vec();
        let size = |(texts, lengths, _): &Ready| {
            rows::row(number, Values { texts, lengths }, &mut vec![0; LONGEST]).length
        };
        case.sizes = case.rows.iter().map(size).collect();
        case
    }
}

mod core {
    use super::*;

    /// All rows, one after the other.
    pub fn write(case: &Case) -> u64 {
        let out = &mut case.out.borrow_mut()[..];
        let mut at = 0;
        for (texts, lengths, _) in &case.rows {
            let answer = rows::row(case.number, Values { texts, lengths }, &mut out[at..]);
            at += answer.length;
        }
        at as u64
    }
    /// All rows, each into an output of its size: the exact path.
    pub fn write_exactly(case: &Case) -> u64 {
        let out = &mut case.out.borrow_mut()[..];
        let mut at = 0;
        for ((texts, lengths, _), size) in case.rows.iter().zip(&case.sizes) {
            let answer = rows::row(case.number, Values { texts, lengths }, &mut out[at..at + size]);
            at += answer.length;
        }
        at as u64
    }
    /// All rows, each into the same output; the sum of their values' bytes.
    pub fn read(case: &Case) -> u64 {
        let out = &mut case.out.borrow_mut()[..LONGEST];
        let ends = &mut case.ends.borrow_mut()[..];
        let (mut place, mut sum) = (0, 0);
        loop {
            let answer = rows::read_row(&case.table, case.width, place, out, ends);
            if answer.found == 0 {
                return sum;
            }
            place = answer.next;
            sum += answer.size as u64;
        }
    }
}

mod csv {
    use super::*;

    pub fn write(case: &Case) -> u64 {
        let out = &mut case.out.borrow_mut()[..];
        let writer = &mut case.writer.borrow_mut();
        let mut at = 0;
        for (_, _, values) in &case.rows {
            for (k, value) in values.iter().enumerate() {
                if k > 0 {
                    at += writer.delimiter(&mut out[at..]).1;
                }
                let (result, _, n) = writer.field(value, &mut out[at..]);
                if result != WriteResult::InputEmpty {
                    return 0;
                }
                at += n;
            }
            at += writer.terminator(&mut out[at..]).1;
        }
        at as u64
    }
    pub fn read(case: &Case) -> u64 {
        let out = &mut case.out.borrow_mut()[..LONGEST];
        let ends = &mut case.ends.borrow_mut()[..];
        let reader = &mut case.reader.borrow_mut();
        reader.reset();
        let (mut place, mut sum) = (0, 0);
        loop {
            let (result, read, size, _) = reader.read_record(&case.table[place..], out, ends);
            if result != ReadRecordResult::Record {
                return sum;
            }
            place += read;
            sum += size as u64;
        }
    }
}

/// The values' ends that both read, row by row. csv-core takes the LF of a CRLF with
/// the next row.
fn same_read(case: &Case) -> bool {
    let mut reader = Reader::new();
    let (mut out, mut other) = (vec![0; LONGEST], vec![0; LONGEST]);
    let (mut ends, mut others) = ([0; 16], [0; 16]);
    let (mut place, mut beside) = (0, 0);
    let read = case.rows.iter().all(|(texts, _, _)| {
        let answer = rows::read_row(&case.table, case.width, place, &mut out, &mut ends);
        let (_, read, size, count) =
            reader.read_record(&case.table[beside..], &mut other, &mut others);
        place = answer.next;
        beside += read;
        let lf_left = place - beside;
        lf_left <= 1
            && (size, count) == (answer.size, case.width)
            && out[..size] == other[..size]
            && out[..size] == texts[..]
            && ends[..count] == others[..count]
    });
    read && place == case.table.len()
}

/// The bytes that both write, and what both read.
fn same(case: &Case) -> bool {
    let written = |run: fn(&Case) -> u64| {
        let length = run(case) as usize;
        case.out.borrow()[..length].to_vec()
    };
    let by_csv = written(csv::write);
    same_read(case) && written(core::write) == by_csv && written(core::write_exactly) == by_csv
}

fn texts<const N: usize>(values: [&str; N]) -> Vec<String> {
    values.map(String::from).into()
}

/// A value of n letters, with a special byte at intervals.
fn long(random: &mut Random, length: usize, with: char, every: usize) -> String {
    let letter = |i: usize| {
        let plain = char::from(b'a' + random.below(26) as u8);
        if every > 0 && i % every == every / 2 { with } else { plain }
    };
    (0..length).map(letter).collect()
}

fn route(random: &mut Random, i: usize) -> Vec<String> {
    texts([&format!("R:{:07}", random.below(9_999_999)), &format!("{i}"), "700"])
}

fn stop(random: &mut Random, i: usize) -> Vec<String> {
    let name = match random.below(6) {
        0 => format!("Platz \"{i}\""),
        1 => format!("Stop {i}, east"),
        _ => format!("Main Street {i}"),
    };
    texts([&format!("NSR:{:06}", random.below(999_999)), &format!("4{i:04}"), &name])
}

fn trip(random: &mut Random, i: usize) -> Vec<String> {
    let route = format!("R:{:07}", random.below(9_999_999));
    let trip = format!("T:{:09}", random.below(999_999_999));
    texts([&route, &format!("S{i}"), &trip, "Central Station", "1"])
}

fn stop_time(random: &mut Random, i: usize) -> Vec<String> {
    let trip = format!("T:{:09}", random.below(999_999_999));
    let stop = format!("NSR:{:06}", random.below(999_999));
    let time = format!("{:02}:{:02}:00", random.below(24), random.below(60));
    texts([&trip, &stop, &format!("{i}"), &time, &time, "0", "0", "Central"])
}

fn calendar(random: &mut Random, i: usize) -> Vec<String> {
    let mut values = vec![format!("S{i}")];
    values.extend((0..7).map(|_| random.below(2).to_string()));
    values.extend(texts(["20260101", "20261231"]));
    values
}

fn transfer(random: &mut Random, _: usize) -> Vec<String> {
    let stops = [0; 2].map(|_| format!("NSR:{:06}", random.below(999_999)));
    texts([&stops[0], &stops[1], "2", "180", "", "", "", ""])
}

fn cases() -> Vec<(&'static str, Case)> {
    let long_row = |with, every| {
        move |random: &mut Random, _: usize| {
            [60, 200, 310].map(|n| long(random, n, with, every)).into()
        }
    };
    vec![
        ("Routes", Case::new(0, route)),
        ("Stops, a third quoted", Case::new(1, stop)),
        ("Trips", Case::new(2, trip)),
        ("StopTimes", Case::new(3, stop_time)),
        ("Calendar", Case::new(4, calendar)),
        ("Transfers, mostly empty", Case::new(7, transfer)),
        ("long values, plain", Case::new(1, long_row('x', 0))),
        (CLOSE, Case::new(1, long_row(',', 30))),
        ("long values, few quotes", Case::new(1, long_row('"', 60))),
        ("long values, many quotes", Case::new(1, long_row('"', 8))),
    ]
}

/// The rows that both write nearly as fast as memory allows.
const CLOSE: &str = "long values, commas";

type Run = fn(&Case) -> u64;
const WAYS: [(&str, [Run; 2]); 2] =
    [("written", [core::write, csv::write]), ("read", [core::read, csv::read])];

/// Rows that are also written into outputs of their size, for information.
const EXACT: [&str; 3] = ["Stops, a third quoted", "Trips", "long values, plain"];

/// Rows that are also read with CRLF after them.
const CRLF: [&str; 5] =
    ["Routes", "Stops, a third quoted", "Trips", "StopTimes", "long values, plain"];

pub fn lines(rounds: usize) -> Vec<Line> {
    let cases = cases();
    let all = WAYS.iter().flat_map(|way| cases.iter().map(move |case| (way, case)));
    let line = |((way, runs), (name, case)): (&(&str, [Run; 2]), &(&str, Case))| {
        let mark = if *way == "read" || *name == CLOSE { 1.0 } else { 1.1 };
        let line = Line::new(format!("row {way}: {name}"), "csv-core", Some(mark));
        if same(case) { line.timed(*runs, case, rounds, ROWS) } else { line }
    };
    let exact = |(name, case): &(&str, Case)| {
        let line = Line::new(format!("row written, output of its size: {name}"), "csv-core", None);
        if same(case) {
            line.timed([core::write_exactly, csv::write], case, rounds, ROWS)
        } else {
            line
        }
    };
    let tight = cases.iter().filter(|(name, _)| EXACT.contains(name)).map(exact);
    let crlf = |(name, case): (&str, Case)| {
        let line = Line::new(format!("row read, CRLF: {name}"), "csv-core", Some(1.0));
        if same_read(&case) {
            line.timed([core::read, csv::read], &case, rounds, ROWS)
        } else {
            line
        }
    };
    let stored = self::cases().into_iter().filter(|(name, _)| CRLF.contains(name));
    let stored = stored.map(|(name, case)| (name, case.with_crlf())).map(crlf);
    all.map(line).chain(tight).chain(stored).collect()
}
