//! A full update, by bytes and by rows: the core's calls beside the lifted
//! `Writer`, built with crc32fast's table path and with SIMD.
use crate::{line::Line, table::grouped};
use bankcore::{
    rows::{self, Values},
    update::{NONE_DUE, State},
};
use common::Random;
use lifted::cache::door::SourceFields;
use std::cell::RefCell;

const REGION: usize = 983_040;
const BANK: usize = 491_520;
const CAPACITY: usize = 487_424;
pub const NOW: i64 = 1_790_000_000;
pub const DATES: [u32; 2] = [20_260_101, 20_261_231];
const PIECES: [usize; 3] = [256, 1500, 4096];
/// About how many bytes the tables' rows have; the last gets what is left.
const SHARES: [(u32, usize); 8] = [
    (0, 9_000),
    (1, 30_000),
    (2, 90_000),
    (4, 4_000),
    (5, 14_000),
    (6, 20),
    (7, 38_000),
    (3, CAPACITY),
];

pub struct Row {
    pub texts: Vec<u8>,
    pub lengths: Vec<u32>,
    values: Vec<String>,
}

pub struct Table {
    number: u32,
    names: Vec<u8>,
    pub rows: Vec<Row>,
    /// The rows as they are stored.
    text: Vec<u8>,
}

pub struct Case {
    key: Vec<u8>,
    pub record: [u8; 384],
    pub tables: Vec<Table>,
    piece: usize,
    pub region: RefCell<Vec<u8>>,
}

fn texts<const N: usize>(values: [&str; N]) -> Vec<String> {
    values.map(String::from).into()
}

/// A row as a feed has it.
fn values(random: &mut Random, table: u32, i: usize) -> Vec<String> {
    let stop = |random: &mut Random| format!("NSR:{:06}", random.below(999_999));
    let route = |random: &mut Random| format!("R:{:07}", random.below(9_999_999));
    match table {
        0 => texts([&route(random), &format!("{i}"), "700"]),
        1 => {
            let name = match random.below(6) {
                0 => format!("Platz \"{i}\""),
                1 => format!("Stop {i}, east"),
                _ => format!("Main Street {i}"),
            };
            texts([&stop(random), &format!("4{i:04}"), &name])
        }
        2 => {
            let trip = format!("T:{:09}", random.below(999_999_999));
            texts([&route(random), &format!("S{i}"), &trip, "Central Station", "1"])
        }
        3 => {
            let trip = format!("T:{:09}", random.below(999_999_999));
            let time = format!("{:02}:{:02}:00", random.below(24), random.below(60));
            let place = format!("{}", i % 40);
            texts([&trip, &stop(random), &place, &time, &time, "0", "0", "Central"])
        }
        4 => {
            let mut values = vec![format!("S{i}")];
            values.extend((0..7).map(|_| random.below(2).to_string()));
            values.extend(texts(["20260101", "20261231"]));
            values
        }
        5 => texts([&format!("S{i}"), "20260501", &format!("{}", 1 + random.below(2))]),
        6 => texts(["20260101", "20261231"]),
        _ => texts([&stop(random), &stop(random), "2", "180", "", "", "", ""]),
    }
}

impl Table {
    /// Rows of n bytes, if there is capacity for them.
    fn new(random: &mut Random, number: u32, share: usize, room: usize) -> Self {
        let mut out = vec![0; 8192];
        let names = rows::names_line(number, &mut out).length;
        let names = out[..names].to_vec();
        let (mut all, mut text) = (Vec::new(), Vec::new());
        while text.len() < share {
            let values = values(random, number, all.len());
            let texts = values.concat().into_bytes();
            let lengths: Vec<u32> = values.iter().map(|v| v.len() as u32).collect();
            let row = Values { texts: &texts, lengths: &lengths };
            let n = rows::row(number, row, &mut out).length;
            if names.len() + text.len() + n > room {
                break;
            }
            text.extend_from_slice(&out[..n]);
            all.push(Row { texts, lengths, values });
        }
        Self { number, names, rows: all, text }
    }
}

impl Case {
    pub fn new() -> Self {
        let mut random = Random::new(1);
        let key = random.bytes(300);
        let mut record = [0; 384];
        fields().encode(&mut record);
        let mut room = CAPACITY - key.len() - 8;
        let mut tables = Vec::new();
        for (number, share) in SHARES {
            let table = Table::new(&mut random, number, share, room);
            room -= table.names.len() + table.text.len();
            tables.push(table);
        }
        Self { key, record, tables, piece: 4096, region: RefCell::new(vec![0; REGION]) }
    }
    /// No bank is good any more, so that every run does the same.
    fn forget(&self) {
        let region = &mut self.region.borrow_mut()[..];
        region[..48].fill(255);
        region[BANK..BANK + 48].fill(255);
    }
}

fn fields() -> SourceFields {
    SourceFields { start: DATES[0], end: DATES[1], ..SourceFields::default() }
}

pub mod core {
    use super::*;

    /// Offers a piece until all of it is appended.
    fn offer(state: &mut State, region: &mut [u8], mut piece: &[u8]) {
        loop {
            let answer = state.append(piece);
            piece = &piece[answer.count as usize..];
            if piece.is_empty() || answer.refusal != 0 {
                return;
            }
            state.due(region);
        }
    }
    /// Begins, and appends the key.
    pub fn begin(case: &Case, region: &mut [u8], comparing: bool) -> State {
        let (mut state, _) = State::new(region, comparing, NOW);
        offer(&mut state, region, &case.key);
        state
    }
    /// Appends everything by bytes, and closes.
    pub fn appended(case: &Case, region: &mut [u8], comparing: bool) -> State {
        let mut state = begin(case, region, comparing);
        state.source(&case.record);
        DATES.iter().for_each(|d| offer(&mut state, region, &d.to_le_bytes()));
        for table in &case.tables {
            state.table(table.number);
            offer(&mut state, region, &table.names);
            table.text.chunks(case.piece).for_each(|p| offer(&mut state, region, p));
            state.end();
        }
        state.close();
        while state.due(region).answer != NONE_DUE {}
        state
    }
    fn commit(state: &mut State, region: &mut [u8]) -> u32 {
        let header = state.commit(region, None, true).refusal;
        header + state.commit_word(region).refusal
    }
    pub fn by_bytes(case: &Case) -> u32 {
        case.forget();
        let region = &mut case.region.borrow_mut()[..];
        commit(&mut appended(case, region, false), region)
    }
    pub fn by_rows(case: &Case) -> u32 {
        case.forget();
        let region = &mut case.region.borrow_mut()[..];
        let mut state = begin(case, region, false);
        state.upper_source(region, &case.record);
        for table in &case.tables {
            state.upper_table(region, table.number);
            for row in &table.rows {
                let values = Values { texts: &row.texts, lengths: &row.lengths };
                state.upper_row(region, values);
            }
            state.upper_end(region);
        }
        state.upper_close(region);
        commit(&mut state, region)
    }
}

macro_rules! rust {
    ($name:ident, $lifted:ident) => {
        mod $name {
            use super::*;
            use $lifted::{
                cache::{
                    Metadata, OFFSET, Storage,
                    door::{self, SourceFields, Update},
                },
                gtfs::{Error, Table, csv::values::Values},
            };

            /// The region in memory: an erase sets bytes to 255, a write clears bits.
            struct Flash<'a>(RefCell<&'a mut [u8]>);

            impl Storage for Flash<'_> {
                fn read(&self, offset: u32, out: &mut [u8]) -> Result<(), Error> {
                    let at = (offset - OFFSET) as usize;
                    out.copy_from_slice(&self.0.borrow()[at..at + out.len()]);
                    Ok(())
                }
                fn write(&self, offset: u32, bytes: &[u8]) -> Result<(), Error> {
                    let at = (offset - OFFSET) as usize;
                    let room = &mut self.0.borrow_mut()[at..at + bytes.len()];
                    room.iter_mut().zip(bytes).for_each(|(old, new)| *old &= new);
                    Ok(())
                }
                fn erase(&self, start: u32, end: u32) -> Result<(), Error> {
                    let span = (start - OFFSET) as usize..(end - OFFSET) as usize;
                    self.0.borrow_mut()[span].fill(255);
                    Ok(())
                }
                async fn current(&self) -> bool {
                    true
                }
                fn checked_at(&self) -> Option<i64> {
                    None
                }
            }

            fn fields() -> SourceFields {
                SourceFields { start: DATES[0], end: DATES[1], ..SourceFields::default() }
            }
            fn written(
                case: &Case,
                fill: impl Fn(&mut Update<'_, Flash>) -> Result<(), Error>,
            ) -> u32 {
                case.forget();
                let region = &mut case.region.borrow_mut()[..];
                let flash = Flash(RefCell::new(region));
                let active = door::load(&flash).expect("the Rust loads");
                let mut metadata = Metadata::default();
                let mut update = Update::new(&flash, active, false, NOW, &mut metadata);
                let filled = update.append(&case.key).and_then(|_| {
                    update.source(fields())?;
                    fill(&mut update)
                });
                update.end_source();
                u32::from(filled.is_err() || update.commit().is_err())
            }
            pub fn by_bytes(case: &Case) -> u32 {
                written(case, |update| {
                    for table in &case.tables {
                        let t = Table::ALL[table.number as usize];
                        update.start(t)?;
                        for piece in table.text.chunks(case.piece) {
                            update.append(piece)?;
                        }
                        update.end(t);
                    }
                    Ok(())
                })
            }
            thread_local! {
                /// The rows as the Rust expects them, made once.
                static ROWS: RefCell<Vec<Vec<Values>>> = const { RefCell::new(Vec::new()) };
            }
            fn made(table: &super::Table) -> Vec<Values> {
                let t = Table::ALL[table.number as usize];
                let columns = door::columns(t);
                let pairs = |row: &Row| -> Vec<_> {
                    columns.iter().copied().zip(row.values.clone()).collect()
                };
                let made =
                    |row: &Row| Values::new(t, pairs(row).iter().map(|(c, v)| (*c, v.as_str())));
                table.rows.iter().map(made).collect()
            }
            pub fn by_rows(case: &Case) -> u32 {
                ROWS.with_borrow_mut(|rows| {
                    if rows.is_empty() {
                        *rows = case.tables.iter().map(made).collect();
                    }
                });
                ROWS.with_borrow(|rows| {
                    written(case, |update| {
                        for (table, rows) in case.tables.iter().zip(rows) {
                            let t = Table::ALL[table.number as usize];
                            update.start(t)?;
                            for row in rows {
                                update.row(row.record())?;
                            }
                            update.end(t);
                        }
                        Ok(())
                    })
                })
            }
        }
    };
}
rust!(table, lifted_tables);
rust!(simd, lifted);

type Runs = [fn(&Case) -> u32; 3];
const BY_BYTES: Runs = [core::by_bytes, table::by_bytes, simd::by_bytes];
const BY_ROWS: Runs = [core::by_rows, table::by_rows, simd::by_rows];

/// Whether all are committed and the regions are the same after them.
fn same(case: &Case, runs: Runs) -> bool {
    let mut first: Option<Vec<u8>> = None;
    runs.iter().all(|run| {
        case.region.borrow_mut().fill(170);
        let done = run(case) == 0;
        let region = case.region.borrow().clone();
        done && *first.get_or_insert_with(|| region.clone()) == region
    })
}

pub fn lines(rounds: usize) -> Vec<Line> {
    let mut case = Case::new();
    let bytes =
        PIECES.map(|n| (format!("full update by bytes, {} at a time", grouped(n)), n, BY_BYTES));
    let mut line = |(name, piece, runs)| {
        case.piece = piece;
        let line = Line::new(name, "Rust", Some(0.5));
        if same(&case, runs) { line.timed(runs, &case, rounds, 1) } else { line }
    };
    bytes
        .into_iter()
        .chain([("full update by rows".into(), 4096, BY_ROWS)])
        .map(&mut line)
        .collect()
}
