//! Keys and banks: the core beside the lifted Rust, built with crc32fast's table
//! path and with SIMD.
use crate::line::Line;
use bankcore::banks::Picks;
use common::{
    Random,
    made::{self, BANK, CAPACITY, REGION, SECTOR},
    picks::{LONGEST, SIZES},
};
use std::cell::RefCell;

/// What the calls are asked with, ready in the form that each expects.
struct Case {
    region: Vec<u8>,
    identity: Vec<u8>,
    texts: Vec<u8>,
    lengths: Vec<u32>,
    out: RefCell<Vec<u8>>,
    table: table::Ready,
    simd: simd::Ready,
}

/// One build of the lifted Rust: each call's answer as a number, to compare and to
/// keep.
macro_rules! rust {
    ($name:ident, $lifted:ident) => {
        mod $name {
            use super::Case;
            use $lifted::{
                cache::{
                    BANK_SIZE, Bank, OFFSET,
                    door::{self, BankFields},
                },
                standins::{settings, view::View},
                timetable_display::Config,
            };

            pub struct Ready {
                config: Config,
                bank: Option<Bank>,
            }
            impl Ready {
                pub fn new(region: &[u8], picks: &[[&str; 5]]) -> Self {
                    let bank = door::load(&View::new(region)).unwrap();
                    Self { config: settings::config(picks).unwrap(), bank }
                }
            }
            pub fn load(case: &Case) -> u64 {
                let bank = door::load(&View::new(&case.region)).unwrap();
                bank.map_or(0, |b| u64::from(BankFields::from(b).offset - OFFSET) + 1)
            }
            pub fn validate(case: &Case) -> u64 {
                let bank = door::validate(&View::new(&case.region), OFFSET + BANK_SIZE);
                bank.map_or(0, |b| u64::from(BankFields::from(b).generation) + 1)
            }
            pub fn key(case: &Case) -> u64 {
                let out = &mut case.out.borrow_mut()[..];
                door::key_into(&case.$name.config, &case.identity, out).unwrap().into()
            }
            pub fn same_key(case: &Case) -> u64 {
                let view = View { identity: &case.identity, ..View::new(&case.region) };
                let bank = case.$name.bank.unwrap();
                door::same_key(bank, &view, &case.$name.config).unwrap().into()
            }
            pub fn tested_same_key(case: &Case) -> u64 {
                let view = View { identity: &case.identity, ..View::new(&case.region) };
                let bank = door::validate(&view, OFFSET + BANK_SIZE).unwrap();
                door::same_key(bank, &view, &case.$name.config).unwrap().into()
            }
        }
    };
}
rust!(table, lifted_tables);
rust!(simd, lifted);

mod core {
    use super::*;
    use bankcore::banks;

    pub fn load(case: &Case) -> u64 {
        let bank = banks::load(&case.region);
        u64::from(bank.found) * (u64::from(bank.number) * BANK as u64 + 1)
    }
    pub fn validate(case: &Case) -> u64 {
        let bank = banks::validate(&case.region, 1);
        u64::from(bank.found) * (u64::from(bank.generation) + 1)
    }
    pub fn key(case: &Case) -> u64 {
        let out = &mut case.out.borrow_mut()[..];
        banks::key(&case.identity, case.picks(), out).length as u64
    }
    pub fn same_key(case: &Case) -> u64 {
        banks::same_key(&case.region, 1, &case.identity, case.picks()).same.into()
    }
}

impl Case {
    fn picks(&self) -> Picks<'_> {
        Picks { texts: &self.texts, lengths: &self.lengths }
    }
    /// Two banks with n data bytes each, bank 1 newer; its key is that of the
    /// identity and the picks. `spoilt`: its data have a wrong byte.
    fn new(data: usize, identity: usize, picks: &[[String; 5]], spoilt: bool) -> Self {
        let mut random = Random::new(1);
        let fields: Vec<[&str; 5]> = picks.iter().map(|p| p.each_ref().map(|f| &f[..])).collect();
        let identity = random.bytes(identity);
        let config = lifted::standins::settings::config(&fields).unwrap();
        let key = lifted::cache::door::key(&config, &identity).unwrap();
        let mut region = vec![255; REGION];
        let length = data.max(key.len() + 1);
        for bank in 0..2 {
            let stored = &mut region[bank * BANK + SECTOR..][..length];
            stored.copy_from_slice(&random.bytes(length));
            stored[..key.len()].copy_from_slice(&key);
            let mut made = made::good(&mut random, key.len() as u32, length as u32);
            (made.version, made.generation, made.count) = (3, 7 + bank as u32, 3);
            made.write(&mut region, bank);
        }
        if spoilt {
            region[BANK + SECTOR + length - 1] ^= 1;
        }
        Self {
            identity,
            texts: fields.as_flattened().concat().into_bytes(),
            lengths: fields.as_flattened().iter().map(|f| f.len() as u32).collect(),
            out: RefCell::new(vec![0; 70_000]),
            table: table::Ready::new(&region, &fields),
            simd: simd::Ready::new(&region, &fields),
            region,
        }
    }
}

type Runs = [fn(&Case) -> u64; 3];
const LOAD: Runs = [core::load, table::load, simd::load];
const VALIDATE: Runs = [core::validate, table::validate, simd::validate];
const KEY: Runs = [core::key, table::key, simd::key];
const SAME_KEY: Runs = [core::same_key, table::same_key, simd::same_key];
const TESTED_SAME_KEY: Runs = [core::same_key, table::tested_same_key, simd::tested_same_key];

/// Picks as in a board's settings, in no order.
fn picks(count: usize) -> Vec<[String; 5]> {
    (0..count)
        .map(|i| {
            let place = i * 7 % 16;
            let texts = [
                format!("{place}"),
                format!("NSR:Line:{place:05}"),
                if place % 2 == 0 { format!("4{place:04}") } else { String::new() },
                format!("NSR:StopPlace:{place:05}"),
                format!("Stop number {place}"),
            ];
            assert!(texts.iter().zip(SIZES).all(|(text, size)| text.len() <= size));
            texts
        })
        .collect()
}

/// Both must give the same answer, and it must not be empty.
fn line(name: &str, mark: Option<f64>, runs: Runs, case: Case, rounds: usize) -> Line {
    let line = Line::new(name, "Rust", mark);
    let answers = runs.map(|run| run(&case));
    if answers.iter().any(|a| *a != answers[1] || *a == 0) {
        return line;
    }
    let rounds = if name.contains("full") { rounds / 10 } else { rounds };
    line.timed(runs, &case, rounds, 1)
}

pub fn lines(rounds: usize) -> Vec<Line> {
    let full = |spoilt| Case::new(CAPACITY, 20, &picks(16), spoilt);
    let small = |identity, count| Case::new(0, identity, &picks(count), false);
    let mark = Some(1.0);
    let cases = [
        ("load, two full banks", mark, LOAD, full(false)),
        ("load, two full banks, the newer bad", mark, LOAD, full(true)),
        ("validate, one full bank", mark, VALIDATE, full(false)),
        ("key, 1 pick", None, KEY, small(20, 1)),
        ("key, 16 picks", None, KEY, small(20, 16)),
        ("key, 16 picks, identity of 65,535", None, KEY, small(LONGEST, 16)),
        ("key match, 16 picks", mark, SAME_KEY, small(20, 16)),
        ("key match, 16 picks, identity of 65,535", mark, SAME_KEY, small(LONGEST, 16)),
        ("key match, 1 pick, both test", mark, TESTED_SAME_KEY, small(20, 1)),
        ("key match, 16 picks, both test", mark, TESTED_SAME_KEY, small(20, 16)),
    ];
    cases.map(|(name, mark, runs, case)| line(name, mark, runs, case, rounds)).into()
}
