//! The trip filter: the core beside the lifted `bloom`, built with crc32fast's
//! table path and with SIMD.
use crate::line::Line;
use common::Random;
use std::cell::RefCell;

const IDS: usize = 64;
const BYTES: usize = 16_384;
const LENGTHS: [usize; 7] = [1, 8, 16, 24, 31, 32, 40];
const MARK: f64 = 1.0;

struct Case {
    ids: Vec<String>,
    bits: RefCell<Vec<u8>>,
}

impl Case {
    /// Ids of one length, half of them in the filter.
    fn new(length: usize) -> Self {
        let mut random = Random::new(1);
        let letter = |_| char::from(random.pick(b"0123456789abcdefghijklmnopqrstuvwxyz:-"));
        let letters: Vec<char> = (0..IDS * length).map(letter).collect();
        let case = Self {
            ids: letters.chunks(length).map(|id| id.iter().collect()).collect(),
            bits: RefCell::new(vec![0; BYTES]),
        };
        for id in case.ids.iter().step_by(2) {
            bankcore::rows::insert(&mut case.bits.borrow_mut(), id.as_bytes());
        }
        case
    }
    /// A run's answer and the filter after it, which is then restored: an
    /// insertion's first answers differ from all later ones.
    fn tried(&self, run: fn(&Case) -> u64) -> (u64, Vec<u8>) {
        let before = self.bits.borrow().clone();
        let answer = run(self);
        (answer, self.bits.replace(before))
    }
}

mod core {
    use super::*;
    use bankcore::rows;

    pub fn query(case: &Case) -> u64 {
        let bits = &case.bits.borrow()[..];
        case.ids.iter().map(|id| u64::from(rows::query(bits, id.as_bytes()).present)).sum()
    }
    pub fn insert(case: &Case) -> u64 {
        let bits = &mut case.bits.borrow_mut()[..];
        case.ids.iter().map(|id| u64::from(rows::insert(bits, id.as_bytes()).present)).sum()
    }
}

macro_rules! rust {
    ($name:ident, $lifted:ident) => {
        mod $name {
            use super::*;
            use $lifted::cache::door::bloom;

            pub fn query(case: &Case) -> u64 {
                let bits = &mut case.bits.borrow_mut()[..];
                case.ids.iter().map(|id| u64::from(bloom(bits, id, false))).sum()
            }
            pub fn insert(case: &Case) -> u64 {
                let bits = &mut case.bits.borrow_mut()[..];
                case.ids.iter().map(|id| u64::from(bloom(bits, id, true))).sum()
            }
        }
    };
}
rust!(table, lifted_tables);
rust!(simd, lifted);

type Runs = [fn(&Case) -> u64; 3];
const WAYS: [(&str, Runs); 2] = [
    ("query", [core::query, table::query, simd::query]),
    ("insertion", [core::insert, table::insert, simd::insert]),
];

fn line(way: &str, runs: Runs, length: usize, rounds: usize) -> Line {
    let case = Case::new(length);
    let line = Line::new(format!("filter {way}, id of {length}"), "Rust", Some(MARK));
    let tried = runs.map(|run| case.tried(run));
    if tried.iter().any(|t| *t != tried[0]) {
        return line;
    }
    line.timed(runs, &case, rounds, IDS)
}

pub fn lines(rounds: usize) -> Vec<Line> {
    let all = WAYS.iter().flat_map(|(way, runs)| LENGTHS.map(|n| (way, runs, n)));
    all.map(|(way, runs, length)| line(way, *runs, length, rounds)).collect()
}
