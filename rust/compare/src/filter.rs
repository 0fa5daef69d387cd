//! The trip filter: queries and insertions, the whole filter after each.
use crate::{
    rows::text,
    run::{Case, Plan, Tally, hex},
    shrink::{Input, Moves, bytes, each, fewer},
    wrong::{Wrong, tried},
};
use bankcore::rows::{self, FilterAnswer};
use common::Random;
use lifted::cache::door;

const SIZES: [usize; 13] = [0, 1, 2, 3, 7, 8, 100, 16_384, 65_535, 65_536, 65_537, 70_000, 1 << 20];

/// The lifted `bloom`, or document 01's sentences if an id isn't UTF-8.
fn reference(bits: &mut [u8], id: &[u8], insert: bool) -> FilterAnswer {
    if bits.is_empty() || bits.len() > 65_536 {
        return FilterAnswer { refusal: 2, present: 0 };
    }
    let present = match str::from_utf8(id) {
        Ok(text) => door::bloom(bits, text, insert),
        Err(_) => {
            let hash = crc32fast::hash(id);
            let step = hash.rotate_left(13) | 1;
            let sums = [0, 1, 2, 3].map(|i: u32| hash.wrapping_add(step.wrapping_mul(i)));
            let places = sums.map(|sum| u64::from(sum) % (8 * bits.len() as u64));
            let byte = |p: u64| (p / 8) as usize;
            let mut all = true;
            for p in places {
                all &= bits[byte(p)] >> (p % 8) & 1 == 1;
                if insert {
                    bits[byte(p)] |= 1 << (p % 8);
                }
            }
            all
        }
    };
    FilterAnswer { refusal: 0, present: present.into() }
}

fn id(random: &mut Random) -> Vec<u8> {
    let length = match random.below(20) {
        0 => 0,
        1 => random.below(300),
        _ => 1 + random.below(40),
    };
    match random.below(4) {
        0 => random.bytes(length),
        1 => (0..length).map(|_| random.pick("åé\u{2028}z".as_bytes())).collect(),
        _ => (0..length).map(|_| random.pick(b"0123456789:-_NSRtrip")).collect(),
    }
}

struct Pair {
    core: Vec<u8>,
    rust: Vec<u8>,
}

const ANSWERS: [&str; 3] = ["answers absent", "answers present", "refused by 2"];

impl Pair {
    fn ask(&mut self, tally: &mut Tally, id: &[u8]) {
        let size = self.core.len();
        let input = |what: &str| {
            let order = vec![size as u64, id.len() as u64];
            (order, format!("{what} {} in {size} bytes", text(id)))
        };
        for insert in [false, true, false] {
            let rust = reference(&mut self.rust, id, insert);
            let (core, what) = match insert {
                true => (rows::insert(&mut self.core, id), "insert"),
                false => (rows::query(&self.core, id), "query"),
            };
            if tried(Wrong::Filter) && insert && id.ends_with(b"Z") && size > 0 {
                self.core[size - 1] ^= 128;
            }
            tally.count(ANSWERS[if rust.refusal > 0 { 2 } else { rust.present as usize }], 1);
            tally.same(core, rust, || input(what));
            tally.same(self.core == self.rust, true, || input("the filter after it"));
        }
    }
}

/// Bytes of a filter with no bit set, some, or nearly all.
fn bits(random: &mut Random, size: usize, full: usize) -> Vec<u8> {
    (0..size).map(|_| (0..full).fold(0, |bits, _| bits | 1 << random.below(8))).collect()
}

/// A filter, and ids that are asked for, inserted and asked for again.
#[derive(Clone)]
pub struct Filter {
    bits: Vec<u8>,
    ids: Vec<Vec<u8>>,
}

impl Input for Filter {
    fn make(case: &Case) -> Self {
        let mut random = case.random();
        let size = SIZES[case.number as usize % SIZES.len()];
        let full = random.pick(&[0, 0, 0, 1, 8]);
        let bits = bits(&mut random, size, full);
        // small filters are soon full, and those over 65,536 bytes are refused
        let count = 3 + if size > 65_536 { 20 } else { size.min(200) };
        let mut ids: Vec<Vec<u8>> = Vec::new();
        for _ in 0..count {
            let old = random.once_in(5) && !ids.is_empty();
            ids.push(if old { ids[random.below(ids.len())].clone() } else { id(&mut random) });
        }
        Self { bits, ids }
    }
    fn compare(&self, tally: &mut Tally) {
        let mut pair = Pair { rust: self.bits.clone(), core: self.bits.clone() };
        self.ids.iter().for_each(|id| pair.ask(tally, id));
    }
    fn smaller(&self) -> Moves<'_, Self> {
        let ids = fewer(&self.ids).chain(each(&self.ids, |id| bytes(id)));
        let ids = ids.map(|ids| Self { ids, ..self.clone() });
        Box::new(ids.chain(bytes(&self.bits).map(|bits| Self { bits, ..self.clone() })))
    }
    fn show(&self) -> Vec<String> {
        let filter = format!("filter of {} bytes: {}", self.bits.len(), hex(&self.bits));
        let id = |id: &Vec<u8>| format!("query, insert and query {}", text(id));
        std::iter::once(filter).chain(self.ids.iter().map(id)).collect()
    }
}

/// Every id of up to one byte, and of two on small filters.
pub fn filter(plan: &Plan, tally: &mut Tally) {
    let mut random = Random::new(1);
    for size in SIZES {
        for full in [0, 1, 8] {
            let bits = bits(&mut random, size, full);
            let mut pair = Pair { rust: bits.clone(), core: bits };
            pair.ask(tally, &[]);
            for a in 0..=255 {
                pair.ask(tally, &[a]);
            }
            if !plan.quick && (1..=100).contains(&size) {
                for n in 0..=u16::MAX {
                    pair.ask(tally, &n.to_be_bytes());
                }
            }
        }
    }
}
