//! Refusals that are true at once: for each call every set of causes that can occur
//! together, so every pair; the earliest is the answer, and what was lent stays as
//! it was.
use crate::{
    keys::Selection,
    run::{Plan, Tally},
};
use bankcore::{
    answers::{BankAnswer, BankRowAnswer, FreshAnswer, KeyAnswer, SameKeyAnswer, TurnAnswer},
    banks,
    constants::UNKNOWN_TIME,
};
use common::{
    Random,
    made::{self, CAPACITY, Made, REGION, SECTOR},
    picks::LONGEST,
};

#[derive(Clone, Copy, Debug, PartialEq, Eq)]
enum Cause {
    Region,
    Bank,
    /// A table above 7.
    Table,
    Day,
    Picks,
    Size,
    /// A state whose bank is above 1, or whose position is above the capacity.
    StateBank,
    StateFar,
    Mark,
    Seal,
    Span,
    Source,
    /// A source at or past the count.
    Index,
    /// A state whose position is above the data length alone.
    StateLate,
    Data,
    Identity,
    /// An offset past the table's end.
    Row,
    Small,
}
use Cause::*;

/// A stored row of two values, and the table that it is in.
const STORED: &[u8] = b"a,b\n";
const FEED_INFO: usize = 6;

/// In the order of the tests, so the first of a set is the answer.
const ORDER: [(Cause, u32); 18] = [
    (Region, 1),
    (Bank, 2),
    (Table, 2),
    (Day, 2),
    (Picks, 2),
    (Size, 2),
    (StateBank, 11),
    (StateFar, 11),
    (Mark, 3),
    (Seal, 4),
    (Span, 5),
    (Source, 6),
    (Index, 6),
    (StateLate, 11),
    (Data, 7),
    (Identity, 8),
    (Row, 14),
    (Small, 9),
];

const CALLS: [(&str, &[Cause]); 10] = [
    ("validate", &[Region, Bank, Mark, Seal, Span, Source, Data]),
    ("header", &[Region, Bank, Mark, Seal, Span, Source]),
    ("load", &[Region]),
    ("source", &[Region, Bank, Mark, Seal, Span, Source, Index, Small]),
    ("bank_row", &[Region, Bank, Table, Mark, Seal, Span, Source, Index, Row, Small]),
    ("fresh", &[Region, Bank, Day, Mark, Seal, Span, Source]),
    ("key", &[Picks, Size, Identity, Small]),
    ("same_key", &[Region, Bank, Picks, Size, Mark, Seal, Span, Source, Identity]),
    ("check_start", &[Region, Bank, Mark, Seal, Span, Source]),
    ("check_turn", &[Region, StateBank, StateFar, Mark, Seal, Span, Source, StateLate, Data]),
];

/// Whether two causes can't be true at once: a bank that isn't there has no
/// header, and a state has one position.
fn apart(a: Cause, b: Cause) -> bool {
    let of_bank = [Mark, Seal, Span, Source, Index, Row, StateLate, Data];
    let position = [StateFar, StateLate, Data];
    let one_way = |a: Cause, b: Cause| {
        matches!(a, Bank | StateBank) && of_bank.contains(&b)
            || matches!(a, StateFar | StateLate) && a != b && position.contains(&b)
    };
    one_way(a, b) || one_way(b, a)
}

fn number(set: &[Cause]) -> u32 {
    ORDER.iter().find(|(cause, _)| set.contains(cause)).map_or(0, |(_, number)| *number)
}

/// One set of causes, each in one of three ways.
struct Case<'a> {
    set: &'a [Cause],
    way: usize,
    /// One byte more than a region.
    bytes: Vec<u8>,
    made: Made,
    selection: Selection,
    refusal: u32,
}

fn selection(set: &[Cause], way: usize) -> Selection {
    let pick = ["7", "r", "", "s", "n"].map(String::from);
    let mut picks = vec![pick; if set.contains(&Picks) { 17 + way } else { 2 }];
    if set.contains(&Size) {
        let (k, over) = [(0, 9), (2, 17), (4, 65)][way];
        picks[1][k] = "x".repeat(over);
    }
    let length = if set.contains(&Identity) { LONGEST + 1 + way } else { 3 };
    Selection::of(&vec![b'i'; length], &picks)
}

/// The header of both banks, with what the set has wrong in it.
fn header(random: &mut Random, set: &[Cause], way: usize) -> Made {
    let has = |cause| set.contains(&cause);
    let mut made = made::good(random, 20, 500);
    (made.version, made.count) = (1 + way as u32, 2);
    if has(Mark) {
        match way {
            0 => made.magic[3] ^= 1,
            1 => made.commit = u32::MAX,
            _ => made.version = 4,
        }
    }
    if has(Seal) {
        made.seal = Some(random.u32());
    }
    if has(Span) {
        match way {
            0 => made.count = 4,
            1 => made.checked = -1,
            _ => made.key = 501,
        }
    }
    if has(Source) {
        match way {
            0 => made.records[1].start = 20230229,
            1 => made.records[0].present = 256,
            _ => made.records[1].tables[2] = [u32::MAX, 2, 0],
        }
    }
    if has(Data) {
        made.crc = Some(random.u32());
    }
    made.records[0].tables[FEED_INFO] = [400, STORED.len() as u32, 0];
    made
}

/// A refusal, or -1 if the rest of its answer is wrong.
fn refused(refusal: u32, rest: bool) -> i64 {
    if refusal == 0 || rest { i64::from(refusal) } else { -1 }
}

fn of_bank(answer: BankAnswer) -> i64 {
    let nothing = BankAnswer { refusal: answer.refusal, ..BankAnswer::default() };
    refused(answer.refusal, answer == nothing)
}

impl<'a> Case<'a> {
    fn new(random: &mut Random, set: &'a [Cause], way: usize) -> Self {
        let made = header(random, set, way);
        let mut bytes = vec![255; REGION + 1];
        for bank in 0..2 {
            let key = Selection::of(b"iii", &[]).key().unwrap();
            bytes[bank * made::BANK + SECTOR..][..key.len()].copy_from_slice(&key);
            bytes[bank * made::BANK + SECTOR + 400..][..STORED.len()].copy_from_slice(STORED);
            made.write(&mut bytes, bank);
        }
        Self { set, way, bytes, made, selection: selection(set, way), refusal: number(set) }
    }
    fn has(&self, cause: Cause) -> bool {
        self.set.contains(&cause)
    }
    fn region(&self) -> &[u8] {
        let other = [REGION - 1, REGION + 1, 0][self.way];
        &self.bytes[..if self.has(Region) { other } else { REGION }]
    }
    fn bank(&self) -> u32 {
        let wrong = [2, 255, u32::MAX][self.way];
        if self.has(Bank) || self.has(StateBank) { wrong } else { 1 }
    }
    fn index(&self) -> u32 {
        if self.has(Index) { [4, 10, u32::MAX][self.way] } else { 0 }
    }
    /// The refusal that a call gives; -1 if anything beside it is wrong.
    fn ask(&self, call: &str) -> i64 {
        match call {
            "validate" => of_bank(banks::validate(self.region(), self.bank())),
            "header" => of_bank(banks::header(self.region(), self.bank())),
            "load" => of_bank(banks::load(self.region())),
            "source" => self.source(),
            "bank_row" => self.bank_row(),
            "fresh" => self.fresh(),
            "key" => self.key(),
            "same_key" => self.same_key(),
            "check_start" => self.check_start(),
            _ => self.check_turn(),
        }
    }
    fn source(&self) -> i64 {
        let mut out = vec![77; if self.has(Small) { [383, 0, 1][self.way] } else { 384 }];
        let refusal = banks::source(self.region(), self.bank(), self.index(), &mut out);
        refused(refusal, out.iter().all(|b| *b == 77))
    }
    fn bank_row(&self) -> i64 {
        let (region, bank, index) = (self.region(), self.bank(), self.index());
        let table = FEED_INFO as u32 + if self.has(Table) { 2 } else { 0 };
        let place = if self.has(Row) { STORED.len() + 1 + self.way } else { 0 };
        let (room, slots) = match self.way {
            _ if !self.has(Small) => (2, 2),
            0 => (1, 2),
            1 => (2, 1),
            _ => (0, 0),
        };
        let (mut out, mut ends) = (vec![77; room], vec![77; slots]);
        let answer = banks::bank_row(region, bank, index, table, place, &mut out, &mut ends);
        let refusal = answer.refusal;
        let nothing = BankRowAnswer { refusal, found: 0, next: 0, size: 0 };
        let lent = out.iter().all(|b| *b == 77) && ends.iter().all(|e| *e == 77);
        refused(refusal, answer == nothing && lent)
    }
    fn fresh(&self) -> i64 {
        let mut days = [20260101, 20260102, 20260103];
        if self.has(Day) {
            days[self.way] = [0, 20230229, 99991232][self.way];
        }
        let answer = banks::fresh(self.region(), self.bank(), days, [true, false, false], 5);
        let FreshAnswer { refusal, checked, updated } = answer;
        refused(refusal, (checked, updated) == (UNKNOWN_TIME, UNKNOWN_TIME))
    }
    fn key(&self) -> i64 {
        let mut out = vec![77; if self.has(Small) { self.way } else { 70_000 }];
        let picks = self.selection.picks();
        let KeyAnswer { refusal, length } = banks::key(&self.selection.identity, picks, &mut out);
        refused(refusal, length == 0 && out.iter().all(|b| *b == 77))
    }
    fn same_key(&self) -> i64 {
        let (identity, picks) = (&self.selection.identity, self.selection.picks());
        let SameKeyAnswer { refusal, same } =
            banks::same_key(self.region(), self.bank(), identity, picks);
        refused(refusal, same == 0)
    }
    fn check_start(&self) -> i64 {
        let answer = banks::check_start(self.region(), self.bank());
        let refusal = answer.refusal;
        let closed = TurnAnswer { refusal, verdict: 0, count: 0, bank: 255, position: 0, crc: 0 };
        refused(refusal, answer == closed)
    }
    fn check_turn(&self) -> i64 {
        let bank = self.bank();
        let position = match () {
            () if self.has(StateFar) => [CAPACITY as u32 + 1, 1 << 31, u32::MAX][self.way],
            () if self.has(StateLate) => [501, 502, CAPACITY as u32][self.way],
            () if self.has(Data) => self.made.length,
            () => 0,
        };
        // with no data CRC of 1 the state's is wrong at the end
        let (crc, n) = (1, [0, 1, u32::MAX][self.way]);
        let answer = banks::check_turn(self.region(), bank, position, crc, n);
        let refusal = answer.refusal;
        let same = TurnAnswer { refusal, verdict: 0, count: 0, bank, position, crc };
        refused(refusal, answer == same)
    }
}

pub fn pairs(plan: &Plan, tally: &mut Tally) {
    let mut random = Random::new(plan.seed);
    for (call, causes) in CALLS {
        for bits in 0..1_u32 << causes.len() {
            let set: Vec<Cause> =
                (0..causes.len()).filter(|i| bits >> i & 1 == 1).map(|i| causes[i]).collect();
            if set.iter().any(|a| set.iter().any(|b| apart(*a, *b))) {
                continue;
            }
            if plan.quick && set.len() > 2 {
                continue;
            }
            let pair = set.len() == 2 && number(&set[..1]) != number(&set[1..]);
            tally.count("sets of causes", 1);
            tally.count("pairs", usize::from(pair));
            for way in 0..3 {
                let case = Case::new(&mut random, &set, way);
                tally.same(case.ask(call), case.refusal.into(), || {
                    (vec![set.len() as u64], format!("{call} with {set:?}, way {way}"))
                });
            }
        }
    }
}
