//! Banks: validate, load, sources, stored rows, freshness, key match, checking in
//! turns.
use crate::{
    keys::{self, Selection},
    run::{Case, Plan, Tally, hex},
    shrink::{Input, Moves, Question, each, fewer},
    stores::{First, Store, blank, written_to},
    wrong::{Wrong, tried},
};
use bankcore::{
    answers::{BankAnswer, FreshAnswer, SameKeyAnswer, TurnAnswer},
    banks, rows,
};
use common::{
    Random,
    made::{self, BANK, CAPACITY, DAYS, NO_DAYS, REGION, SECTOR, UNKNOWN},
    picks::{LONGEST, picks},
};
use lifted::{
    cache::{
        Bank, OFFSET,
        door::{self, BankFields, SourceFields, get},
    },
    gtfs::{Date, Error},
    numbered::{self, Refusal},
    standins::view::View,
    timetable_display::feed::Builder,
};
use std::{
    fs,
    path::{Path, PathBuf},
    sync::OnceLock,
};

/// What is in a region, by the lifted Rust.
struct Expected<'a> {
    region: &'a [u8],
    /// The header's outcome: a bank, or the refusal from 3 to 6.
    header: [Result<Bank, u32>; 2],
    /// Whether the data's CRC is right too.
    whole: [bool; 2],
}

fn answer(region: &[u8], bank: Bank) -> BankAnswer {
    let b = BankFields::from(bank);
    let at = (b.offset - OFFSET) as usize;
    BankAnswer {
        refusal: 0,
        found: 1,
        number: (at / BANK) as u32,
        version: b.version,
        generation: b.generation,
        length: b.length,
        crc: get(region, at + 16),
        count: b.count,
        key: b.key_length,
        checked: b.checked,
    }
}

fn refused(refusal: u32) -> BankAnswer {
    BankAnswer { refusal, ..BankAnswer::default() }
}

/// The lifted `validate`; and if only the data's CRC is wrong, what it says with
/// the right CRC in the header, which is sealed again.
fn header(region: &[u8], bank: usize) -> (Result<Bank, u32>, bool) {
    match numbered::validate(&View::new(region), bank as u32) {
        Ok(found) => (Ok(found), true),
        Err(Refusal::Number(7)) => {
            let at = bank * BANK;
            let length = get(region, at + 12) as usize;
            let crc = crc32fast::hash(&region[at + SECTOR..][..length]);
            let (size, _) = made::layout(get(region, at + 4));
            let mut header = region[at..][..48 + 3 * size].to_vec();
            header[16..20].copy_from_slice(&crc.to_le_bytes());
            header[40..48].fill(0);
            let instead = [(at + 16, crc), (at + 40, crc32fast::hash(&header))];
            let view = View { instead: &instead, ..View::new(region) };
            match numbered::validate(&view, bank as u32) {
                Ok(found) => (Ok(found), false),
                Err(error) => panic!("the Rust refuses a repaired bank: {error:?}"),
            }
        }
        Err(Refusal::Number(number)) => (Err(number), false),
        Err(Refusal::Other(error)) => panic!("the Rust's validate says {error:?}"),
    }
}

impl<'a> Expected<'a> {
    fn of(region: &'a [u8]) -> Self {
        let [(a, first), (b, second)] = [header(region, 0), header(region, 1)];
        Self { region, header: [a, b], whole: [first, second] }
    }
    fn describe(&self, round: usize, bank: usize, what: String) -> (Vec<u64>, String) {
        let at = bank * BANK;
        let header = &self.region[at..at + 48];
        let hex: String = header.iter().map(|b| format!("{b:02x}")).collect();
        let length = get(header, 12).into();
        (vec![length, round as u64], format!("region {round}, bank {bank}, {what}, header {hex}"))
    }
    fn header(&self, bank: usize) -> BankAnswer {
        match self.header[bank] {
            Ok(found) => answer(self.region, found),
            Err(number) => refused(number),
        }
    }
    fn validate(&self, bank: usize) -> BankAnswer {
        match self.header[bank] {
            Ok(_) if !self.whole[bank] => refused(7),
            _ => self.header(bank),
        }
    }
    /// A stored table's bytes, or the refusal.
    fn table(&self, bank: usize, source: u32, table: u32) -> Result<&'a [u8], u32> {
        if table > 7 {
            return Err(2);
        }
        let found = self.header[bank]?;
        if source >= BankFields::from(found).count {
            return Err(6);
        }
        let record = written(self.region, found, source);
        let at = 84 + table as usize * 12;
        let (offset, length) = (get(&record, at), get(&record, at + 4));
        let data = &self.region[bank * BANK + SECTOR..][..CAPACITY];
        let from = if length == 0 { 0 } else { offset as usize };
        Ok(&data[from..][..length as usize])
    }
    fn load(&self) -> BankAnswer {
        match door::load(&View::new(self.region)) {
            Ok(Some(found)) => answer(self.region, found),
            Ok(None) => refused(0),
            Err(error) => panic!("the Rust's load says {error:?}"),
        }
    }
    fn fresh(&self, bank: usize, days: [u32; 3], wanted: [bool; 3], now: i64) -> FreshAnswer {
        let refused = |refusal| FreshAnswer { refusal, checked: UNKNOWN, updated: UNKNOWN };
        let date = |d: u32| {
            let date = Date::new((d / 10000) as u16, (d / 100 % 100) as u8, (d % 100) as u8);
            date.ok().filter(|_| door::valid_date(d))
        };
        let [Some(a), Some(b), Some(c)] = days.map(date) else {
            return refused(2);
        };
        let found = match self.header[bank] {
            Ok(found) => found,
            Err(number) => return refused(number),
        };
        let wanted = (0..3).map(|i| u8::from(wanted[i]) << i).sum();
        let builder = Builder { dates: [a, b, c], wanted };
        let fresh = door::fresh(found, &View::new(self.region), &builder, now).unwrap();
        FreshAnswer {
            refusal: 0,
            checked: fresh.checked_at.unwrap_or(UNKNOWN),
            updated: fresh.source_updated_at.unwrap_or(UNKNOWN),
        }
    }
    fn same_key(&self, bank: usize, selection: &Selection) -> SameKeyAnswer {
        let refused = |refusal| SameKeyAnswer { refusal, same: 0 };
        let config = match selection.config() {
            Ok(config) => config,
            Err(number) => return refused(number),
        };
        let found = match self.header[bank] {
            Ok(found) => found,
            Err(number) => return refused(number),
        };
        let view = View { identity: &selection.identity, ..View::new(self.region) };
        match door::same_key(found, &view, &config) {
            Ok(same) => SameKeyAnswer { refusal: 0, same: same.into() },
            Err(Error::BufferTooSmall) => refused(8),
            Err(error) => panic!("the Rust's same_key says {error:?}"),
        }
    }
    /// A turn, from the header's numbers and crc32fast.
    fn turn(&self, bank: u32, position: u32, crc: u32, n: u32) -> TurnAnswer {
        let same = TurnAnswer { refusal: 0, verdict: 0, count: 0, bank, position, crc };
        let refused = |refusal| TurnAnswer { refusal, ..same };
        if bank > 1 || position > CAPACITY as u32 {
            return refused(11);
        }
        let header = self.header(bank as usize);
        if header.refusal != 0 {
            return refused(header.refusal);
        }
        let Some(left) = header.length.checked_sub(position) else {
            return refused(11);
        };
        if left == 0 {
            return match crc == header.crc {
                true => TurnAnswer { verdict: 1, ..same },
                false => refused(7),
            };
        }
        let count = n.min(left);
        let data = &self.region[bank as usize * BANK + SECTOR + position as usize..];
        let mut hash = crc32fast::Hasher::new_with_initial(crc);
        hash.update(&data[..count as usize]);
        TurnAnswer { count, position: position + count, crc: hash.finalize(), ..same }
    }
}

fn ask_headers(tally: &mut Tally, expected: &Expected, round: usize) {
    for bank in 0..2 {
        let input = |what: &str| expected.describe(round, bank, what.into());
        let mut core = banks::validate(expected.region, bank as u32);
        if tried(Wrong::Count) && core.count == 3 {
            core.count = 2;
        }
        tally.same(core, expected.validate(bank), || input("validate"));
        let core = banks::header(expected.region, bank as u32);
        tally.same(core, expected.header(bank), || input("header"));
    }
    let core = banks::load(expected.region);
    tally.same(core, expected.load(), || expected.describe(round, 0, "load".into()));
}

/// A record in version 3's form: numbers as the lifted `Source` has them, stamp,
/// id and validator as the image has them.
fn written(region: &[u8], found: Bank, i: u32) -> Vec<u8> {
    let b = BankFields::from(found);
    let source = door::source(found, &View::new(region), i as usize).unwrap();
    let mut out = vec![0; 384];
    SourceFields { snapshot: None, ..source }.encode(&mut out);
    let (size, tables) = made::layout(b.version);
    let stored = &region[(b.offset - OFFSET) as usize + 48 + i as usize * size..][..size];
    out[180..].fill(0);
    if b.version > 1 {
        out[180..339].copy_from_slice(&stored[20 + tables * 20..][..159]);
    }
    out
}

/// If the Rust finds stamp and id sensible: its own against those given.
fn sensible(tally: &mut Tally, region: &[u8], found: Bank, i: u32, out: &[u8]) -> bool {
    let source = door::source(found, &View::new(region), i as usize).unwrap();
    let Some(snapshot) = source.snapshot else {
        return false;
    };
    let id = snapshot.feed_id().as_bytes();
    let core = (&out[180..192], out[192] as usize, &out[193..193 + id.len()], &out[273..339]);
    let rust = (snapshot.timestamp().as_bytes(), id.len(), id, &source.validator.0[..]);
    tally.same(core, rust, || {
        (vec![u64::from(i)], format!("stamp, id and validator of source {i}"))
    });
    true
}

fn ask_sources(tally: &mut Tally, expected: &Expected, round: usize, random: &mut Random) {
    for bank in 0..2 {
        let count = expected.header[bank].map_or(0, |b| BankFields::from(b).count);
        let far = count + 2 + random.u32() % 1000;
        let far = random.pick(&[u32::MAX, far]);
        for index in (0..=count + 1).chain([far]) {
            let short = random.once_in(8);
            let room = random.pick(if short { &[383, 0, 1] } else { &[384, 385, 400] });
            let before: Vec<u8> =
                (0..room).map(|i| (i as u8).wrapping_mul(7) ^ round as u8).collect();
            let mut out = before.clone();
            let core = banks::source(expected.region, bank as u32, index, &mut out);
            let mut after = before;
            let rust = match expected.header[bank] {
                Err(number) => number,
                Ok(found) if index >= count => {
                    let rust = door::source(found, &View::new(expected.region), index as usize);
                    assert_eq!(rust, Err(Error::InvalidZip));
                    6
                }
                Ok(_) if room < 384 => 9,
                Ok(found) => {
                    after[..384].copy_from_slice(&written(expected.region, found, index));
                    sensible(tally, expected.region, found, index, &out);
                    0
                }
            };
            let what = || format!("source {index} into {room} bytes");
            tally.same(core, rust, || expected.describe(round, bank, what()));
            tally.same(&out, &after, || expected.describe(round, bank, what()));
        }
    }
}

const STORED: [&str; 3] = ["stored rows read", "ends of a table", "stored rows refused"];

/// A stored row that is asked for, and the outputs for its values and their ends.
struct Row {
    bank: usize,
    source: u32,
    table: u32,
    place: usize,
    out: Vec<u8>,
    ends: Vec<usize>,
}

/// Stored rows: the bytes of the block that the lifted `Source` has, read as a
/// table by the core's own reader, which the part stored-rows tests.
fn ask_rows(tally: &mut Tally, expected: &Expected, round: usize, random: &mut Random) {
    for bank in 0..2 {
        let count = expected.header[bank].map_or(0, |b| BankFields::from(b).count);
        for _ in 0..6 {
            let source = random.below(count as usize + 2) as u32;
            let table = random.pick(&[0, 1, 4, 6, 6, 6, 7, 8, u32::MAX]);
            let (room, slots) = (random.pick(&[0, 1, 3, 60, 8192]), random.pick(&[0, 1, 2, 8, 12]));
            let place = if random.once_in(9) { random.pick(&[1, 40, usize::MAX]) } else { 0 };
            let (out, ends) = (vec![round as u8; room], vec![round; slots]);
            let first = Row { bank, source, table, place, out, ends };
            ask_rows_from(tally, expected, round, first);
        }
    }
}

/// A row and those after it, to the table's end or a refusal.
fn ask_rows_from(tally: &mut Tally, expected: &Expected, round: usize, first: Row) {
    let Row { bank, source, table, mut place, mut out, mut ends } = first;
    let (mut after, mut places) = (out.clone(), ends.clone());
    let (room, slots) = (out.len(), ends.len());
    let number = bank as u32;
    let stored = expected.table(bank, source, table);
    loop {
        let core =
            banks::bank_row(expected.region, number, source, table, place, &mut out, &mut ends);
        let core = (core.refusal, core.found, core.next, core.size);
        let rust = match stored {
            Err(refusal) => (refusal, 0, 0, 0),
            Ok(bytes) => {
                let width = rows::column_count(table).count;
                let a = rows::read_row(bytes, width, place, &mut after, &mut places);
                (a.refusal, a.found, a.next, a.size)
            }
        };
        let input = || {
            let row = (number, source, table, place);
            let what = format!("row {row:?} into {room} bytes and {slots} ends");
            expected.describe(round, bank, what)
        };
        tally.same(core, rust, input);
        tally.same((&out, &ends), (&after, &places), input);
        tally.count(STORED[if core.0 != 0 { 2 } else { 1 - core.1 as usize }], 1);
        if core.1 == 0 {
            return;
        }
        place = core.2;
    }
}

fn ask_fresh(tally: &mut Tally, expected: &Expected, round: usize, random: &mut Random) {
    let bank = random.below(2);
    let mut dates = DAYS.to_vec();
    let mut times = vec![-1, 0, i64::MIN, i64::MAX, random.u64() as i64];
    if let Ok(found) = expected.header[bank] {
        let b = BankFields::from(found);
        times.extend([b.checked, b.checked.wrapping_add(1), b.checked.wrapping_sub(1)]);
        for i in 0..b.count as usize {
            let source = door::source(found, &View::new(expected.region), i).unwrap();
            for date in [source.start, source.end] {
                dates.extend([date, date, date - 1, date + 1]);
            }
            times.extend([source.updated, source.updated.wrapping_sub(1)]);
        }
    }
    for masks in [0..8, 7..8] {
        let mut days = [0; 3].map(|_| random.pick(&dates));
        if random.once_in(30) {
            days[random.below(3)] = random.pick(&NO_DAYS);
        }
        let now = random.pick(&times);
        for mask in masks {
            let wanted = [mask & 1 != 0, mask & 2 != 0, mask & 4 != 0];
            let core = banks::fresh(expected.region, bank as u32, days, wanted, now);
            tally.same(core, expected.fresh(bank, days, wanted, now), || {
                expected.describe(round, bank, format!("fresh {days:?} {wanted:?} now {now}"))
            });
        }
    }
}

/// A selection close to another: the same, with one pick more or less, or with
/// something else changed.
fn near(random: &mut Random, selection: &Selection) -> Selection {
    let mut other = selection.clone();
    match random.below(9) {
        0 => {
            other.identity.pop();
        }
        1 => other.identity.push(random.u32() as u8),
        2 if !other.identity.is_empty() => {
            let at = random.below(other.identity.len());
            other.identity[at] ^= 1 << random.below(8);
        }
        3 => {
            let fewer = other.lengths.len().saturating_sub(5);
            other.lengths.truncate(fewer);
        }
        4 => {
            other.texts.push(b'z');
            let used: usize = other.lengths.iter().map(|n| *n as usize).sum();
            other.texts.truncate(used + 1);
            other.lengths.extend([1, 0, 0, 0, 0]);
        }
        5 if random.once_in(20) => other.identity = vec![7; LONGEST + 1],
        6 => {
            let at = random.below(other.texts.len().max(1));
            if let Some(letter) = other.texts.get_mut(at).filter(|b| b.is_ascii()) {
                *letter ^= 1;
            }
        }
        _ => {}
    }
    other
}

fn ask_keys(
    tally: &mut Tally,
    expected: &Expected,
    round: usize,
    random: &mut Random,
    selections: &[Selection; 2],
) {
    for bank in 0..2 {
        let other = &selections[random.below(2)];
        for selection in [selections[bank].clone(), near(random, other)] {
            let (identity, picks) = (&selection.identity, selection.picks());
            let core = banks::same_key(expected.region, bank as u32, identity, picks);
            tally.same(core, expected.same_key(bank, &selection), || {
                let (_, text) = selection.describe();
                expected.describe(round, bank, format!("same_key of {text}"))
            });
        }
    }
}

/// A bank's checking: its start, its turns, and turns from other states.
fn ask_turns(tally: &mut Tally, expected: &Expected, round: usize, random: &mut Random) {
    let bank = random.below(2);
    let header = expected.header(bank);
    let started = banks::check_start(expected.region, bank as u32);
    let zero =
        TurnAnswer { refusal: 0, verdict: 0, count: 0, bank: bank as u32, position: 0, crc: 0 };
    let rust = match header.refusal {
        0 => zero,
        refusal => TurnAnswer { refusal, bank: 255, ..zero },
    };
    tally.same(started, rust, || expected.describe(round, bank, "check_start".into()));
    if header.refusal == 0 {
        ask_turns_from(tally, expected, round, random, zero);
    }
    ask_states(tally, expected, round, random, bank);
}

/// Turns from the start to the verdict, which is that of validate.
fn ask_turns_from(
    tally: &mut Tally,
    expected: &Expected,
    round: usize,
    random: &mut Random,
    start: TurnAnswer,
) {
    let bank = start.bank as usize;
    let length = expected.header(bank).length;
    let mut state = start;
    let mut sum = 0_u64;
    let last = loop {
        let n = turn_size(random, length, length - state.position);
        let core = banks::check_turn(expected.region, state.bank, state.position, state.crc, n);
        let rust = expected.turn(state.bank, state.position, state.crc, n);
        tally.same(core, rust, || {
            let (place, crc) = (state.position, state.crc);
            expected.describe(round, bank, format!("turn of {n} at {place} with crc {crc:08x}"))
        });
        sum += u64::from(core.count);
        if core != rust || core.refusal != 0 || core.verdict != 0 {
            break core;
        }
        state = core;
    };
    let input = |what: &str| expected.describe(round, bank, what.into());
    tally.same(sum, length.into(), || input("sum of the turns"));
    let whole = expected.validate(bank).refusal;
    tally.same(last.refusal, whole, || input("the turns' verdict"));
    tally.same(last.verdict == 1, whole == 0, || input("the turns' yes"));
}

/// How many bytes a turn gets, of data of a length with n left.
fn turn_size(random: &mut Random, length: u32, left: u32) -> u32 {
    match random.below(12) {
        0 => 0,
        1 => 1,
        2 => 255,
        3 => 256,
        4 => u32::MAX,
        5 => left,
        6 => left.saturating_sub(1),
        _ => random.below(length as usize / 4 + 2) as u32,
    }
}

/// Turns from states that no turn gave.
fn ask_states(
    tally: &mut Tally,
    expected: &Expected,
    round: usize,
    random: &mut Random,
    bank: usize,
) {
    let BankAnswer { length, crc, .. } = expected.header(bank);
    let near = [0, length, length + 1, length.wrapping_sub(1), CAPACITY as u32];
    for _ in 0..3 {
        let state = (
            if random.once_in(4) {
                random.pick(&[2, 7, 255, u32::MAX])
            } else {
                random.below(2) as u32
            },
            if random.once_in(5) {
                random.pick(&[CAPACITY as u32 + 1, u32::MAX])
            } else {
                random.pick(&near)
            },
            [0, crc, random.u32()][random.below(3)],
        );
        let n = random.pick(&[0, 1, 100, u32::MAX]);
        let core = banks::check_turn(expected.region, state.0, state.1, state.2, n);
        tally.same(core, expected.turn(state.0, state.1, state.2, n), || {
            expected.describe(round, bank, format!("turn of {n} from the state {state:?}"))
        });
    }
}

/// The content of one bank.
fn store(random: &mut Random, pool: &[u8], bank: usize, other: u32) -> Store {
    let first = match random.below(60) {
        0 => First::Blank,
        1 => First::Bytes(random.bytes(1200)),
        _ => First::Kept,
    };
    if first == First::Blank && random.once_in(2) {
        return Store { bank, first, ..Store::default() };
    }
    let count = if random.once_in(10) { 16 } else { random.below(4) };
    let identity = match random.below(400) {
        0 => keys::identity(random),
        1..100 => Vec::new(),
        _ => vec![b'I'; random.below(90)],
    };
    let selection = Selection::of(&identity, &picks(random, count, false));
    let key = selection.key().unwrap_or(vec![0]);
    let data = match random.below(700) {
        0 => CAPACITY,
        1 => CAPACITY - random.below(300),
        2 => random.below(CAPACITY),
        3..90 => random.below(3),
        _ => random.below(600),
    };
    let length = (key.len() + data).min(CAPACITY);
    let from = random.below(CAPACITY - length + 1);
    let mut data = pool[from..from + length].to_vec();
    data[..key.len()].copy_from_slice(&key);
    let made = header_for(random, (key.len(), length), other);
    let flip = random.once_in(8).then(|| random.u64());
    Store { bank, first, data, made: Some(made), flip, selection }
}

/// A header for a key and data of these lengths, many with something wrong.
fn header_for(random: &mut Random, (key, length): (usize, usize), other: u32) -> made::Made {
    let key_length = match random.below(12) {
        0 => 1 + random.below(length),
        1 => (key + 1).min(length),
        2 => (key - 1).max(1),
        3 => length,
        _ => key,
    };
    let mut made = made::good(random, key_length as u32, length as u32);
    made.generation = match random.below(9) {
        0 => other,
        1 => other.wrapping_add(1),
        2 => other.wrapping_sub(1),
        3 => other.wrapping_add(1 << 31),
        4 => other.wrapping_add((1 << 31) + 1),
        5 => other.wrapping_add((1 << 31) - 1),
        6 => 0,
        7 => u32::MAX,
        _ => made.generation,
    };
    for _ in 0..random.pick(&[0, 0, 0, 0, 1, 1, 1, 1, 1, 2]) {
        made.damage(random);
    }
    made
}

/// What data are made from: every other stretch has bytes that make rows.
fn pool() -> &'static [u8] {
    static POOL: OnceLock<Vec<u8>> = OnceLock::new();
    POOL.get_or_init(|| {
        let bytes = Random::new(1).bytes(CAPACITY).into_iter().enumerate();
        let rows = |b: u8| b"a,b\n1,\"\"\n,"[b as usize % 10];
        bytes.map(|(i, b)| if i / 900 % 2 == 0 { b } else { rows(b) }).collect()
    })
}

/// Banks are filled, then all questions are asked about the region.
#[derive(Clone)]
pub struct Round {
    stores: Vec<Store>,
    /// The seed of the questions.
    questions: u64,
}

impl Round {
    fn smaller(&self) -> Moves<'_, Self> {
        let stores = fewer(&self.stores).chain(each(&self.stores, Store::smaller));
        Box::new(stores.map(|stores| Self { stores, ..self.clone() }))
    }
    fn show(&self, number: usize) -> Vec<String> {
        let mut lines: Vec<String> = self.stores.iter().flat_map(Store::show).collect();
        lines.push(format!("then region {number} is asked, the questions from {}", self.questions));
        lines
    }
}

fn show_all(rounds: &[Round]) -> Vec<String> {
    let first = std::iter::once("a blank region".to_string());
    first.chain(rounds.iter().enumerate().flat_map(|(i, round)| round.show(i))).collect()
}

/// Regions one after another, each made from the one before.
#[derive(Clone)]
pub struct Regions(Vec<Round>);

const VALID: [&str; 8] =
    ["good banks", "", "", "banks by 3", "banks by 4", "banks by 5", "banks by 6", "banks by 7"];

impl Input for Regions {
    fn make(case: &Case) -> Self {
        let (mut random, pool) = (case.random(), pool());
        let mut generations = [u32::MAX; 2];
        let round = |number: usize| {
            let mut stores = Vec::new();
            for bank in 0..2 {
                if number == 0 || random.below(4) != 0 {
                    let store = store(&mut random, pool, bank, generations[1 - bank]);
                    generations[bank] = store.made.as_ref().map_or(u32::MAX, |m| m.generation);
                    stores.push(store);
                }
            }
            Round { stores, questions: random.u64() }
        };
        Self((0..10).map(round).collect())
    }
    fn compare(&self, tally: &mut Tally) {
        let mut region = blank();
        let mut selections: [Selection; 2] = Default::default();
        for (i, round) in self.0.iter().enumerate() {
            for store in &round.stores {
                written_to(&mut region, store);
                selections[store.bank] = store.selection.clone();
            }
            let expected = Expected::of(&region);
            for bank in 0..2 {
                tally.count(VALID[expected.validate(bank).refusal as usize], 1);
            }
            let mut random = Random::new(round.questions);
            ask_headers(tally, &expected, i);
            ask_sources(tally, &expected, i, &mut random);
            ask_fresh(tally, &expected, i, &mut random);
            ask_keys(tally, &expected, i, &mut random, &selections);
            ask_turns(tally, &expected, i, &mut random);
            ask_rows(tally, &expected, i, &mut random);
        }
        tally.count("regions", self.0.len());
    }
    fn smaller(&self) -> Moves<'_, Self> {
        Box::new(fewer(&self.0).chain(each(&self.0, Round::smaller)).map(Self))
    }
    fn show(&self) -> Vec<String> {
        show_all(&self.0)
    }
}

/// Records with anything in them that passes; each byte returned is compared with
/// the image's own.
#[derive(Clone)]
pub struct Records(Vec<Round>);

impl Input for Records {
    fn make(case: &Case) -> Self {
        let mut random = case.random();
        let round = |i: usize| {
            let mut made = made::good(&mut random, 1, 300);
            (made.version, made.count) = (1 + i as u32 % 3, 3);
            let store = Store { bank: random.below(2), made: Some(made), ..Store::default() };
            Round { stores: vec![store], questions: random.u64() }
        };
        Self((0..30).map(round).collect())
    }
    fn compare(&self, tally: &mut Tally) {
        let mut region = blank();
        for (i, round) in self.0.iter().enumerate() {
            for store in &round.stores {
                written_to(&mut region, store);
                let expected = Expected::of(&region);
                ask_sources(tally, &expected, i, &mut Random::new(round.questions));
                if let (Some(made), Ok(found)) = (&store.made, expected.header[store.bank]) {
                    records_of(tally, &region, (store.bank, found), made);
                }
            }
        }
    }
    fn smaller(&self) -> Moves<'_, Self> {
        Box::new(fewer(&self.0).chain(each(&self.0, Round::smaller)).map(Self))
    }
    fn show(&self) -> Vec<String> {
        show_all(&self.0)
    }
}

fn records_of(tally: &mut Tally, region: &[u8], (bank, found): (usize, Bank), made: &made::Made) {
    let (size, tables) = made::layout(made.version);
    for index in 0..made.count.min(3) as usize {
        let stored = &region[bank * BANK + 48 + index * size..][..size];
        let mut out = [0xa5; 400];
        let core = banks::source(region, bank as u32, index as u32, &mut out);
        let mut whole = [0; 400];
        whole[..20 + 8 * tables].copy_from_slice(&stored[..20 + 8 * tables]);
        whole[84..84 + 12 * tables].copy_from_slice(&stored[20 + 8 * tables..20 + 20 * tables]);
        if made.version > 1 {
            whole[180..339].copy_from_slice(&stored[20 + 20 * tables..][..159]);
        }
        whole[384..].fill(0xa5);
        let input = || {
            let version = made.version;
            (vec![index as u64], format!("source {index} of version {version}: {}", hex(stored)))
        };
        tally.same(core, 0, input);
        tally.same(out, whole, input);
        tally.count("records", 1);
        if sensible(tally, region, found, index as u32, &out) {
            tally.count("with a sensible stamp and id", 1);
        }
    }
}

/// The sample images' files.
fn files() -> Vec<PathBuf> {
    let folder = Path::new(env!("CARGO_MANIFEST_DIR")).join("../../samples");
    let mut files: Vec<_> = fs::read_dir(&folder)
        .map(|list| list.flatten().map(|entry| entry.path()).collect())
        .unwrap_or_default();
    files.retain(|file: &PathBuf| file.extension().is_some_and(|e| e == "img"));
    files.sort();
    files
}

/// One of the sample images, or one with its banks swapped, asked everything.
#[derive(Clone)]
pub struct Image {
    file: PathBuf,
    swapped: bool,
    questions: u64,
}

impl Question for Image {
    fn list(case: &Case) -> Vec<Self> {
        let questions = case.random().u64();
        let both = |file: PathBuf| {
            [false, true].map(|swapped| Self { file: file.clone(), swapped, questions })
        };
        files().into_iter().flat_map(both).collect()
    }
    fn ask(&self, tally: &mut Tally) {
        let mut region = fs::read(&self.file).unwrap_or_default();
        tally.same(region.len(), REGION, || (vec![0], self.show()));
        if region.len() != REGION {
            return;
        }
        if self.swapped {
            region.rotate_left(BANK);
        }
        let pick = |fields: [&str; 5]| fields.map(String::from);
        let chosen = [
            pick(["7", "r7", "", "s1", "Central Station"]),
            pick(["12", "r12", "4102", "s2", "Harbour"]),
        ];
        let selection = Selection::of(b"mdb-1078 Europe/Oslo", &chosen);
        let selections = [selection.clone(), selection];
        let mut random = Random::new(self.questions);
        let expected = Expected::of(&region);
        ask_headers(tally, &expected, 0);
        ask_sources(tally, &expected, 0, &mut random);
        ask_fresh(tally, &expected, 0, &mut random);
        ask_keys(tally, &expected, 0, &mut random, &selections);
        ask_turns(tally, &expected, 0, &mut random);
    }
    fn smaller(&self) -> Moves<'_, Self> {
        Box::new(std::iter::empty())
    }
    fn show(&self) -> String {
        let name = self.file.file_name().unwrap_or_default().to_string_lossy();
        let how = if self.swapped { ", its banks swapped" } else { "" };
        format!("image {name}{how}, the questions from {}", self.questions)
    }
}

pub fn images(_: &Plan, tally: &mut Tally) {
    let files = files();
    tally.same(files.is_empty(), false, || (vec![0], "whether there are no images".into()));
    tally.count("images", files.len());
}
