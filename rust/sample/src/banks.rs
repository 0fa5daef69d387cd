//! Banks: a region, and what the Rust says of it.
use crate::{hex, keys::Selection, region::Region};
use common::{
    Random,
    made::{self, BANK, CAPACITY, DAYS, Made, NO_DAYS, Record, SECTOR, UNKNOWN},
};
use lifted::{
    cache::{
        Bank, OFFSET,
        door::{self, BankFields, SourceFields, get},
    },
    gtfs::{Date, Error},
    numbered::{self, Refusal},
    standins::view::View,
    timetable_display::feed::Builder,
};
use std::fmt::{Result, Write as _};

/// The lifted `validate`; and if only the data's CRC is wrong, what it says with
/// the right CRC in the header, which is sealed again. Whether that was so is
/// returned too.
fn header(region: &[u8], bank: usize) -> (std::result::Result<Bank, u32>, bool) {
    match numbered::validate(&View::new(region), bank as u32) {
        Ok(found) => (Ok(found), true),
        Err(Refusal::Number(7)) => {
            let at = bank * BANK;
            let length = get(region, at + 12) as usize;
            let crc = crc32fast::hash(&region[at + SECTOR..][..length]);
            let (size, _) = made::layout(get(region, at + 4));
            let mut header = region[at..][..48 + 3 * size].to_vec();
            header[16..20].copy_from_slice(&crc.to_le_bytes());
            header[40..48].fill(0);
            let instead = [(at + 16, crc), (at + 40, crc32fast::hash(&header))];
            let view = View { instead: &instead, ..View::new(region) };
            (Ok(numbered::validate(&view, bank as u32).expect("a repaired bank")), false)
        }
        Err(Refusal::Number(number)) => (Err(number), false),
        Err(Refusal::Other(error)) => panic!("the Rust's validate says {error:?}"),
    }
}

/// A bank's number and its header's numbers.
fn numbers(region: &[u8], bank: Bank) -> String {
    let b = BankFields::from(bank);
    let at = (b.offset - OFFSET) as usize;
    let crc = get(region, at + 16);
    format!(
        "{} {} {} {} {crc} {} {} {}",
        at / BANK,
        b.version,
        b.generation,
        b.length,
        b.count,
        b.key_length,
        b.checked
    )
}

/// A record in version 3's form: numbers as the lifted `Source` has them, stamp,
/// id and validator as the image has them.
fn record(region: &[u8], bank: Bank, i: u32) -> Vec<u8> {
    let b = BankFields::from(bank);
    let source = door::source(bank, &View::new(region), i as usize).unwrap();
    let mut out = vec![0; 384];
    SourceFields { snapshot: None, ..source }.encode(&mut out);
    let (size, tables) = made::layout(b.version);
    let stored = &region[(b.offset - OFFSET) as usize + 48 + i as usize * size..][..size];
    out[180..].fill(0);
    if b.version > 1 {
        out[180..339].copy_from_slice(&stored[20 + tables * 20..][..159]);
    }
    out
}

fn day(d: u32) -> Option<Date> {
    let date = Date::new((d / 10000) as u16, (d / 100 % 100) as u8, (d % 100) as u8);
    date.ok().filter(|_| door::valid_date(d))
}

/// A region and the list that it is asked for.
struct Questions<'a> {
    out: &'a mut String,
    region: Region,
}

impl Questions<'_> {
    /// Writes the region, and asks about some of its banks and for the one to use.
    fn asked(&mut self, banks: &[usize]) -> Result {
        self.region.write(self.out)?;
        self.headers(banks)?;
        self.load()
    }

    fn headers(&mut self, banks: &[usize]) -> Result {
        let region = &self.region.bytes;
        for &bank in banks {
            let (found, whole) = header(region, bank);
            let good = found.map(|b| format!("0 {}", numbers(region, b)));
            let text = good.unwrap_or_else(|number| number.to_string());
            let validated = if found.is_ok() && !whole { "7" } else { &text };
            writeln!(self.out, "validate {bank} {validated}")?;
            writeln!(self.out, "header {bank} {text}")?;
        }
        Ok(())
    }

    fn load(&mut self) -> Result {
        let region = &self.region.bytes;
        match door::load(&View::new(region)).expect("load") {
            Some(found) => writeln!(self.out, "load 1 {}", numbers(region, found)),
            None => writeln!(self.out, "load 0"),
        }
    }

    fn sources(&mut self, bank: usize, indices: &[u32]) -> Result {
        let region = &self.region.bytes;
        for &i in indices {
            let answer = match header(region, bank).0 {
                Err(number) => number.to_string(),
                Ok(found) if i >= BankFields::from(found).count => {
                    let error = door::source(found, &View::new(region), i as usize);
                    assert_eq!(error, Err(Error::InvalidZip));
                    "6".into()
                }
                Ok(found) => format!("0 {}", hex(&record(region, found, i))),
            };
            writeln!(self.out, "source {bank} {i} {answer}")?;
        }
        Ok(())
    }

    fn fresh(&mut self, bank: usize, days: [u32; 3], masks: &[u8], now: i64) -> Result {
        let region = &self.region.bytes;
        for &wanted in masks {
            let [a, b, c] = days;
            write!(self.out, "fresh {bank} {a} {b} {c} {wanted} {now} ")?;
            match (days.map(day), header(region, bank).0) {
                ([Some(a), Some(b), Some(c)], Ok(found)) => {
                    let builder = Builder { dates: [a, b, c], wanted };
                    let fresh = door::fresh(found, &View::new(region), &builder, now).unwrap();
                    let [checked, updated] =
                        [fresh.checked_at, fresh.source_updated_at].map(|t| t.unwrap_or(UNKNOWN));
                    writeln!(self.out, "0 {checked} {updated}")?;
                }
                ([Some(_), Some(_), Some(_)], Err(number)) => writeln!(self.out, "{number}")?,
                _ => writeln!(self.out, "2")?,
            }
        }
        Ok(())
    }

    /// Freshness over a bank's own dates and times and others.
    fn ages(&mut self, random: &mut Random, bank: usize) -> Result {
        let mut days = DAYS.to_vec();
        let mut times = vec![-1, i64::MIN, i64::MAX, -1_000_000_000];
        if let Ok(found) = header(&self.region.bytes, bank).0 {
            let b = BankFields::from(found);
            times.extend([b.checked, b.checked.wrapping_add(1), b.checked.wrapping_sub(1)]);
            for i in 0..b.count as usize {
                let source = door::source(found, &View::new(&self.region.bytes), i).unwrap();
                for d in [source.start, source.end] {
                    days.extend([d, d, d]);
                    days.extend([d - 1, d + 1].into_iter().filter(|d| day(*d).is_some()));
                }
                times.extend([source.updated, source.updated.wrapping_sub(1)]);
            }
        }
        let chosen = [0; 3].map(|_| random.pick(&days));
        self.fresh(bank, chosen, &[0, 1, 2, 3, 4, 5, 6, 7], random.pick(&times))?;
        for now in times {
            let chosen = [0; 3].map(|_| random.pick(&days));
            self.fresh(bank, chosen, &[7], now)?;
        }
        Ok(())
    }

    fn key(&mut self, bank: usize, selection: &Selection) -> Result {
        let region = &self.region.bytes;
        let answer = match header(region, bank).0 {
            Err(number) => number.to_string(),
            Ok(found) => {
                let view = View { identity: &selection.identity, ..View::new(region) };
                let same = door::same_key(found, &view, &selection.config()).unwrap();
                format!("0 {}", u8::from(same))
            }
        };
        writeln!(self.out, "bankkey {bank} {} {answer}", selection.words())
    }

    /// One turn, from the header's numbers and crc32fast; the state after it, if
    /// the checking goes on.
    fn turn(
        &mut self,
        state: [u32; 3],
        n: u32,
    ) -> std::result::Result<Option<[u32; 3]>, std::fmt::Error> {
        let [bank, position, crc] = state;
        let region = &self.region.bytes;
        let found = match bank > 1 || position > CAPACITY as u32 {
            true => Err(11),
            false => header(region, bank as usize).0,
        };
        let length = found.map_or(0, |b| BankFields::from(b).length);
        let mut next = state;
        let (refusal, verdict, count) = match found {
            Err(number) => (number, 0, 0),
            Ok(_) if position > length => (11, 0, 0),
            Ok(_) if position == length => match crc == get(region, bank as usize * BANK + 16) {
                true => (0, 1, 0),
                false => (7, 0, 0),
            },
            Ok(_) => {
                let count = n.min(length - position);
                let data = &region[bank as usize * BANK + SECTOR + position as usize..];
                let mut hash = crc32fast::Hasher::new_with_initial(crc);
                hash.update(&data[..count as usize]);
                next = [bank, position + count, hash.finalize()];
                (0, 0, count)
            }
        };
        let [b, p, c] = next;
        writeln!(
            self.out,
            "turn {bank} {position} {crc} {n} {refusal} {verdict} {count} {b} {p} {c}"
        )?;
        Ok((refusal == 0 && verdict == 0).then_some(next))
    }

    /// A bank's data checked in turns of these sizes, the last one repeated. The
    /// verdict is that of `validate`.
    fn turns(&mut self, bank: usize, sizes: &[u32]) -> Result {
        let (found, whole) = header(&self.region.bytes, bank);
        if let Err(number) = found {
            return writeln!(self.out, "start {bank} {number} 0 0 255 0 0");
        }
        writeln!(self.out, "start {bank} 0 0 0 {bank} 0 0")?;
        let mut state = [bank as u32, 0, 0];
        let mut sizes = sizes.iter().copied().peekable();
        let mut size = 0;
        loop {
            size = sizes.next().unwrap_or(size);
            match self.turn(state, size)? {
                Some(next) => state = next,
                None => break,
            }
        }
        let [_, position, crc] = state;
        assert_eq!(crc == get(&self.region.bytes, bank * BANK + 16), whole);
        // once more, and from states that no turn gave
        for state in [
            state,
            [bank as u32, position, !crc],
            [bank as u32, position + 1, crc],
            [bank as u32, CAPACITY as u32 + 1, crc],
            [2, 0, 0],
            [255, position, crc],
            [bank as u32, position - 1, 7],
        ] {
            self.turn(state, 5)?;
        }
        Ok(())
    }

    /// Everything about a bank.
    fn everything(&mut self, random: &mut Random, bank: usize, selection: &Selection) -> Result {
        self.sources(bank, &[0, 1, 2, 3, u32::MAX])?;
        self.ages(random, bank)?;
        self.key(bank, selection)?;
        let mut other = selection.clone();
        other.identity.push(b'x');
        self.key(bank, &other)?;
        let length = get(&self.region.bytes, bank * BANK + 12);
        self.turns(bank, &[0, 1, 16, length / 3, length])
    }
}

fn selections() -> [Selection; 2] {
    let pick = |fields: [&str; 5]| fields.map(String::from);
    [
        Selection::of(
            b"mdb-1078 Europe/Oslo",
            &[
                pick(["7", "r7", "", "s1", "Central Station"]),
                pick(["12", "r12", "4102", "s2", "Harbour"]),
            ],
        ),
        Selection::of(b"", &[]),
    ]
}

/// Writes data that begin with a key, and the header of a good bank.
fn good(
    random: &mut Random,
    region: &mut [u8],
    bank: usize,
    selection: &Selection,
    more: &[u8],
) -> Made {
    let key = selection.key();
    let data = &mut region[bank * BANK + SECTOR..];
    data[..key.len()].copy_from_slice(&key);
    data[key.len()..][..more.len()].copy_from_slice(more);
    let made = made::good(random, key.len() as u32, (key.len() + more.len()) as u32);
    made.write(region, bank);
    made
}

/// The records, all alike, of a bank whose data are a key and one table.
fn plain(key: u32, length: u32, checked: i64) -> Record {
    let mut tables = [[0; 3]; 8];
    if length > key {
        tables[0] = [key, length - key, 0];
    }
    Record {
        start: 20260101,
        end: 20261231,
        present: 129,
        updated: checked,
        original: [[0; 2]; 8],
        tables,
        rest: vec![0; 224],
    }
}

/// A good bank with short records.
fn short(random: &mut Random, key: u32, length: u32) -> Made {
    let checked = 1_790_000_000;
    Made {
        version: 3,
        count: 2,
        spare: 0,
        checked,
        records: [0; 3].map(|_| plain(key, length, checked)),
        ..made::good(random, key, length)
    }
}

/// Every version beside every version, with one to three sources.
fn versions(out: &mut String, random: &mut Random) -> Result {
    let mut asked = Questions { region: Region::new(out, 255)?, out };
    let chosen = selections();
    for version in 1..=3 {
        for (bank, selection) in chosen.iter().enumerate() {
            let more = random.bytes(30 + 40 * version as usize);
            let mut made = good(random, &mut asked.region.bytes, bank, selection, &more);
            made.version = if bank == 0 { version } else { 1 + version % 3 };
            made.count = if bank == 0 { version } else { 4 - version };
            made.write(&mut asked.region.bytes, bank);
        }
        asked.asked(&[0, 1])?;
        for (bank, selection) in chosen.iter().enumerate() {
            asked.everything(random, bank, selection)?;
        }
    }
    Ok(())
}

/// One thing wrong in a bank, or just not wrong.
const CHANGES: [fn(&mut Made); 46] = [
    |m| m.magic[3] ^= 1,
    |m| m.version = 0,
    |m| m.version = 4,
    |m| m.version = 259,
    |m| m.commit ^= 1,
    |m| m.commit = u32::MAX,
    |m| m.seal = Some(0),
    |m| m.length = 0,
    |m| m.length = CAPACITY as u32 + 1,
    |m| m.length = u32::MAX,
    |m| m.key = 0,
    |m| m.key = m.length,
    |m| m.key = m.length + 1,
    |m| m.count = 0,
    |m| m.count = 4,
    |m| m.count = 257,
    |m| m.count = 3,
    |m| m.checked = -1,
    |m| m.checked = i64::MIN,
    |m| m.checked = 0,
    |m| m.checked -= 1,
    |m| m.records[1].start = NO_DAYS[1],
    |m| m.records[1].end = NO_DAYS[6],
    |m| m.records[0].start = m.records[0].end,
    |m| m.records[0].start = m.records[0].end + 1,
    |m| m.records[0].start = 20270101,
    |m| m.records[0].present = 255,
    |m| m.records[0].present = 256,
    |m| m.records[1].updated = m.checked + 1,
    |m| m.records[1].updated = -1,
    |m| m.records[1].updated = 0,
    |m| m.records[1].updated = UNKNOWN,
    |m| m.records[1].updated = UNKNOWN + 1,
    |m| m.records[0].tables[7] = [m.key - 1, 1, 0],
    |m| m.records[0].tables[7] = [m.key - 1, 0, 0],
    |m| m.records[0].tables[7] = [m.key, m.length - m.key + 1, 0],
    |m| m.records[0].tables[7] = [m.length - 1, 1, 0],
    |m| m.records[0].tables[7] = [m.length, 1, 0],
    |m| m.records[0].tables[7] = [u32::MAX, 2, 0],
    |m| m.records[0].tables[7] = [u32::MAX, 0, 0],
    |m| m.records[2].start = 0,
    |m| m.records[2].tables[1] = [0, u32::MAX, 0],
    |m| m.crc = Some(0),
    |m| m.spare = 1,
    // a table 7 past a record of version 2, and a bank of version 1
    |m| (m.version, m.records[0].tables[7]) = (2, [0, 1, 0]),
    |m| (m.version, m.records[0].rest) = (1, vec![9; 224]),
];

/// Bank 1 with each of the changes, in each version.
fn changes(asked: &mut Questions, made: &Made, selection: &Selection) -> Result {
    for version in 1..=3 {
        for (i, change) in CHANGES.into_iter().enumerate() {
            let mut other = Made { version, ..made.clone() };
            change(&mut other);
            other.write(&mut asked.region.bytes, 1);
            asked.asked(if i == 0 { &[0, 1] } else { &[1] })?;
            if i % 7 == version as usize {
                asked.sources(1, &[0, 2])?;
                asked.fresh(1, [20260101, 20260102, 20270101], &[3, 7], 1_790_000_000)?;
                asked.key(1, selection)?;
                asked.turns(1, &[u32::MAX])?;
            }
        }
    }
    Ok(())
}

/// Days that don't exist, and some that do.
fn days(asked: &mut Questions) -> Result {
    for days in [
        [0, 20260101, 20260102],
        [20260101, 20230229, 20260102],
        [20260101, 20260102, 19000229],
        [20260101, 99991231, 10101],
    ] {
        asked.region.write(asked.out)?;
        asked.fresh(1, days, &[0, 7], 1_790_000_001)?;
    }
    Ok(())
}

/// A bit of the header, of a record past the count, of the data, and past them.
fn bits(asked: &mut Questions) -> Result {
    let records = [0, 2, 3].map(|i| 48 + i * 384);
    let data = [SECTOR - 1, SECTOR, SECTOR + 24, SECTOR + 25];
    for at in [8, 30, 39, 43].into_iter().chain(records).chain(data) {
        asked.region.bytes[BANK + at] ^= 4;
        asked.asked(&[1])?;
        asked.turns(1, &[9])?;
        asked.region.bytes[BANK + at] ^= 4;
    }
    Ok(())
}

/// A bank beside a good one, refused by each number, and what just passes.
fn refusals(out: &mut String, random: &mut Random) -> Result {
    let mut asked = Questions { region: Region::new(out, 255)?, out };
    let chosen = selections();
    for (bank, selection) in chosen.iter().enumerate() {
        let more = random.bytes(24);
        good(random, &mut asked.region.bytes, bank, selection, &more);
    }
    let key = chosen[1].key().len() as u32;
    let mut made = short(random, key, key + 24);
    made.generation = get(&asked.region.bytes, 8).wrapping_add(1);
    changes(&mut asked, &made, &chosen[1])?;
    made.write(&mut asked.region.bytes, 1);
    days(&mut asked)?;
    bits(&mut asked)
}

/// Which bank is tried first: generations next to each other, half of the range
/// apart, and past the end; both banks good, then one, then none.
fn generations(out: &mut String, random: &mut Random) -> Result {
    let mut asked = Questions { region: Region::new(out, 255)?, out };
    let half = 1 << 31;
    let mut pairs = vec![];
    for a in [0, 7, half - 1, half, u32::MAX] {
        for d in [0, 1, u32::MAX, half - 1, half, half + 1] {
            pairs.push([a, d.wrapping_add(a)]);
        }
    }
    for bank in 0..2 {
        asked.region.bytes[bank * BANK + SECTOR..][..4].copy_from_slice(&[0, 1, 2, 3]);
    }
    for pair in pairs {
        let made = pair.map(|generation| Made { generation, version: 1, ..short(random, 1, 4) });
        for (bank, made) in made.iter().enumerate() {
            made.write(&mut asked.region.bytes, bank);
        }
        asked.asked(&[0, 1])?;
        for bank in 0..2 {
            asked.region.bytes[bank * BANK + SECTOR] = 1;
            asked.region.write(asked.out)?;
            asked.load()?;
            asked.region.bytes[bank * BANK + SECTOR] = 0;
        }
    }
    for bank in 0..2 {
        asked.region.bytes[bank * BANK + 4] = 9;
        asked.asked(&[0, 1])?;
    }
    Ok(())
}

/// Erased and cleared banks.
fn blank(out: &mut String, selection: &Selection) -> Result {
    for byte in [0, 255] {
        let mut asked = Questions { region: Region::new(out, byte)?, out };
        asked.asked(&[0, 1])?;
        asked.sources(1, &[0])?;
        asked.fresh(1, [20260101; 3], &[0], 0)?;
        asked.turns(0, &[1])?;
        asked.key(0, selection)?;
    }
    Ok(())
}

/// Writes bank 0 with a table of rows after its key.
fn with_table(random: &mut Random, region: &mut [u8], key: &[u8]) -> Result {
    let mut rows = String::from("route_id,route_short_name,route_type\n");
    for i in 0..400 {
        writeln!(rows, "r{i},{},{}", random.below(100), random.below(8))?;
    }
    let length = (key.len() + rows.len()) as u32;
    region[SECTOR + key.len()..][..rows.len()].copy_from_slice(rows.as_bytes());
    let mut made = short(random, key.len() as u32, length);
    made.records[0].tables[0][2] = crc32fast::hash(rows.as_bytes());
    made.records[1].updated = 1_789_000_000;
    made.records[1].start = 20260601;
    made.write(region, 0);
    Ok(())
}

/// Writes bank 1 full.
fn full(random: &mut Random, region: &mut [u8]) {
    region[BANK + SECTOR + 1..].fill(b'a');
    let mut made = short(random, 1, CAPACITY as u32);
    made.checked = 0;
    made.records.iter_mut().for_each(|r| r.updated = UNKNOWN);
    made.records[1].updated = 0;
    made.write(region, 1);
}

/// No data but the key, erased and cleared banks, a table of some thousand bytes,
/// a full bank, and times before 1970.
fn sizes(out: &mut String, random: &mut Random) -> Result {
    let chosen = selections();
    blank(out, &chosen[1])?;
    let mut asked = Questions { region: Region::new(out, 255)?, out };
    for (bank, selection) in chosen.iter().enumerate() {
        let key = selection.key();
        asked.region.bytes[bank * BANK + SECTOR..][..key.len()].copy_from_slice(&key);
        short(random, key.len() as u32, key.len() as u32).write(&mut asked.region.bytes, bank);
    }
    asked.asked(&[0, 1])?;
    for (bank, selection) in chosen.iter().enumerate() {
        asked.everything(random, bank, selection)?;
    }
    let key = chosen[0].key();
    with_table(random, &mut asked.region.bytes, &key)?;
    full(random, &mut asked.region.bytes);
    asked.asked(&[0, 1])?;
    asked.everything(random, 0, &chosen[0])?;
    asked.everything(random, 1, &chosen[1])?;
    asked.turns(0, &[256])?;
    asked.turns(1, &[65_536])?;
    for bank in 0..2 {
        for now in [-1, -1_000_000, i64::MIN, i64::MIN + 1, 0, 1_788_999_999, 1_789_000_000] {
            asked.fresh(bank, [20260101, 20260601, 20270101], &[1, 2, 3, 7], now)?;
        }
    }
    // a changed byte in each
    asked.region.bytes[SECTOR + key.len() + 2000] ^= 1;
    asked.region.bytes[BANK + SECTOR + CAPACITY - 1] = b'b';
    asked.asked(&[0, 1])?;
    asked.turns(0, &[4096])?;
    asked.turns(1, &[u32::MAX])
}

pub fn write(out: &mut String, random: &mut Random) -> Result {
    versions(out, random)?;
    refusals(out, random)?;
    generations(out, random)?;
    sizes(out, random)
}

/// A region's lines, and what the Rust says of its banks.
pub fn questions(out: &mut String, region: Region) -> Result {
    let mut asked = Questions { region, out };
    asked.asked(&[0, 1])?;
    asked.sources(0, &[0, 1])
}
