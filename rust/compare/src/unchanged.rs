//! `unchanged` beside the lifted `Writer`'s: after an update, and on banks of all
//! versions that differ from the content in one thing.
use crate::{
    run::{Case, Tally},
    shrink::{Input, Moves, each, fewer},
    stores::blank,
    update::{
        calls::Call,
        content::{Content, Key, Piece, fields, leftovers},
        core::Core,
        flash::first_other,
        lifted::{COMMITTED, Lifted, Outcome},
        upper::Upper,
    },
};
use bankcore::{
    banks,
    update::{Answer, DIFFERENT, SAME},
};
use common::{
    Random,
    made::{self, BANK, CAPACITY, Made, SECTOR, layout},
};

/// The core's side in comparing mode, before closing.
fn filled(tally: &mut Tally, random: &mut Random, region: &[u8], content: &Content) -> Core {
    if !content.rows {
        let mut core = Core::new(region, true, content.now);
        core.fill(random, content);
        return core;
    }
    let selection = content.key.selection();
    let (mut upper, _) = Upper::begin(region, (true, content.now), &selection, None);
    upper.fill(content);
    let about = || (vec![content.length() as u64], "an upper call that isn't its run".into());
    tally.same(upper.apart.as_deref(), None, about);
    upper.run
}

/// One comparison with the active bank on both sides; the Rust's answer.
fn compare(
    tally: &mut Tally,
    random: &mut Random,
    region: &[u8],
    content: &Content,
    what: &str,
) -> bool {
    let (rust, operations) = Lifted::unchanged(region, content);
    let mut core = filled(tally, random, region, content);
    let early = Call::Unchanged.make(&mut core.state.clone(), &mut core.region);
    core.close();
    let answer = core.call(&Call::Unchanged);
    let length = content.length();
    let about = |which: &str| {
        let text = format!("{which} of a comparison of {length} bytes, other: {what}");
        (vec![length as u64], text)
    };
    tally.same(early.refusal, 11, || about("unchanged before closing"));
    let expected = Answer { answer: if rust { SAME } else { DIFFERENT }, ..Answer::default() };
    tally.same(answer, expected, || about("unchanged"));
    tally.same(core.refusal, 0, || about("the first refusal"));
    tally.same(core.operations.len() + operations, 0, || about("operations"));
    let refused = core.call(&Call::Commit(None, true));
    tally.same(refused.refusal, 12, || about("commit"));
    tally.same(first_other(&core.region, region), None, || about("the region"));
    tally.count(if rust { "comparisons unchanged" } else { "changed" }, 1);
    rust
}

/// What is different in the stored bank, and whether `unchanged` ignores it.
const OTHERS: [(&str, bool); 12] = [
    ("nothing", true),
    ("present bits, times, originals, texts", true),
    ("a table that the version hasn't", false),
    ("a data byte", false),
    ("one data byte more", false),
    ("the count", false),
    ("the key length", false),
    ("a start date", false),
    ("an end date", false),
    ("a block's offset", false),
    ("a block's length", false),
    ("a block's CRC", false),
];

/// A content that a bank of this version can hold, or can't because of one table.
fn content_for(random: &mut Random, version: u32, other: usize) -> Content {
    let rows = other != 2 && random.once_in(3);
    let mut content = Content::random(random, rows);
    if content.key.bytes().len() < 2 {
        (content.key, content.rows) = (Key::Bytes(vec![1, 2, 3]), false);
    }
    let last = made::layout(version).1 - 1;
    for source in &mut content.sources {
        source.fields = fields(random);
        source.tables.retain(|t| t.0 <= last);
    }
    if other == 2 {
        let rows = vec![Piece::Bytes(b"a".to_vec())];
        content.sources[0].tables.retain(|t| t.0 != 7);
        content.sources[0].tables.push((7, rows));
    }
    content
}

/// A bank of this version with the content's data, dates and blocks. All else is
/// random.
fn stored(random: &mut Random, content: &Content, version: u32) -> (Made, Vec<u8>) {
    let (data, blocks) = content.data();
    let key = content.key.bytes().len();
    let mut bank = made::good(random, key as u32, data.len() as u32);
    (bank.version, bank.count) = (version, content.sources.len() as u32);
    for ((record, source), blocks) in bank.records.iter_mut().zip(&content.sources).zip(blocks) {
        (record.start, record.end) = (source.fields.start, source.fields.end);
        record.tables = blocks;
    }
    (bank, data)
}

/// Changes one thing.
fn alter(random: &mut Random, bank: &mut Made, data: &mut [u8], other: usize) {
    let source = random.below(bank.count as usize);
    let tables = layout(bank.version).1;
    let present: Vec<(usize, usize)> = (0..bank.count as usize)
        .flat_map(|i| (0..tables).map(move |t| (i, t)))
        .filter(|&(i, t)| bank.records[i].tables[t][1] > 0)
        .collect();
    let (i, t) = random.pick(&present);
    match other {
        3 => {
            let at = random.below(bank.length as usize);
            data[at] ^= 1 << random.below(8);
        }
        4 => bank.length += 1,
        5 => bank.count = if bank.count == 3 { 2 } else { bank.count + 1 },
        6 => bank.key -= 1,
        7 => {
            let record = &mut bank.records[source];
            record.start = if record.start == 10101 { 10102 } else { 10101 };
            record.end = record.end.max(10102);
        }
        8 => {
            let record = &mut bank.records[source];
            record.end = if record.end == 99991231 { 99991230 } else { 99991231 };
        }
        9 => bank.records[i].tables[t][0] -= 1,
        10 => bank.records[i].tables[t][1] -= 1,
        11 => bank.records[i].tables[t][2] ^= 1 << random.below(32),
        _ => {}
    }
}

/// Whether altering changed more than one thing, or none.
fn spoiled(content: &Content, other: usize, bank: &Made) -> bool {
    let late = content.sources.iter().any(|s| s.fields.start == 99991231);
    let eighth = content.sources.iter().flat_map(|s| &s.tables).any(|t| t.0 == 7);
    (other == 2 && !eighth)
        || (other == 7 && content.sources.iter().any(|s| s.fields.end == 10101))
        || (other == 8 && late)
        || bank.length as usize > CAPACITY
}

/// The content with something else in it, most of which `unchanged` sees.
fn varied(random: &mut Random, content: &Content) -> Content {
    let mut other = Content { rows: false, ..content.clone() };
    let count = other.sources.len();
    let source = &mut other.sources[random.below(count)];
    match random.below(9) {
        0 => source.fields.start = 20251231,
        1 => source.fields.end = 99990101,
        2 => source.fields.present ^= 1,
        3 => source.fields.updated = 7,
        4 => source.fields.original[3][1] ^= 1,
        5 => other.key = Key::Bytes([&other.key.bytes()[..], &[0]].concat()),
        6 => drop(source.tables.pop_if(|t| t.0 != 0)),
        7 if count > 1 => drop(other.sources.pop()),
        _ => {
            if let Some(table) = source.tables.last_mut() {
                table.1.push(Piece::Bytes(b"x".to_vec()));
            }
        }
    }
    other
}

/// The bank that a content is compared with.
#[derive(Clone, Copy)]
enum Beside {
    /// One of this version with something changed.
    Stored(u32, usize),
    /// One that an update made, or none.
    Updated,
}

/// A content compared with the active bank; all else is drawn from a seed.
#[derive(Clone)]
struct Comparison {
    beside: Beside,
    content: Content,
    from: u64,
    /// Whether the region has leftovers.
    leftovers: bool,
}

impl Comparison {
    fn region(&self, random: &mut Random) -> Vec<u8> {
        if self.leftovers { leftovers(random) } else { blank() }
    }
    fn on_stored(&self, tally: &mut Tally, version: u32, other: usize) {
        let (what, same) = OTHERS[other];
        let mut random = Random::new(self.from);
        let (mut bank, mut data) = stored(&mut random, &self.content, version);
        alter(&mut random, &mut bank, &mut data, other);
        if spoiled(&self.content, other, &bank) {
            return;
        }
        let mut region = self.region(&mut random);
        let number = random.below(2);
        region[(1 - number) * BANK..][..SECTOR].fill(255);
        region[number * BANK + SECTOR..][..data.len()].copy_from_slice(&data);
        bank.write(&mut region, number);
        let about =
            |which: &str| (vec![data.len() as u64], format!("{which}, version {version}, {what}"));
        let found = banks::load(&region);
        tally.same((found.found, found.number), (1, number as u32), || about("load"));
        let rust = compare(tally, &mut random, &region, &self.content, what);
        tally.same(rust, same, || about("the Rust's answer"));
    }
    fn after_update(&self, tally: &mut Tally) {
        let (mut random, content) = (Random::new(self.from), &self.content);
        let region = self.region(&mut random);
        compare(tally, &mut random, &region, content, "all");
        let rust = Lifted::write(&region, content, COMMITTED);
        if rust.outcome != Outcome::Committed {
            return;
        }
        let same = compare(tally, &mut random, &rust.region, content, "nothing");
        let about = || (vec![content.length() as u64], "the Rust's answer after its update".into());
        tally.same(same, true, about);
        let other = varied(&mut random, content);
        compare(tally, &mut random, &rust.region, &other, "a thing or nothing");
    }
    fn smaller(&self) -> Moves<'_, Self> {
        let bare = self.leftovers.then(|| Self { leftovers: false, ..self.clone() });
        let contents = self.content.smaller().filter(|c| c.key.bytes().len() > 1);
        let contents = contents.map(|content| Self { content, ..self.clone() });
        Box::new(bare.into_iter().chain(contents))
    }
    fn show(&self) -> Vec<String> {
        let mut lines = vec![match self.beside {
            Beside::Stored(version, other) => {
                format!(
                    "compared with a stored bank of version {version}, other: {}",
                    OTHERS[other].0
                )
            }
            Beside::Updated => "compared with the bank that its update makes".into(),
        }];
        let on = if self.leftovers { "leftovers" } else { "a blank region" };
        lines.push(format!("on {on}, all else drawn from {}", self.from));
        lines.extend(self.content.show());
        lines
    }
}

/// Independent comparisons.
#[derive(Clone)]
pub struct Comparisons(Vec<Comparison>);

impl Input for Comparisons {
    fn make(case: &Case) -> Self {
        let mut random = case.random();
        let mut list = Vec::new();
        for other in 0..OTHERS.len() {
            let version = 1 + random.below(if other == 2 { 2 } else { 3 }) as u32;
            let content = content_for(&mut random, version, other);
            let beside = Beside::Stored(version, other);
            list.push(Comparison { beside, content, from: random.u64(), leftovers: true });
        }
        let rows = random.once_in(3);
        let content = Content::random(&mut random, rows);
        let from = random.u64();
        list.push(Comparison { beside: Beside::Updated, content, from, leftovers: true });
        Self(list)
    }
    fn compare(&self, tally: &mut Tally) {
        for comparison in &self.0 {
            match comparison.beside {
                Beside::Stored(version, other) => comparison.on_stored(tally, version, other),
                Beside::Updated => comparison.after_update(tally),
            }
        }
    }
    fn smaller(&self) -> Moves<'_, Self> {
        Box::new(fewer(&self.0).chain(each(&self.0, Comparison::smaller)).map(Self))
    }
    fn show(&self) -> Vec<String> {
        self.0.iter().flat_map(Comparison::show).collect()
    }
}
