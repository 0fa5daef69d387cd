//! Updates by the lower calls beside the lifted `Writer`: each flash operation,
//! and the region after it.
use crate::{
    full,
    keys::Selection,
    run::{Case, Plan, Tally},
    shrink::{Input, Moves, each, fewer},
    stores::Found,
    update::{
        calls::Call,
        content::{Content, Key, leftovers},
        core::Core,
        cut::Cut,
        flash::{cut_at, done_at, first_other, place},
        lifted::{COMMITTED, How, Lifted, Outcome},
        upper::Upper,
    },
};
use bankcore::{banks, update::DONE};
use common::{
    Random,
    made::{CAPACITY, WORD},
};
use lifted::{
    cache::door::{self, BankFields},
    standins::{flash::Operation, view::View},
};

/// How an update ended, by its outcome.
const ENDED: [&str; 6] = [
    "updates abandoned",
    "updates obsolete",
    "updates full",
    "updates cut",
    "updates committed",
    "updates unfit",
];

pub fn count(tally: &mut Tally, outcome: Outcome, upper: bool, operations: usize) {
    tally.count(ENDED[outcome as usize], 1);
    tally.count("by the upper calls", usize::from(upper));
    tally.count("flash operations", operations);
}

/// An update on both sides, and its length, to say where they differ.
pub struct Beside {
    pub length: usize,
}

impl Beside {
    pub fn about(&self, what: &str) -> (Vec<u64>, String) {
        (vec![self.length as u64], format!("{what} of an update of {} bytes", self.length))
    }
    /// The operations and the region after each and at the end.
    pub fn operations(
        &self,
        tally: &mut Tally,
        core: &Core,
        operations: &[Operation],
        region: &[u8],
    ) {
        let other = first_other(&core.operations, operations);
        let shown = |list: &[Operation]| other.and_then(|i| list.get(i)).map(place);
        tally.same(shown(&core.operations), shown(operations), || self.about("an operation"));
        tally.same(other, None, || self.about("the first other operation"));
        tally.same(core.strayed, None, || self.about("the bytes after an operation"));
        tally.same(first_other(&core.region, region), None, || self.about("the region"));
    }
    /// What load finds on a region.
    pub fn load(&self, tally: &mut Tally, region: &[u8]) -> Option<BankFields> {
        let rust = door::load(&View::new(region)).expect("the Rust loads").map(BankFields::from);
        let core = banks::load(region);
        let found = (core.found == 1).then(|| BankFields {
            offset: lifted::cache::OFFSET + core.number * lifted::cache::BANK_SIZE,
            generation: core.generation,
            length: core.length,
            key_length: core.key,
            count: core.count,
            checked: core.checked,
            version: core.version,
        });
        tally.same(found, rust, || self.about("load"));
        rust
    }
}

/// How many operations an update of n bytes makes.
pub fn operations_of(length: usize) -> usize {
    1 + length.div_ceil(4096) + length.div_ceil(256) + 2
}

/// An obsolete update: the Rust refuses it before it writes its last bytes, the
/// core once they are written.
fn obsolete(tally: &mut Tally, beside: &Beside, core: &Core, stamp: Option<i64>) {
    let (mut state, mut region) = (core.state, core.region.clone());
    state.close();
    while state.due(&mut region).answer == DONE {}
    let before = (state, region.clone());
    let refusal = Call::Commit(stamp, false).make(&mut state, &mut region).refusal;
    tally.same(refusal, 12, || beside.about("the refusal"));
    tally.same((state, region) == before, true, || beside.about("a refused commit"));
}

fn by_lower(random: &mut Random, region: &[u8], content: &Content, how: How) -> Core {
    let mut core = Core::new(region, false, content.now);
    core.cut = how.cut;
    core.fill(random, content);
    if how.current && !how.abandoned {
        core.close();
        core.commit(content.stamp, true);
    }
    core
}

/// By the upper calls, each beside its run, which does the same operations.
fn by_upper(
    tally: &mut Tally,
    beside: &Beside,
    region: &[u8],
    content: &Content,
    how: How,
) -> Core {
    let selection = content.key.selection();
    let (mut upper, _) = Upper::begin(region, (false, content.now), &selection, how.cut);
    upper.fill(content);
    if how.current && !how.abandoned {
        upper.call(&Call::Closing);
        if upper.call(&Call::Commit(content.stamp, true)).refusal == 0 {
            upper.call(&Call::Word);
        }
    }
    let apart = upper.apart.as_deref();
    tally.same(apart, None, || beside.about("an upper call that isn't its run"));
    upper.run
}

/// One update in writing mode on both sides; the region that it leaves.
pub fn write(
    tally: &mut Tally,
    random: &mut Random,
    region: &[u8],
    (content, how): (&Content, How),
) -> (Outcome, Vec<u8>) {
    let rust = Lifted::write(region, content, how);
    let beside = Beside { length: content.length() };
    // The Rust doesn't ask whether the bank will validate; the core does (13).
    let unfit = rust.outcome == Outcome::Unfit;
    let begun = rust.operations.len() - if unfit { 2 } else { 0 };
    let operations = &rust.operations[..begun];
    let Cut { k, j } = how.cut.unwrap_or(Cut { k: begun, j: 0 });
    let expected = cut_at(k, j, operations, region.to_vec());
    if !unfit {
        let other = first_other(&expected, &rust.region);
        tally.same(other, None, || beside.about("the Rust's region"));
    }

    let core = match content.rows {
        false => by_lower(random, region, content, how),
        true => by_upper(tally, &beside, region, content, how),
    };
    if rust.outcome == Outcome::Obsolete {
        obsolete(tally, &beside, &core, content.stamp);
    }
    tally.same(core.refusal, if unfit { 13 } else { 0 }, || beside.about("the first refusal"));
    beside.operations(tally, &core, operations, &expected);
    let done = done_at(k, j, operations);
    if rust.outcome == Outcome::Committed {
        tally.same(done, operations_of(beside.length), || beside.about("how many operations"));
    }
    count(tally, rust.outcome, content.rows, done);
    (rust.outcome, core.region)
}

/// Lengths of data around the sizes of a page, a sector and a bank.
const LENGTHS: [usize; 13] = [
    255,
    256,
    257,
    4095,
    4096,
    4097,
    8192,
    CAPACITY - 4096,
    CAPACITY - 256,
    CAPACITY - 255,
    CAPACITY - 3,
    CAPACITY - 1,
    CAPACITY,
];

/// The region for a case: leftovers, and in some the first operations of an
/// update, the last of them in part.
pub fn found(random: &mut Random) -> Vec<u8> {
    let region = leftovers(random);
    if random.once_in(3) {
        let content = Content::random(random, false);
        let cut = Some(Cut { k: random.below(12), j: random.pick(&[0, 1, 3, WORD, 200, 1000]) });
        return Lifted::write(&region, &content, How { cut, ..COMMITTED }).region;
    }
    region
}

/// Short enough for this length, with a key and a table that can be made longer.
fn of_length(random: &mut Random, length: usize, rows: bool) -> Content {
    let mut content = Content::random(random, rows);
    if content.length() > length {
        content.key = if rows { Key::Picked(Selection::default()) } else { Key::Bytes(vec![1; 3]) };
        content.sources.truncate(1);
        content.sources[0].tables.truncate(1);
        content.sources[0].tables[0].1.clear();
    }
    content.stretch(random, length);
    content
}

/// The update of a case's turn: some have one of the lengths above.
fn next(random: &mut Random, case: &Case, turn: usize) -> Update {
    let rows = random.once_in(3);
    let special = case.number as usize % 16;
    let (content, how) = if turn == 3 && special < LENGTHS.len() {
        // A run goes byte by byte, so few of them fill a bank.
        let rows = rows && (LENGTHS[special] < 10_000 || random.once_in(8));
        (of_length(random, LENGTHS[special], rows), COMMITTED)
    } else {
        let how = How { abandoned: random.once_in(8), current: !random.once_in(10), cut: None };
        (Content::random(random, rows), how)
    };
    Update { content, how, pieces: random.u64() }
}

/// One update, and the seed of the pieces in which bytes are offered.
#[derive(Clone)]
struct Update {
    content: Content,
    how: How,
    pieces: u64,
}

impl Update {
    fn smaller(&self) -> Moves<'_, Self> {
        let contents = self.content.smaller().map(|content| Self { content, ..self.clone() });
        let whole = self.how.abandoned || !self.how.current;
        let how = whole.then(|| Self { how: COMMITTED, ..self.clone() });
        Box::new(contents.chain(how))
    }
    fn show(&self) -> Vec<String> {
        let mut lines = self.content.show();
        let How { abandoned, current, .. } = self.how;
        lines.push(format!("  abandoned {abandoned}, current {current}, pieces {}", self.pieces));
        lines
    }
}

/// An update that fills the bank, by the upper calls or the lower ones, drawn from
/// a seed.
#[derive(Clone, Copy)]
struct Filling {
    rows: bool,
    from: u64,
}

/// Updates one after another.
#[derive(Clone)]
pub struct Updates {
    found: Found,
    list: Vec<Update>,
    last: Option<Filling>,
}

impl Input for Updates {
    fn make(case: &Case) -> Self {
        let mut random = case.random();
        let found = Found::new(found(&mut random));
        let list = (0..5).map(|turn| next(&mut random, case, turn));
        let list = list.filter(|update| update.content.fits()).collect();
        let rows = case.number % 64 == 14;
        let last = rows || case.number % 16 == 13;
        let last = last.then(|| Filling { rows, from: random.u64() });
        Self { found, list, last }
    }
    fn compare(&self, tally: &mut Tally) {
        let mut region = self.found.0.to_vec();
        for Update { content, how, pieces } in &self.list {
            let mut random = Random::new(*pieces);
            region = write(tally, &mut random, &region, (content, *how)).1;
            Beside { length: content.length() }.load(tally, &region);
        }
        match self.last {
            Some(Filling { rows: true, from }) => {
                full::rows(tally, &mut Random::new(from), &region)
            }
            Some(Filling { from, .. }) => full::bytes(tally, &mut Random::new(from), &region),
            None => {}
        }
    }
    fn smaller(&self) -> Moves<'_, Self> {
        let last = self.last.map(|_| Self { last: None, ..self.clone() });
        let lists = fewer(&self.list).chain(each(&self.list, Update::smaller));
        let lists = lists.map(|list| Self { list, ..self.clone() });
        let found = self.found.smaller().map(|found| Self { found, ..self.clone() });
        Box::new(last.into_iter().chain(found).chain(lists))
    }
    fn show(&self) -> Vec<String> {
        let mut lines = self.found.show();
        lines.extend(self.list.iter().flat_map(Update::show));
        if let Some(Filling { rows, from }) = self.last {
            let layer = if rows { "upper" } else { "lower" };
            lines.push(format!("an update by the {layer} calls that fills the bank, from {from}"));
        }
        lines
    }
}

pub fn updates(_: &Plan, tally: &mut Tally) {
    let counted = [255, 257, CAPACITY].map(operations_of);
    tally.same(counted, [5, 6, 2026], || (vec![0], "document 01's numbers of operations".into()));
}
