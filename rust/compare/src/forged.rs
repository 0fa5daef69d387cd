//! Calls on forged states: the answer, the state and the whole region after each,
//! beside the definitions.
use crate::{
    run::{Case, Tally},
    shrink::{Input, Moves, each, fewer},
    stores::Found,
    update::{
        any::{any, apt, record, time},
        calls::Call,
        content::{NOW, leftovers},
        fields::*,
        flash::first_other,
        steps::Model,
    },
};
use bankcore::{
    banks::Picks,
    update::{Answer, State},
};
use common::{
    Random,
    made::{self, BANK, CAPACITY, REGION, SECTOR},
};

/// Numbers at and around the ends of the ranges, and large ones.
const EDGES: [u32; 34] = [
    0, 1, 2, 3, 4, 5, 6, 7, 8, 9, 118, 119, 120, 127, 128, 254, 255, 256, 257, 258, 512, 4092,
    4095, 4096, 4097, 487168, 487169, 487420, 487423, 487424, 487425, 487680, 491520, 983040,
];
const LARGE: [u32; 6] = [!0 >> 1, 1 << 31, !255, !3, !1, !0];

/// One of the edges, or a number close to what was there.
fn edge(random: &mut Random, old: u32) -> u32 {
    match random.below(10) {
        0 => old.wrapping_add(1),
        1 => old.wrapping_sub(1),
        2 => old ^ 1 << random.below(32),
        3 => old.wrapping_add(256),
        4 => random.pick(&LARGE),
        5 => random.u32(),
        _ => random.pick(&EDGES),
    }
}

/// Alters some of the fields.
fn alter(random: &mut Random, fields: &mut Fields) {
    for _ in 0..random.pick(&[1, 1, 1, 2, 3, 6]) {
        match random.below(12) {
            0 => fields.now = time(random),
            1 => fields.checked = time(random),
            2 => {
                let source = random.below(3);
                let at = random.pick(&[0, 4, 8, 12, 16, 84, 88, 96, 100, 180, 192, 272, 273, 335]);
                let old = lifted::cache::door::get(&fields.sources[source], at);
                lifted::cache::door::put(&mut fields.sources[source], at, edge(random, old));
            }
            3 => fields.tail[random.below(256)] ^= 1 << random.below(8),
            4 => fields.numbers[BEGUN] = random.u32() & random.u32(),
            _ => {
                let i = random.below(NUMBERS);
                fields.numbers[i] = edge(random, fields.numbers[i]);
            }
        }
    }
}

/// A state within its ranges that no list of calls need reach.
fn within(random: &mut Random) -> Fields {
    let mut f = Fields {
        numbers: std::array::from_fn(|_| random.u32()),
        checked: time(random),
        now: time(random),
        sources: std::array::from_fn(|_| record(random).try_into().unwrap()),
        tail: random.bytes(256).try_into().unwrap(),
    };
    let places = [0, 256, 3840, 4096, 8192, CAPACITY - 512, CAPACITY - 256];
    let some = 256 * random.below(1904);
    let written = if random.once_in(2) { some } else { random.pick(&places) };
    f.numbers[WRITTEN] = written as u32;
    f.numbers[FILL] = random.pick(&[0, 0, 1, 3, 4, 255, 256, 256, 256]);
    f.numbers[KIND] = random.below(2) as u32;
    f.numbers[NUMBER] = random.below(2) as u32;
    f.numbers[VERSION] = random.below(5) as u32;
    f.numbers[LENGTH] = random.pick(&[written as u32, 1000, 487_424, f.numbers[LENGTH]]);
    for flag in [COMPARING, DIFFERS, CLOSED] {
        f.numbers[flag] = random.pick(&[0, 0, 1, 1, 2, 1 << 31]);
    }
    f.numbers[SOURCES] = random.below(4) as u32;
    f.numbers[COUNT] = f.numbers[SOURCES];
    f.numbers[TABLE] = if random.once_in(2) { random.below(8) as u32 } else { 8 };
    f.numbers[START] = random.below(f.position() + 1) as u32;
    f.numbers[BEGUN] = random.pick(&[0, 0, 1, 254, 255, u32::MAX]);
    f.begin_due();
    if f.numbers[STAGE] == ERASE && random.once_in(2) {
        f.data_due();
    }
    if f.numbers[STAGE] == ERASE && random.once_in(2) {
        f.stage(WRITE, f.n(WRITTEN), f.n(FILL));
    }
    if f.n(FILL) == 0 && f.is(CLOSED) && !f.is(COMPARING) {
        f.stage(random.pick(&[IDLE, HEADED, COMMITTED]), random.below(9), random.below(9));
        f.numbers[WRITTEN] += random.below(256) as u32 * u32::from(written < CAPACITY);
    }
    fit(random, &mut f);
    f
}

/// Makes the state's bank one that can be committed or is unchanged, mostly.
fn fit(random: &mut Random, f: &mut Fields) {
    if random.once_in(3) {
        return;
    }
    let key = random.pick(&[1, 100, f.numbers[WRITTEN], f.numbers[WRITTEN].wrapping_sub(8)]);
    for source in &mut f.sources {
        lifted::cache::door::put(source, 84, key.wrapping_add(8));
        lifted::cache::door::put(source, 88, random.pick(&[0, 0, 1]));
    }
    f.numbers[KEY] = key;
    f.now = f.now.max(0);
}

/// Compared and closed, with a bank's own numbers, dates and blocks, whether or not
/// that bank is good.
fn matching(random: &mut Random, f: &mut Fields, region: &[u8]) {
    let get = lifted::cache::door::get;
    f.stage(IDLE, 0, 0);
    f.numbers[KIND] = 1;
    f.numbers[NUMBER] = random.below(2) as u32;
    f.numbers[VERSION] = random.below(5) as u32;
    (f.numbers[CLOSED], f.numbers[DIFFERS], f.numbers[FILL]) = (1, 0, 0);
    f.numbers[WRITTEN] %= CAPACITY as u32 + 1;
    f.numbers[LENGTH] = f.numbers[WRITTEN];
    (f.numbers[SOURCES], f.numbers[TABLE]) = (random.below(4) as u32, 8);
    f.numbers[COUNT] = f.numbers[SOURCES];
    let (size, tables) = made::layout(f.numbers[VERSION].max(1));
    for (i, source) in f.sources.iter_mut().enumerate() {
        let stored = &region[f.numbers[NUMBER] as usize * BANK + 48 + i * size..][..size];
        source[..8].copy_from_slice(&stored[..8]);
        source[84..180].fill(0);
        source[84..][..12 * tables].copy_from_slice(&stored[20 + 8 * tables..][..12 * tables]);
    }
    f.numbers[KEY] = get(&f.sources[0], 84).saturating_sub(8);
}

const ANSWERS: [&str; 5] =
    ["calls done", "calls took", "calls none due", "calls same", "calls different"];

/// What is done to a state and its region.
#[derive(Clone)]
enum Step {
    /// A beginning, comparing or not.
    Begin(bool),
    /// The state is replaced by this one.
    Put(Box<Fields>),
    Call(Call),
    /// Calls on the state and a region of n bytes.
    Short(usize, Vec<Call>),
}

impl Step {
    fn smaller(&self) -> Moves<'_, Self> {
        match self {
            Self::Begin(true) => Box::new([Self::Begin(false)].into_iter()),
            Self::Begin(false) => Box::new(std::iter::empty()),
            Self::Put(fields) => Box::new(fields.smaller().map(|f| Self::Put(Box::new(f)))),
            Self::Call(call) => Box::new(call.smaller().map(Self::Call)),
            Self::Short(size, calls) => {
                let calls = fewer(calls).chain(each(calls, Call::smaller));
                Box::new(calls.map(|calls| Self::Short(*size, calls)))
            }
        }
    }
    fn show(&self) -> String {
        match self {
            Self::Begin(comparing) => format!("begin, comparing {comparing}"),
            Self::Put(fields) => format!("state: {}", fields.show()),
            Self::Call(call) => call.show(),
            Self::Short(size, calls) => {
                let calls: Vec<String> = calls.iter().map(Call::show).collect();
                format!("on a region of {size} bytes: two beginnings, {}", calls.join(", "))
            }
        }
    }
}

struct Forged {
    state: State,
    region: Vec<u8>,
    model: Model,
}

impl Forged {
    fn of(state: State, region: Vec<u8>) -> Self {
        let model = Model { fields: Fields::of(&state), region: region.clone() };
        Self { state, region, model }
    }
    fn step(&mut self, tally: &mut Tally, step: &Step) {
        match step {
            Step::Begin(comparing) => {
                let (state, _) = State::new(&self.region, *comparing, NOW);
                self.set(Fields::of(&state));
            }
            Step::Put(fields) => self.set((**fields).clone()),
            Step::Call(call) => {
                let answer = self.call(tally, call);
                match answer.refusal {
                    0 => tally.count(ANSWERS[answer.answer as usize % 5], 1),
                    refusal => tally.refused(refusal),
                }
            }
            Step::Short(size, calls) => self.short_region(tally, *size, calls),
        }
    }
    /// One call on both.
    fn call(&mut self, tally: &mut Tally, call: &Call) -> Answer {
        let before = (self.state, self.model.fields.clone());
        let answer = call.make(&mut self.state, &mut self.region);
        let model = self.model.call(call);
        let about = |what: &str| {
            let shown = call.show().chars().take(60).collect::<String>();
            let (numbers, now) = (&before.1.numbers, before.1.now);
            (vec![0], format!("{what} of {shown} on {numbers:?}, now {now}"))
        };
        tally.same(answer, model, || about("the answer"));
        if answer.refusal != 0 {
            tally.same(self.state == before.0, true, || about("the state, refused,"));
        } else {
            let after = Fields::of(&self.state);
            let other = first_other(&after.numbers, &self.model.fields.numbers);
            tally.same(other, None, || about("a number of the state"));
            tally.same(after == self.model.fields, true, || about("the state"));
        }
        let other = first_other(&self.region, &self.model.region);
        tally.same(other, None, || about("the region"));
        answer
    }
    fn set(&mut self, fields: Fields) {
        self.state = fields.state();
        self.model.fields = fields;
    }
    /// The region's length is wrong: refusal 1 before all others, and nothing
    /// changes.
    fn short_region(&self, tally: &mut Tally, size: usize, calls: &[Call]) {
        let (mut begun, mut region) = (self.state, vec![85; size]);
        let picks = Picks { texts: &[], lengths: &[] };
        let lower = begun.begin(&region, false, 0).refusal;
        let upper = begun.upper_begin(&mut region, false, 0, &[], picks).refusal;
        let stays = begun == self.state && region == vec![85; size];
        let about = || (vec![0], format!("a beginning on a region of {size} bytes"));
        tally.same((lower, upper, stays), (1, 1, true), about);
        let mut forged = Self::of(self.state, vec![85; size]);
        for call in calls {
            forged.call(tally, call);
        }
    }
}

/// Draws steps, and does each as it is drawn.
struct Drawing<'a> {
    random: Random,
    forged: Forged,
    steps: Vec<Step>,
    tally: &'a mut Tally,
}

impl Drawing<'_> {
    fn step(&mut self, step: Step) {
        self.forged.step(self.tally, &step);
        self.steps.push(step);
    }
    fn alter(&mut self) {
        let mut fields = self.forged.model.fields.clone();
        alter(&mut self.random, &mut fields);
        self.step(Step::Put(Box::new(fields)));
    }
    /// A beginning and some calls.
    fn reach(&mut self) {
        let comparing = self.random.once_in(3);
        self.step(Step::Begin(comparing));
        for _ in 0..self.random.below(30) {
            let call = apt(&mut self.random, &self.forged.model.fields);
            self.step(Step::Call(call));
        }
        self.alter();
    }
    fn forge(&mut self) {
        let random = &mut self.random;
        let mut fields = match random.below(12) {
            0 => Fields::random(random),
            _ => within(random),
        };
        if fields.is(COMPARING) && random.once_in(2) {
            matching(random, &mut fields, &self.forged.region);
        }
        if random.once_in(3) {
            alter(random, &mut fields);
        }
        self.step(Step::Put(Box::new(fields)));
    }
    /// Forges a state, and makes some calls on it.
    fn round(&mut self) {
        if self.random.once_in(4) {
            self.reach();
        } else {
            self.forge();
        }
        let inside = self.forged.model.fields.in_range();
        self.tally.count("forged states", 1);
        self.tally.count("within their ranges", usize::from(inside));
        for _ in 0..1 + self.random.below(8) {
            let call = match self.random.below(3) {
                0 => any(&mut self.random),
                _ => apt(&mut self.random, &self.forged.model.fields),
            };
            self.step(Step::Call(call));
            if self.random.once_in(12) {
                self.alter();
            }
        }
        if self.random.once_in(10) {
            let size = self.random.pick(&[0, 1, SECTOR, REGION - 1, REGION + 1]);
            let calls = (0..4).map(|_| any(&mut self.random)).collect();
            self.step(Step::Short(size, calls));
        }
    }
}

/// How many states a case forges.
const STATES: usize = 40;

/// Steps on a state that has begun on a region.
#[derive(Clone)]
pub struct Steps {
    found: Found,
    comparing: bool,
    now: i64,
    list: Vec<Step>,
}

impl Input for Steps {
    fn make(case: &Case) -> Self {
        Self::tried(case, &mut Tally::default())
    }
    fn compare(&self, tally: &mut Tally) {
        let (state, _) = State::new(&self.found.0, self.comparing, self.now);
        let mut forged = Forged::of(state, self.found.0.to_vec());
        self.list.iter().for_each(|step| forged.step(tally, step));
    }
    fn smaller(&self) -> Moves<'_, Self> {
        let found = self.found.smaller().map(|found| Self { found, ..self.clone() });
        let lists = fewer(&self.list).chain(each(&self.list, Step::smaller));
        let lists = lists.map(|list| Self { list, ..self.clone() });
        let plain = self.comparing || self.now != 0;
        let plain = plain.then(|| Self { comparing: false, now: 0, ..self.clone() });
        Box::new(found.chain(plain).chain(lists))
    }
    fn show(&self) -> Vec<String> {
        let mut lines = self.found.show();
        lines.push(format!("begin, comparing {}, now {}", self.comparing, self.now));
        lines.extend(self.list.iter().map(Step::show));
        lines
    }
    fn tried(case: &Case, tally: &mut Tally) -> Self {
        let mut random = case.random();
        let region = leftovers(&mut random);
        let found = Found::new(region.clone());
        let (comparing, now) = (random.once_in(3), time(&mut random));
        let (state, _) = State::new(&region, comparing, now);
        let forged = Forged::of(state, region);
        let mut drawing = Drawing { random, forged, steps: Vec::new(), tally };
        for _ in 0..STATES {
            drawing.round();
        }
        Self { found, comparing, now, list: drawing.steps }
    }
}
