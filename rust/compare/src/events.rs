//! Random calls with cuts, beside demand 3's history: after each, load's answer,
//! the held bank's records, its bytes and its data.
use crate::{
    keys::Selection,
    rows::columns,
    run::{Case, Tally},
    shrink::{Input, Moves, each, fewer},
    stores::Found,
    update::{
        any::{any, row},
        calls::Call,
        content::{NOW, fields},
        cut::Cut,
        fields::{ERASE, Fields, HEADED, IDLE, STAGE, WRITE},
        flash::{cut_at, done_at, first_other},
        history::History,
        upper::Upper,
    },
    updates::found,
};
use bankcore::{
    answers::BankAnswer,
    banks,
    update::{Answer, NONE_DUE, State},
};
use common::{
    Random,
    made::{BANK, SECTOR},
    picks::picks,
};
use lifted::standins::flash::Operation;

/// What the calls so far allow, so that most updates are finished.
#[derive(Clone, Default)]
struct Turn {
    comparing: bool,
    /// Whether upper calls are made if they can be.
    rows: bool,
    /// How many bytes were appended, and how many more are wanted.
    appended: usize,
    left: usize,
    sources: usize,
    open: Option<u32>,
    begun: Vec<u32>,
    closed: bool,
    flushed: bool,
    headed: bool,
    /// Committed, refused or compared.
    over: bool,
}

impl Turn {
    fn new(random: &mut Random, comparing: bool) -> Self {
        let left = match random.below(60) {
            0 => 40_000,
            1 => 8_000,
            _ => random.pick(&[0, 60, 200, 256, 300, 700, 1500]),
        };
        let rows = !random.once_in(3);
        let left = if rows { 3 * left } else { left };
        Self { comparing, left, rows, ..Self::default() }
    }
    /// A call that is in order.
    fn next(&self, random: &mut Random) -> Call {
        if self.closed {
            return match (self.flushed, self.headed, self.comparing) {
                (_, true, _) => Call::Word,
                (false, ..) => Call::Due,
                (true, _, true) => Call::Unchanged,
                (true, _, false) => {
                    let stamp = random.pick(&[None, Some(NOW - 1), Some(NOW + 9)]);
                    Call::Commit(stamp, !random.once_in(20))
                }
            };
        }
        match random.below(10) {
            0..4 => Call::Due,
            4..8 if self.left > 0 => {
                let size = random.pick(&[1, 30, 200, 256, 300, 1000]).min(self.left);
                Call::Bytes(random.bytes(size))
            }
            // a key, and a source's dates
            _ if self.begun.is_empty() && self.appended < 9 && !random.once_in(20) => {
                let size = random.pick(&[9, 20, 100]);
                Call::Bytes(random.bytes(size))
            }
            _ => self.note(random),
        }
    }
    /// A source, a table, its end, or closing.
    fn note(&self, random: &mut Random) -> Call {
        if self.open.is_some() {
            return Call::End;
        }
        if self.sources == 1 && self.begun.is_empty() {
            return Call::Table(0);
        }
        if self.sources == 0 || (self.sources < 3 && random.once_in(4)) {
            let mut record = [0; 384];
            fields(random).encode(&mut record);
            return Call::Source(record.to_vec());
        }
        if self.left == 0 && random.once_in(2) {
            return Call::Close;
        }
        Call::Table(random.below(8) as u32)
    }
    /// The upper call for a lower one.
    fn upper(&self, random: &mut Random, call: Call) -> Call {
        match (call, self.open) {
            (Call::Source(record), _) => Call::SourceWithDates(record),
            (Call::Table(table), _) => Call::TableWithNames(table),
            (Call::End, _) => Call::TableEnd,
            (Call::Close, _) => Call::Closing,
            (Call::Bytes(_) | Call::Due, Some(table)) => row(random, columns(table as usize % 8)),
            (other, _) => other,
        }
    }
    fn append(&mut self, count: usize) {
        self.appended += count;
        self.left = self.left.saturating_sub(count);
    }
    fn after(&mut self, call: &Call, answer: Answer) {
        if answer.refusal != 0 {
            self.over |= answer.refusal >= 12;
            return;
        }
        self.flushed = answer.answer == NONE_DUE || call.is_upper();
        if call.is_upper() {
            self.append(call.appended().len());
        }
        match call {
            Call::Source(_) | Call::SourceWithDates(_) => {
                self.sources += 1;
                self.begun.clear();
            }
            Call::Table(table) | Call::TableWithNames(table) => {
                self.open = Some(*table);
                self.begun.push(*table);
            }
            Call::Bytes(_) => self.append(answer.count as usize),
            Call::End | Call::TableEnd => self.open = None,
            Call::Close | Call::Closing => self.closed = true,
            Call::Commit(..) => self.headed = true,
            Call::Word | Call::Unchanged => self.over = true,
            _ => {}
        }
    }
}

/// A beginning: lower, or with the key of a selection; whole or cut.
#[derive(Clone)]
struct Begin {
    comparing: bool,
    now: i64,
    key: Option<Selection>,
    cut: Option<Cut>,
}

/// What happens to the board.
#[derive(Clone)]
enum Event {
    Begin(Begin),
    Call(Call),
    Cut(Call, Cut),
}

impl Begin {
    fn random(random: &mut Random) -> Self {
        let now = if random.once_in(30) { 0 } else { NOW + random.below(9) as i64 };
        let comparing = random.once_in(12);
        let key = random.once_in(2).then(|| {
            let long = if random.once_in(20) { 65_536 } else { 2 };
            let size = random.pick(&[0, 1, 20, 300, 1000, long]);
            let count = if random.once_in(20) { 17 } else { random.below(6) };
            Selection::of(&random.bytes(size), &picks(random, count, true))
        });
        Self { comparing, now, key, cut: None }
    }
    fn smaller(&self) -> Moves<'_, Self> {
        let keys = self.key.iter().flat_map(Selection::smaller);
        let keys = keys.map(|key| Self { key: Some(key), ..self.clone() });
        let whole = self.cut.map(|_| Self { cut: None, ..self.clone() });
        let cuts = self.cut.into_iter().flat_map(Cut::smaller);
        let cuts = cuts.map(|cut| Self { cut: Some(cut), ..self.clone() });
        let writing = self.comparing.then(|| Self { comparing: false, ..self.clone() });
        Box::new(whole.into_iter().chain(writing).chain(keys).chain(cuts))
    }
    fn show(&self) -> String {
        let Self { comparing, now, .. } = self;
        let key = self.key.as_ref().map_or("".into(), |key| format!(", key of {}", key.show()));
        let cut = self.cut.map_or("".into(), |cut| format!(", {}", cut.show()));
        format!("begin, comparing {comparing}, now {now}{key}{cut}")
    }
}

impl Event {
    fn smaller(&self) -> Moves<'_, Self> {
        match self {
            Self::Begin(begin) => Box::new(begin.smaller().map(Self::Begin)),
            Self::Call(call) => Box::new(call.smaller().map(Self::Call)),
            Self::Cut(call, cut) => {
                let whole = std::iter::once(Self::Call(call.clone()));
                let calls = call.smaller().map(|call| Self::Cut(call, *cut));
                let cuts = cut.smaller().map(|cut| Self::Cut(call.clone(), cut));
                Box::new(whole.chain(calls).chain(cuts))
            }
        }
    }
    fn show(&self) -> String {
        match self {
            Self::Begin(begin) => begin.show(),
            Self::Call(call) => call.show(),
            Self::Cut(call, cut) => format!("{}, {}", call.show(), cut.show()),
        }
    }
}

/// The board, and the history beside it.
struct Board {
    region: Vec<u8>,
    state: Option<State>,
    history: History,
    /// The held bank's bytes, as found or as the commit word left them.
    image: Vec<u8>,
    events: usize,
    /// Whether a cut call did another operation than those of its run.
    strayed: bool,
    /// The first upper call that differed from its run.
    apart: Option<String>,
}

fn bank_of(region: &[u8], held: &BankAnswer) -> Vec<u8> {
    match held.found {
        1 => region[held.number as usize * BANK..][..BANK].to_vec(),
        _ => Vec::new(),
    }
}

fn records(region: &[u8], held: &BankAnswer) -> Vec<[u8; 384]> {
    let record = |i| {
        let mut record = [0; 384];
        banks::source(region, held.number, i, &mut record);
        record
    };
    (0..held.count).map(record).collect()
}

impl Board {
    fn new(region: &[u8]) -> Self {
        let held = banks::load(region);
        let history = History::new(held, records(region, &held));
        let image = bank_of(region, &held);
        let region = region.to_vec();
        Self { region, state: None, history, image, events: 0, strayed: false, apart: None }
    }
    /// A beginning; how many bytes it appended, if it is answered.
    fn begin(&mut self, tally: &mut Tally, begin: &Begin) -> Option<usize> {
        let Begin { comparing, now, key, cut } = begin;
        if let Some(selection) = key {
            return self.begin_with_key(tally, begin, selection);
        }
        if let Some(cut) = cut {
            self.lose(tally, None, *cut, &[]);
            return None;
        }
        let (state, answer) = State::new(&self.region, *comparing, *now);
        self.history.begin(*now, &[], answer);
        self.state = Some(state);
        tally.count("updates begun", 1);
        Some(0)
    }
    fn begin_with_key(
        &mut self,
        tally: &mut Tally,
        begin: &Begin,
        selection: &Selection,
    ) -> Option<usize> {
        let Begin { comparing, now, cut, .. } = begin;
        let (upper, answer) = Upper::begin(&self.region, (*comparing, *now), selection, None);
        self.apart = self.apart.take().or(upper.apart);
        if let Some(cut) = cut {
            self.strayed |= upper.run.region != upper.run.shadow;
            self.lose(tally, None, *cut, &upper.run.operations);
            return None;
        }
        self.region = upper.region;
        let key = selection.key().unwrap_or_default();
        self.history.begin(*now, &key, answer);
        tally.refused(answer.refusal);
        if answer.refusal != 0 {
            return None;
        }
        self.state = Some(upper.state);
        tally.count("updates begun", 1);
        Some(key.len())
    }
    /// The supply fails in a call that does these operations. `None` is a beginning.
    fn lose(&mut self, tally: &mut Tally, call: Option<&Call>, cut: Cut, operations: &[Operation]) {
        let Cut { k, j } = cut;
        let done = done_at(k, j, operations);
        self.state = None;
        self.region = cut_at(k, j, operations, std::mem::take(&mut self.region));
        self.history.cut(call, done);
        if matches!(call, Some(Call::Word)) && done > 0 {
            self.image = bank_of(&self.region, &self.history.held);
        }
        cut.count(tally, operations);
        let begun = done > 0 || cut.inside(operations).is_some();
        let within = begun && call.is_none_or(Call::is_upper);
        tally.count("cuts inside an upper call", usize::from(within));
    }
    /// A call, whole; an upper one beside its run.
    fn call(&mut self, tally: &mut Tally, call: &Call) -> Option<Answer> {
        let state = self.state.as_mut()?;
        let answer = if call.is_upper() {
            let mut upper = Upper::of(*state, &self.region);
            let answer = upper.call(call);
            self.apart = self.apart.take().or(upper.apart);
            (*state, self.region) = (upper.state, upper.region);
            tally.count("upper calls", 1);
            answer
        } else {
            call.make(state, &mut self.region)
        };
        self.history.call(call, answer);
        tally.refused(answer.refusal);
        if matches!(call, Call::Word) && answer.refusal == 0 {
            tally.count("updates committed", 1);
            self.image = bank_of(&self.region, &self.history.held);
        }
        Some(answer)
    }
    /// What a call would do.
    fn whole(&self, call: &Call) -> Option<Upper> {
        let mut upper = Upper::of(self.state?, &self.region);
        upper.call(call);
        Some(upper)
    }
    /// A call that is cut.
    fn cut(&mut self, tally: &mut Tally, call: &Call, cut: Cut) {
        let Some(upper) = self.whole(call) else { return };
        self.apart = self.apart.take().or(upper.apart);
        self.strayed |= upper.run.region != upper.run.shadow;
        self.lose(tally, Some(call), cut, &upper.run.operations);
    }
    /// A cut of a call, drawn from the operations that it would do.
    fn any_cut(&self, random: &mut Random, call: &Call) -> Cut {
        let operations = self.whole(call).map_or(Vec::new(), |upper| upper.run.operations);
        Cut::random(random, &operations)
    }
    /// A cut of a beginning, drawn in the same way.
    fn any_begin_cut(&self, random: &mut Random, begin: &Begin) -> Cut {
        let mode = (begin.comparing, begin.now);
        let whole = |key| Upper::begin(&self.region, mode, key, None).0.run.operations;
        Cut::random(random, &begin.key.as_ref().map_or(Vec::new(), whole))
    }
    fn check(&self, tally: &mut Tally, event: &Event) {
        let about = |what: &str| {
            let shown: String = event.show().chars().take(60).collect();
            (vec![self.events as u64], format!("{what} after event {}, {shown}", self.events))
        };
        tally.same(self.strayed, false, || about("another operation than the one due"));
        tally.same(self.apart.as_deref(), None, || about("an upper call that isn't its run"));
        let held = banks::load(&self.region);
        tally.same(held, self.history.held, || about("load"));
        let other = first_other(&records(&self.region, &held), &self.history.records);
        tally.same(other, None, || about("a record"));
        let bank = match held.found {
            1 => &self.region[held.number as usize * BANK..][..BANK],
            _ => &[],
        };
        tally.same(first_other(bank, &self.image), None, || about("the bank's bytes"));
        if let Some(given) = &self.history.given {
            let data = self.image.get(SECTOR..SECTOR + given.len()).unwrap_or_default();
            tally.same(first_other(data, given), None, || about("the data"));
        }
    }
    /// One event, and what it leaves.
    fn event(&mut self, tally: &mut Tally, event: &Event) -> After {
        self.events += 1;
        tally.count("calls", 1);
        let after = match event {
            Event::Begin(begin) => After::Begun(self.begin(tally, begin)),
            Event::Call(call) => After::Answered(self.call(tally, call)),
            Event::Cut(call, cut) => {
                self.cut(tally, call, *cut);
                After::Answered(None)
            }
        };
        self.check(tally, event);
        after
    }
}

/// The result of an event: a beginning that appended n bytes, or a call's answer.
enum After {
    Begun(Option<usize>),
    Answered(Option<Answer>),
}

/// Once in how many times a call is cut: more often if it does an operation.
fn cut_once_in(board: &Board, call: &Call) -> usize {
    let stage = board.state.map_or(IDLE, |state| Fields::of(&state).numbers[STAGE]);
    match (call, stage) {
        (Call::Word, HEADED) => 6,
        (Call::Commit(..), IDLE) => 12,
        (Call::Due, ERASE) => 15,
        (Call::Due, WRITE) => 40,
        _ if call.is_upper() => 25,
        _ => 90,
    }
}

/// Draws the next event, by what the calls so far allow.
fn draw(random: &mut Random, board: &Board, turn: &Turn) -> Event {
    let over = board.state.is_none() || turn.over && random.once_in(3) || random.once_in(400);
    if over {
        let begin = Begin::random(random);
        let cut = random.once_in(30).then(|| board.any_begin_cut(random, &begin));
        return Event::Begin(Begin { cut, ..begin });
    }
    let mut call = if random.once_in(16) { any(random) } else { turn.next(random) };
    if turn.rows && !random.once_in(4) {
        call = turn.upper(random, call);
    }
    match random.once_in(cut_once_in(board, &call)) {
        true => {
            let cut = board.any_cut(random, &call);
            Event::Cut(call, cut)
        }
        false => Event::Call(call),
    }
}

/// How many calls a case has.
const CALLS: usize = 500;

/// A list of calls and cuts, on some region.
#[derive(Clone)]
pub struct Events {
    found: Found,
    list: Vec<Event>,
}

impl Input for Events {
    fn make(case: &Case) -> Self {
        Self::tried(case, &mut Tally::default())
    }
    fn compare(&self, tally: &mut Tally) {
        let mut board = Board::new(&self.found.0);
        for event in &self.list {
            board.event(tally, event);
        }
    }
    fn smaller(&self) -> Moves<'_, Self> {
        let found = self.found.smaller().map(|found| Self { found, ..self.clone() });
        let lists = fewer(&self.list).chain(each(&self.list, Event::smaller));
        Box::new(lists.map(|list| Self { list, ..self.clone() }).chain(found))
    }
    fn show(&self) -> Vec<String> {
        let mut lines = self.found.show();
        lines.extend(self.list.iter().map(Event::show));
        lines
    }
    fn tried(case: &Case, tally: &mut Tally) -> Self {
        let mut random = case.random();
        let found = Found::new(found(&mut random));
        let (mut board, mut turn) = (Board::new(&found.0), Turn::default());
        let mut list = Vec::new();
        for _ in 0..CALLS {
            let event = draw(&mut random, &board, &turn);
            match (&event, board.event(tally, &event)) {
                (Event::Begin(begin), After::Begun(Some(appended))) => {
                    turn = Turn { appended, ..Turn::new(&mut random, begin.comparing) };
                }
                (Event::Call(call), After::Answered(Some(answer))) => turn.after(call, answer),
                _ => {}
            }
            list.push(event);
        }
        Self { found, list }
    }
}
