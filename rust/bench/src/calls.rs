//! Single calls of an update and on a bank, the core alone. Each starts from the
//! same state, so a call's time includes a copy of the state.
use crate::{
    line::Line,
    updates::{self, DATES, NOW},
};
use bankcore::{
    banks::{self, Picks},
    rows::Values,
    update::{Answer, NONE_DUE, State},
};
use std::cell::RefCell;

struct Case {
    state: State,
    record: [u8; 384],
    bytes: [u8; 256],
    texts: Vec<u8>,
    lengths: Vec<u32>,
    region: RefCell<Vec<u8>>,
}

impl Case {
    /// A call on a copy of the state; its refusal.
    fn on(&self, run: impl FnOnce(&mut State, &mut [u8]) -> Answer) -> u32 {
        let mut state = self.state;
        run(&mut state, &mut self.region.borrow_mut()).refusal
    }
    fn read<T>(&self, run: impl FnOnce(&[u8]) -> T) -> T {
        run(&self.region.borrow())
    }
}

/// States before calls.
struct States {
    begun: State,
    first: State,
    sourced: State,
    open: State,
    write: State,
    ended: State,
    closed: State,
    headed: State,
    compared: State,
}

fn flush(state: &mut State, region: &mut [u8]) {
    while state.due(region).answer != NONE_DUE {}
}

/// The state after some calls on it.
fn after(state: State, calls: impl FnOnce(&mut State)) -> State {
    let mut state = state;
    calls(&mut state);
    state
}

impl States {
    /// On a region with a good bank, which is overwritten.
    fn new(case: &updates::Case) -> Self {
        let region = &mut case.region.borrow().clone()[..];
        let begun = State::new(region, false, NOW).0;
        // nothing is written yet: the header sector's erase is due
        let first = after(begun, |s| while s.append(&[7; 256]).count > 0 {});
        // an empty tail, and no erase before the next write
        let written = after(first, |s| flush(s, region));
        let sourced = after(written, |s| _ = s.source(&case.record));
        let open = after(sourced, |s| _ = s.table(0));
        let write = after(open, |s| while s.append(&[7; 256]).count > 0 {});
        let ended = after(open, |s| _ = (s.append(&[7; 8]), s.end()));
        let closed = updates::core::appended(case, region, false);
        let headed = after(closed, |s| _ = s.commit(region, None, true));
        let compared = updates::core::appended(case, &mut case.region.borrow_mut(), true);
        Self { begun, first, sourced, open, write, ended, closed, headed, compared }
    }
}

type Run = fn(&Case) -> u32;
type Before = fn(&States) -> State;

const CALLS: [(&str, Before, Run); 24] = [
    ("header", |s| s.begun, |c| c.read(|r| banks::header(r, 0).refusal)),
    ("source", |s| s.begun, |c| c.read(|r| banks::source(r, 0, 0, &mut [0; 384]))),
    (
        "freshness",
        |s| s.begun,
        |c| {
            let days = [DATES[0], DATES[0] + 1, DATES[1]];
            c.read(|r| banks::fresh(r, 0, days, [true; 3], NOW).refusal)
        },
    ),
    ("checking begun", |s| s.begun, |c| c.read(|r| banks::check_start(r, 0).refusal)),
    (
        "checking turn, 4,096 bytes",
        |s| s.begun,
        |c| c.read(|r| banks::check_turn(r, 0, 0, 0, 4096).refusal),
    ),
    (
        "a bank's row",
        |s| s.begun,
        |c| {
            let (mut out, mut ends) = ([0; 512], [0; 16]);
            c.read(|r| banks::bank_row(r, 0, 0, 0, 0, &mut out, &mut ends).refusal)
        },
    ),
    ("update: begin, a full bank there", |s| s.begun, |c| c.on(|s, r| s.begin(r, false, NOW))),
    ("update: source", |s| s.begun, |c| c.on(|s, _| s.source(&c.record))),
    ("update: table", |s| s.sourced, |c| c.on(|s, _| s.table(0))),
    ("update: bytes, 16", |s| s.open, |c| c.on(|s, _| s.append(&c.bytes[..16]))),
    ("update: bytes, 256", |s| s.open, |c| c.on(|s, _| s.append(&c.bytes))),
    ("update: due, an erase", |s| s.first, |c| c.on(|s, r| s.due(r))),
    ("update: due, a write", |s| s.write, |c| c.on(|s, r| s.due(r))),
    ("update: table end", |s| s.open, |c| c.on(|s, _| s.end())),
    ("update: close", |s| s.ended, |c| c.on(|s, _| s.close())),
    ("update: unchanged", |s| s.compared, |c| c.on(|s, r| s.unchanged(r))),
    ("update: commit", |s| s.closed, |c| c.on(|s, r| s.commit(r, None, true))),
    ("update: commit word", |s| s.headed, |c| c.on(|s, r| s.commit_word(r))),
    (
        "update by rows: begin, a full bank there",
        |s| s.begun,
        |c| {
            let picks = Picks { texts: b"7rsn", lengths: &[1, 1, 0, 1, 1] };
            c.on(|s, r| s.upper_begin(r, false, NOW, b"identity", picks))
        },
    ),
    ("update by rows: source", |s| s.begun, |c| c.on(|s, r| s.upper_source(r, &c.record))),
    ("update by rows: table", |s| s.sourced, |c| c.on(|s, r| s.upper_table(r, 0))),
    (
        "update by rows: row",
        |s| s.open,
        |c| {
            let values = Values { texts: &c.texts, lengths: &c.lengths };
            c.on(|s, r| s.upper_row(r, values))
        },
    ),
    ("update by rows: table end", |s| s.open, |c| c.on(|s, r| s.upper_end(r))),
    ("update by rows: close", |s| s.ended, |c| c.on(|s, r| s.upper_close(r))),
];

/// A refused call isn't timed.
fn line(name: &str, run: Run, case: &Case, rounds: usize) -> Line {
    let line = Line::new(name, "", None);
    if run(case) == 0 { line.timed([run], case, rounds, 1) } else { line }
}

pub fn lines(rounds: usize) -> Vec<Line> {
    let update = updates::Case::new();
    updates::core::by_bytes(&update);
    let states = States::new(&update);
    let row = &update.tables[0].rows[0];
    let line = |(name, before, run): (&str, Before, Run)| {
        let case = Case {
            state: before(&states),
            record: update.record,
            bytes: [7; 256],
            texts: row.texts.clone(),
            lengths: row.lengths.clone(),
            region: update.region.clone(),
        };
        let rounds = if name.contains("full") { rounds / 10 } else { rounds };
        line(name, run, &case, rounds)
    };
    CALLS.map(line).into()
}
