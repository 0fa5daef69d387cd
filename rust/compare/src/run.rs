//! What a part is run with, its count, and its cases one after another.
use crate::shrink::{Input, smallest};
use common::Random;
use std::{
    cell::{Cell, RefCell},
    collections::BTreeMap,
    fmt::Debug,
    io::{IsTerminal, Write, stderr},
    ops::Range,
    panic,
    time::{Duration, Instant},
};

/// How many differing inputs are shown, smallest first.
const SHOWN: usize = 5;
/// How long the smallest form of a part's case is searched for; a test waits for
/// it.
const SEARCH: Duration = Duration::from_secs(if cfg!(test) { 600 } else { 20 });

/// What is asked for.
#[derive(Clone, Default)]
pub struct Plan {
    pub seed: u64,
    pub quick: bool,
    pub cases: Option<u64>,
    pub case: Option<u64>,
    pub minutes: Option<f64>,
}

/// One of a part's cases. Its random numbers depend on nothing else, so that it can
/// be run alone.
pub struct Case {
    pub seed: u64,
    pub number: u64,
}

impl Case {
    pub fn random(&self) -> Random {
        let apart = self.number.wrapping_mul(0xd134_2543_de82_ef95);
        Random::new(Random::new(self.seed.wrapping_add(apart)).u64())
    }
}

/// A list of questions from a case's random numbers.
pub fn drawn<T>(case: &Case, count: usize, mut one: impl FnMut(&mut Random) -> T) -> Vec<T> {
    let mut random = case.random();
    (0..count).map(|_| one(&mut random)).collect()
}

/// The count of one part.
#[derive(Default)]
pub struct Tally {
    pub cases: u64,
    pub compared: u64,
    pub differ: u64,
    /// The case that is running.
    case: Option<u64>,
    smallest: BTreeMap<(Vec<u64>, u64), String>,
    /// What the inputs were, if the number of answers doesn't say it.
    counts: Vec<(&'static str, u64)>,
    /// The first differing case in its smallest form.
    pub form: Vec<String>,
}

impl Tally {
    /// Compares two answers. `input` is the input as numbers, for sorting, and as
    /// text; it is made only if the answers differ.
    #[inline]
    pub fn same<T: PartialEq + Debug>(
        &mut self,
        core: T,
        rust: T,
        input: impl FnOnce() -> (Vec<u64>, String),
    ) {
        self.compared += 1;
        if core != rust {
            let (order, text) = input();
            let answers = format!("the core has {}, the Rust {}", short(&core), short(&rust));
            self.different(order, format!("{text}: {answers}"));
        }
    }

    #[cold]
    fn different(&mut self, order: Vec<u64>, text: String) {
        self.differ += 1;
        let text = match self.case {
            Some(number) => format!("case {number}: {text}"),
            None => text,
        };
        self.smallest.insert((order, self.differ), text);
        if self.smallest.len() > SHOWN {
            self.smallest.pop_last();
        }
    }
    /// The comparison itself stopped early.
    pub fn stopped(&mut self, text: &str) {
        self.compared += 1;
        self.different(Vec::new(), format!("stopped: {text}"));
    }
    pub fn count(&mut self, what: &'static str, more: usize) {
        match self.counts.iter_mut().find(|(name, _)| *name == what) {
            Some((_, n)) => *n += more as u64,
            None => self.counts.push((what, more as u64)),
        }
    }
    /// One more refusal with this number.
    pub fn refused(&mut self, refusal: u32) {
        self.count(REFUSED[(refusal as usize).min(15)], 1);
    }
    /// Differing inputs, smallest first.
    pub fn texts(&self) -> Vec<String> {
        self.smallest.values().cloned().collect()
    }
    pub fn note(&self) -> String {
        self.counts.iter().map(|(what, n)| format!("{n} {what}")).collect::<Vec<_>>().join(", ")
    }
}

const REFUSED: [&str; 16] = [
    "answered",
    "refused by 1",
    "refused by 2",
    "refused by 3",
    "refused by 4",
    "refused by 5",
    "refused by 6",
    "refused by 7",
    "refused by 8",
    "refused by 9",
    "refused by 10",
    "refused by 11",
    "refused by 12",
    "refused by 13",
    "refused by 14",
    "refused by another number",
];

/// An answer as text; long ones are cut.
fn short(answer: &impl Debug) -> String {
    let text = format!("{answer:?}");
    match text.char_indices().nth(400) {
        Some((at, _)) => format!("{}..", &text[..at]),
        None => text,
    }
}

thread_local! {
    static QUIET: Cell<bool> = const { Cell::new(false) };
    static SAID: RefCell<String> = const { RefCell::new(String::new()) };
}

/// Lets `quietly` keep a panic's message.
pub fn listen() {
    let usual = panic::take_hook();
    panic::set_hook(Box::new(move |said| match QUIET.get() {
        true => SAID.set(said.to_string().replace('\n', " ")),
        false => usual(said),
    }));
}

/// Runs what may panic, printing nothing; the panic's message if it did.
pub fn quietly<T>(run: impl FnOnce() -> T) -> Result<T, String> {
    let before = QUIET.replace(true);
    let done = panic::catch_unwind(panic::AssertUnwindSafe(run));
    QUIET.set(before);
    done.map_err(|_| SAID.take())
}

/// Shows the progress on a terminal; nothing in a pipe.
pub fn progress(text: &str) {
    if stderr().is_terminal() {
        eprint!("\r\x1b[K{text}");
        let _ = stderr().flush();
    }
}

/// The cases that a part is to run.
pub struct Run<'a> {
    pub part: &'a str,
    pub seed: u64,
    pub numbers: Range<u64>,
    pub end: Option<Instant>,
}

impl Run<'_> {
    fn progress(&self, tally: &Tally, last: &mut Instant) {
        if last.elapsed().as_millis() > 200 {
            *last = Instant::now();
            let Tally { cases, differ, .. } = tally;
            progress(&format!("{}: {cases} cases, {differ} differ", self.part));
        }
    }
    fn form<I: Input>(&self, number: u64, input: Option<I>) -> Vec<String> {
        let (seed, part) = (self.seed, self.part);
        let mut lines = vec![format!("again: compare --seed {seed} --case {number} {part}")];
        let Some(found) = input.and_then(|input| smallest(input, SEARCH)) else {
            lines.push("no smaller form: the case stops, or differs no more when run again".into());
            return lines;
        };
        let end = if found.whole { "" } else { ", the time being over" };
        lines
            .push(format!("case {number} in its smallest form, after {} steps{end}:", found.steps));
        lines.extend(found.input.show().into_iter().map(|line| format!("  {line}")));
        lines.extend(found.differences.into_iter().take(2).map(|text| format!("  -> {text}")));
        lines
    }
}

/// Runs a part's cases, and looks for the smallest form of the first that differs.
pub fn cases<I: Input>(run: &Run, tally: &mut Tally) {
    let (mut first, mut last) = (None, Instant::now());
    for number in run.numbers.clone() {
        if run.end.is_some_and(|end| Instant::now() >= end) {
            break;
        }
        let case = Case { seed: run.seed, number };
        let before = tally.differ;
        tally.case = Some(number);
        let input = quietly(|| I::tried(&case, tally));
        if let Err(text) = &input {
            tally.stopped(text);
        }
        tally.cases += 1;
        if tally.differ > before && first.is_none() {
            let again = || quietly(|| I::make(&case)).ok();
            first = Some((number, input.ok().or_else(again)));
        }
        run.progress(tally, &mut last);
    }
    tally.case = None;
    if let Some((number, input)) = first {
        progress(&format!("{}: the smallest form of case {number}", run.part));
        tally.form = run.form(number, input);
    }
}

/// Bytes as text: in hex if they are few, else how many and their CRC.
pub fn hex(bytes: &[u8]) -> String {
    if bytes.is_empty() {
        return "no bytes".into();
    }
    if bytes.len() > 64 {
        return format!("{} bytes with CRC {:08x}", bytes.len(), crc32fast::hash(bytes));
    }
    bytes.iter().map(|b| format!("{b:02x}")).collect()
}

/// Bytes as text, without the zeros at their end.
pub fn hex_then_zeros(bytes: &[u8]) -> String {
    match bytes.iter().rposition(|b| *b != 0) {
        None => format!("{} zeros", bytes.len()),
        Some(at) if at + 1 == bytes.len() => hex(bytes),
        Some(at) => format!("{} and {} zeros", hex(&bytes[..=at]), bytes.len() - at - 1),
    }
}
