//! The inputs of a case as a value, and how they are made as small as possible
//! while the case still differs.
use crate::run::{Case, Tally, quietly};
use std::{
    iter::successors,
    ops::Range,
    time::{Duration, Instant},
};

/// Inputs that are smaller, large steps first.
pub type Moves<'a, T> = Box<dyn Iterator<Item = T> + 'a>;

pub trait Input: Clone {
    /// From the case's own random numbers.
    fn make(case: &Case) -> Self;
    /// Asks both sides.
    fn compare(&self, tally: &mut Tally);
    /// Each move leaves something out or makes it simpler, so moves come to an end.
    fn smaller(&self) -> Moves<'_, Self>;
    /// In words, one item a line.
    fn show(&self) -> Vec<String>;
    /// Made and compared.
    fn tried(case: &Case, tally: &mut Tally) -> Self {
        let input = Self::make(case);
        input.compare(tally);
        input
    }
}

/// One of a list of independent questions.
pub trait Question: Clone {
    fn list(case: &Case) -> Vec<Self>;
    fn ask(&self, tally: &mut Tally);
    fn smaller(&self) -> Moves<'_, Self>;
    fn show(&self) -> String;
}

impl<Q: Question> Input for Vec<Q> {
    fn make(case: &Case) -> Self {
        Q::list(case)
    }
    fn compare(&self, tally: &mut Tally) {
        self.iter().for_each(|question| question.ask(tally));
    }
    fn smaller(&self) -> Moves<'_, Self> {
        Box::new(fewer(self).chain(each(self, Q::smaller)))
    }
    fn show(&self) -> Vec<String> {
        self.iter().map(Q::show).collect()
    }
}

/// Into how many stretches a list is cut at most.
const STRETCHES: usize = 256;

/// All of a list, its halves, its quarters and so on.
fn stretches(length: usize) -> impl Iterator<Item = Range<usize>> {
    successors(Some(length), |size| Some(size / 2))
        .take_while(move |size| *size > 0 && size * STRETCHES >= length)
        .flat_map(move |size| {
            (0..length).step_by(size).map(move |from| from..length.min(from + size))
        })
}

/// A list with a stretch left out.
pub fn fewer<T: Clone>(list: &[T]) -> Moves<'_, Vec<T>> {
    Box::new(stretches(list.len()).map(|out| [&list[..out.start], &list[out.end..]].concat()))
}

/// One of a list made smaller.
pub fn each<'a, T: Clone>(
    list: &'a [T],
    moves: impl Fn(&'a T) -> Moves<'a, T> + 'a,
) -> Moves<'a, Vec<T>> {
    Box::new(list.iter().enumerate().flat_map(move |(i, one)| {
        moves(one).map(move |new| {
            let mut all = list.to_vec();
            all[i] = new;
            all
        })
    }))
}

/// Bytes with a stretch left out or set to zero.
pub fn bytes(list: &[u8]) -> Moves<'_, Vec<u8>> {
    Box::new(fewer(list).chain(zeros(list)))
}

/// Bytes with a stretch set to zero.
pub fn zeros(list: &[u8]) -> Moves<'_, Vec<u8>> {
    let others = |span: &Range<usize>| list[span.clone()].iter().any(|b| *b != 0);
    Box::new(stretches(list.len()).filter(others).map(|span| {
        let mut all = list.to_vec();
        all[span].fill(0);
        all
    }))
}

/// Smaller numbers, 0 first.
pub fn number(n: u64) -> Moves<'static, u64> {
    Box::new(successors(Some(n), |less| Some(less / 2)).take_while(|l| *l > 0).map(move |l| n - l))
}

/// The differences of an input; a comparison that stops is one too.
fn differences<I: Input>(input: &I) -> (Tally, bool) {
    let mut tally = Tally::default();
    let stopped = quietly(|| input.compare(&mut tally)).err();
    if let Some(text) = &stopped {
        tally.stopped(text);
    }
    (tally, stopped.is_some())
}

/// The result of a search for the smallest form.
pub struct Smallest<I> {
    pub input: I,
    pub steps: usize,
    /// Whether no move was left, rather than no time.
    pub whole: bool,
    pub differences: Vec<String>,
}

/// Goes on with the first move that still differs, until none does or the time is
/// over. An input that makes the comparison stop is only replaced by one that does
/// too, and one that doesn't by one that doesn't.
pub fn smallest<I: Input>(mut input: I, limit: Duration) -> Option<Smallest<I>> {
    let end = Instant::now() + limit;
    let (tally, stops) = differences(&input);
    let mut differences_now = tally.texts();
    if differences_now.is_empty() {
        return None;
    }
    let (mut steps, mut at, mut moved) = (0, 0, false);
    loop {
        let found = input
            .smaller()
            .enumerate()
            .skip(at)
            .take_while(|_| Instant::now() < end)
            .map(|(k, next)| (k, differences(&next), next))
            .find(|(_, (tally, stopped), _)| tally.differ > 0 && *stopped == stops);
        match found {
            Some((k, (tally, _), next)) => {
                (input, at, moved) = (next, k, true);
                differences_now = tally.texts();
                steps += 1;
            }
            None if moved && Instant::now() < end => (at, moved) = (0, false),
            None => {
                let whole = Instant::now() < end;
                return Some(Smallest { input, steps, whole, differences: differences_now });
            }
        }
    }
}
