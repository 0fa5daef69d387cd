//! An update by the upper calls, and beside it by their runs of lower calls.
use super::{
    calls::{Call, feed},
    content::{Content, Piece, Source},
    core::Core,
    cut::Cut,
};
use crate::keys::Selection;
use bankcore::update::{Answer, State};

pub struct Upper {
    pub state: State,
    pub region: Vec<u8>,
    /// The lower calls' side; it can be cut.
    pub run: Core,
    /// The first call after which the two differed.
    pub apart: Option<String>,
}

impl Upper {
    /// Begins with the key of a selection.
    pub fn begin(
        region: &[u8],
        (comparing, now): (bool, i64),
        selection: &Selection,
        cut: Option<Cut>,
    ) -> (Self, Answer) {
        // A state that every call refuses; a refused beginning leaves it.
        let (old, _) = State::new(&[], comparing, now);
        let (mut state, mut after) = (old, region.to_vec());
        let (identity, picks) = (&selection.identity, selection.picks());
        let answer = state.upper_begin(&mut after, comparing, now, identity, picks);
        let mut run = Core::new(region, comparing, now);
        run.cut = cut;
        run.refusal = answer.refusal;
        let mut upper = Self { state, region: after, run, apart: None };
        if answer.refusal == 0 {
            let key = selection.key().expect("the Rust makes a key");
            for lower in feed(&key) {
                upper.run.call(&lower);
            }
        } else {
            upper.run.state = old;
        }
        upper.beside("the beginning");
        (upper, answer)
    }
    /// Goes on from a state and a region.
    pub fn of(state: State, region: &[u8]) -> Self {
        let run = Core::of(state, region);
        Self { state, region: region.to_vec(), run, apart: None }
    }
    fn beside(&mut self, what: &str) {
        if self.run.is_cut() {
            return;
        }
        let same = self.state == self.run.state && self.region == self.run.region;
        if !same && self.apart.is_none() {
            self.apart = Some(what.chars().take(60).collect());
        }
    }
    pub fn call(&mut self, call: &Call) -> Answer {
        if self.run.is_cut() {
            return Answer::default();
        }
        let answer = call.make(&mut self.state, &mut self.region);
        if !call.is_upper() {
            self.run.call(call);
        } else if answer.refusal == 0 {
            for lower in call.run() {
                self.run.call(&lower);
            }
        } else if self.run.refusal == 0 {
            self.run.refusal = answer.refusal;
        }
        self.beside(&format!("{call:?}"));
        answer
    }
    /// A source with its first tables; the last one is left open.
    pub fn open(&mut self, source: &Source) {
        self.call(&Call::SourceWithDates(source.record().to_vec()));
        for (i, (table, pieces)) in source.tables.iter().enumerate() {
            if i > 0 {
                self.call(&Call::TableEnd);
            }
            self.call(&Call::TableWithNames(*table as u32));
            for piece in pieces {
                self.call(&row(piece));
            }
        }
    }
    pub fn fill(&mut self, content: &Content) {
        for source in &content.sources {
            self.open(source);
            if !source.tables.is_empty() {
                self.call(&Call::TableEnd);
            }
        }
    }
}

/// The row's call; bytes are a row of one value.
pub fn row(piece: &Piece) -> Call {
    match piece {
        Piece::Row(values) => {
            let lengths = values.iter().map(|v| v.len() as u32).collect();
            Call::Row(values.concat().into_bytes(), lengths)
        }
        Piece::Bytes(bytes) => Call::Row(bytes.clone(), vec![bytes.len() as u32]),
    }
}
