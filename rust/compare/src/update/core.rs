//! The core's side of an update, call by call, with the operations it did.
use super::{
    calls::{Call, operation},
    content::{Content, Source, names_line},
    cut::Cut,
    flash::{perform, span},
};
use bankcore::update::{Answer, DONE, NONE_DUE, State};
use common::Random;
use lifted::standins::flash::Operation;
use std::ops::Range;

pub struct Core {
    pub state: State,
    pub region: Vec<u8>,
    /// The operations that were begun.
    pub operations: Vec<Operation>,
    /// The region that these operations leave if each is whole, and the first one
    /// after which the core's bytes there were different.
    pub shadow: Vec<u8>,
    pub strayed: Option<usize>,
    /// The first refusal.
    pub refusal: u32,
    /// Where the supply fails.
    pub cut: Option<Cut>,
}

impl Core {
    pub fn new(region: &[u8], comparing: bool, now: i64) -> Self {
        let (state, answer) = State::new(region, comparing, now);
        Self { refusal: answer.refusal, ..Self::of(state, region) }
    }
    /// Goes on from a state and a region.
    pub fn of(state: State, region: &[u8]) -> Self {
        Self {
            state,
            region: region.to_vec(),
            operations: Vec::new(),
            shadow: region.to_vec(),
            strayed: None,
            refusal: 0,
            cut: None,
        }
    }
    /// Whether the supply has failed.
    pub fn is_cut(&self) -> bool {
        let begun = self.operations.len();
        self.cut.is_some_and(|Cut { k, j }| begun > k || begun == k && j == 0)
    }
    /// Whether the supply has failed, or a call was refused.
    pub fn stopped(&self) -> bool {
        self.refusal != 0 || self.is_cut()
    }
    pub fn call(&mut self, call: &Call) -> Answer {
        if self.is_cut() {
            return Answer { answer: NONE_DUE, ..Answer::default() };
        }
        let before = self.state;
        let answer = call.make(&mut self.state, &mut self.region);
        if self.refusal == 0 {
            self.refusal = answer.refusal;
        }
        if let Some(done) = operation(call, &before, answer, &self.region) {
            let before = self.shadow[span(&done)].to_vec();
            let span = perform(&mut self.shadow, &done);
            if self.strayed.is_none() && self.region[span.clone()] != self.shadow[span.clone()] {
                self.strayed = Some(self.operations.len());
            }
            self.operations.push(done);
            self.tear(span, &before);
        }
        answer
    }
    /// If the supply fails inside the last operation, the bytes after its first j
    /// are what they were before it.
    fn tear(&mut self, span: Range<usize>, before: &[u8]) {
        let begun = self.operations.len();
        if let Some(Cut { j, .. }) = self.cut.filter(|cut| begun > cut.k) {
            let j = j.min(before.len());
            self.region[span][j..].copy_from_slice(&before[j..]);
        }
    }
    /// Does all that is due.
    pub fn flush(&mut self) {
        while self.call(&Call::Due) == (Answer { answer: DONE, ..Answer::default() }) {}
    }
    /// Offers bytes in pieces until all are appended.
    pub fn append(&mut self, random: &mut Random, mut bytes: &[u8]) {
        while !bytes.is_empty() && !self.stopped() {
            let some = random.pick(&[1, 7, 100, 255, 256, 257, 1000, usize::MAX]).min(bytes.len());
            let answer = self.call(&Call::Bytes(bytes[..some].to_vec()));
            bytes = &bytes[answer.count as usize..];
            if answer.count == 0 || random.once_in(2) || bytes.is_empty() {
                self.flush();
            }
        }
    }
    fn source(&mut self, random: &mut Random, source: &Source) {
        self.call(&Call::Source(source.record().to_vec()));
        self.append(random, &source.fields.start.to_le_bytes());
        self.append(random, &source.fields.end.to_le_bytes());
        for (table, pieces) in &source.tables {
            self.call(&Call::Table(*table as u32));
            self.append(random, &names_line(*table));
            for piece in pieces {
                self.append(random, &piece.bytes());
            }
            self.call(&Call::End);
        }
    }
    pub fn fill(&mut self, random: &mut Random, content: &Content) {
        self.append(random, &content.key.bytes());
        for source in &content.sources {
            self.source(random, source);
        }
    }
    pub fn close(&mut self) {
        self.call(&Call::Close);
        self.flush();
    }
    pub fn commit(&mut self, stamp: Option<i64>, current: bool) {
        if self.call(&Call::Commit(stamp, current)).refusal == 0 {
            self.call(&Call::Word);
        }
    }
}
