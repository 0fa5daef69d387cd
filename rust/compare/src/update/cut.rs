//! Where the supply fails: drawn, made smaller, shown and counted.
use super::flash::{Kind, done_at, kind, size};
use crate::{
    run::Tally,
    shrink::{Moves, number},
};
use common::{
    Random,
    made::{WORD, WORD_SIZE},
};
use lifted::standins::flash::Operation;

/// A cut: the first k operations are done whole, of the next the first j bytes.
#[derive(Clone, Copy, Debug, PartialEq, Eq)]
pub struct Cut {
    pub k: usize,
    pub j: usize,
}

/// The ends of the magic, the version and the generation in a header.
const FIELDS: [usize; 3] = [4, 8, 12];

/// Numbers of bytes at which a field of an operation has just begun or is nearly
/// done.
fn boundaries(operation: &Operation) -> Vec<usize> {
    let size = size(operation);
    let mut all = vec![1, 2, 3, size - 1, size];
    match kind(operation) {
        Kind::HeaderErase | Kind::DataErase => {
            all.extend(FIELDS);
            all.extend([WORD, WORD + WORD_SIZE - 1, WORD + WORD_SIZE]);
        }
        Kind::HeaderWrite => all.extend(WORD..=WORD + WORD_SIZE),
        Kind::DataWrite | Kind::Word => {}
    }
    all
}

/// How many bytes of an operation are done: in a third of the cuts none.
fn bytes(random: &mut Random, operation: &Operation) -> usize {
    match random.below(3) {
        0 => 0,
        1 => random.pick(&boundaries(operation)),
        _ => random.below(size(operation)),
    }
}

impl Cut {
    /// Before, between or after these operations, or inside one.
    pub fn random(random: &mut Random, operations: &[Operation]) -> Self {
        let total = operations.len();
        let k = if random.once_in(4) { total } else { random.below(total.max(1)) };
        Self::after(random, k, operations)
    }
    /// After k of these operations, with any j.
    pub fn after(random: &mut Random, k: usize, operations: &[Operation]) -> Self {
        let j = operations.get(k).map_or(0, |next| bytes(random, next));
        Self { k, j }
    }
    /// The operation that it is inside of: begun and not done.
    pub fn inside(self, operations: &[Operation]) -> Option<&Operation> {
        operations.get(self.k).filter(|next| (1..size(next)).contains(&self.j))
    }
    /// With fewer operations or fewer bytes.
    pub fn smaller(self) -> Moves<'static, Self> {
        let Self { k, j } = self;
        let earlier = number(k as u64).map(move |k| Self { k: k as usize, j });
        let shorter = number(j as u64).map(move |j| Self { k, j: j as usize });
        Box::new(earlier.chain(shorter))
    }
    pub fn show(self) -> String {
        format!("cut after {} operations and {} bytes of the next", self.k, self.j)
    }
    /// Counts it, by its position among the operations.
    pub fn count(self, tally: &mut Tally, operations: &[Operation]) {
        let done = done_at(self.k, self.j, operations);
        let inside = self.inside(operations);
        let next = operations.get(done).filter(|_| inside.is_none());
        let last = operations[..done].last();
        let is = |one: Option<&Operation>, what| usize::from(one.map(kind) == Some(what));
        tally.count("cuts", 1);
        tally.count("cuts inside an operation", usize::from(inside.is_some()));
        tally.count("cuts inside a header erase", is(inside, Kind::HeaderErase));
        tally.count("cuts inside a header write", is(inside, Kind::HeaderWrite));
        tally.count("cuts inside a commit word", is(inside, Kind::Word));
        tally.count("cuts just before a commit word", is(next, Kind::Word));
        tally.count("cuts just after one", is(last, Kind::Word));
    }
}
