//! Flash operations on a region, by document 01's model, and a supply that fails
//! inside one, by document 02's.
use crate::wrong::{Wrong, tried};
use common::made::{BANK, WORD};
use lifted::{cache::OFFSET, standins::flash::Operation};
use std::ops::Range;

/// What an operation of an update is.
#[derive(Clone, Copy, Debug, PartialEq, Eq)]
pub enum Kind {
    HeaderErase,
    DataErase,
    DataWrite,
    HeaderWrite,
    Word,
}

/// What an operation is, by its offset in its bank.
pub fn kind(operation: &Operation) -> Kind {
    match (operation, span(operation).start % BANK) {
        (Operation::Erase { .. }, 0) => Kind::HeaderErase,
        (Operation::Erase { .. }, _) => Kind::DataErase,
        (Operation::Write { .. }, 0) => Kind::HeaderWrite,
        (Operation::Write { .. }, WORD) => Kind::Word,
        (Operation::Write { .. }, _) => Kind::DataWrite,
    }
}

/// The bytes of the region that an operation is done on.
pub fn span(operation: &Operation) -> Range<usize> {
    match operation {
        Operation::Erase { start, end } => (start - OFFSET) as usize..(end - OFFSET) as usize,
        Operation::Write { offset, bytes } => {
            let at = (offset - OFFSET) as usize;
            at..at + bytes.len()
        }
    }
}

/// How many bytes an operation has.
pub fn size(operation: &Operation) -> usize {
    span(operation).len()
}

/// An operation's first j bytes, the rest not at all.
pub fn torn(j: usize, operation: &Operation, region: &mut [u8]) {
    let first = &mut region[span(operation)][..j.min(size(operation))];
    match operation {
        Operation::Erase { .. } => first.fill(255),
        Operation::Write { bytes, .. } => {
            first.iter_mut().zip(bytes).for_each(|(old, new)| *old &= new);
        }
    }
}

/// One operation on a region; the range of its bytes.
pub fn perform(region: &mut [u8], operation: &Operation) -> Range<usize> {
    torn(size(operation), operation, region);
    span(operation)
}

/// The region if the supply fails: the first k operations whole, of the next the
/// first j bytes, the rest not at all.
pub fn cut_at(k: usize, j: usize, operations: &[Operation], mut region: Vec<u8>) -> Vec<u8> {
    match (k, operations) {
        (_, []) => region,
        (0, [next, ..]) => {
            torn(j, next, &mut region);
            region
        }
        (_, [first, rest @ ..]) => {
            perform(&mut region, first);
            cut_at(k - 1, j, rest, region)
        }
    }
}

/// How many operations are done then. One is done once all its bytes are.
pub fn done_at(k: usize, j: usize, operations: &[Operation]) -> usize {
    match (k, operations) {
        (_, []) => 0,
        (0, [_, ..]) if tried(Wrong::Begun) => usize::from(j > 0),
        (0, [next, ..]) => usize::from(size(next) <= j),
        (_, [_, rest @ ..]) => 1 + done_at(k - 1, j, rest),
    }
}

/// An operation's offset and length, without its bytes.
pub fn place(o: &Operation) -> String {
    match o {
        Operation::Erase { start, end } => format!("erase {start:#x}..{end:#x}"),
        Operation::Write { offset, bytes } => format!("write {} bytes at {offset:#x}", bytes.len()),
    }
}

/// The first index at which two lists differ.
pub fn first_other<T: PartialEq>(a: &[T], b: &[T]) -> Option<usize> {
    if a == b {
        return None;
    }
    (0..a.len().max(b.len())).find(|&i| a.get(i) != b.get(i))
}
