//! Wrong cores for this program's own tests: each replaces the answer of one call
//! by a wrong one. Outside of the tests none is used.

#[derive(Clone, Copy, Debug, PartialEq, Eq)]
#[cfg_attr(not(test), allow(dead_code))]
pub enum Wrong {
    /// `newer` is wrong for numbers that are 1,000 or more apart.
    Newer,
    /// `next` doesn't go on at 5,000 and above.
    Next,
    /// The CRC of bytes with 0x77 among them is off.
    Crc,
    /// A key with a stop of at least two bytes has a byte changed.
    Key,
    /// A bank with three sources is found to have two.
    Count,
    /// A row with a quote and a CR is one byte short.
    Row,
    /// A stored row with three commas isn't found.
    Stored,
    /// Insertion of an id that ends in Z leaves out a bit.
    Filter,
    /// The commit word isn't written if an update had two sources.
    Word,
    /// A header is written with 255 255 255 67 in the commit word, whose last byte
    /// is 67.
    Header,
    /// At a cut an operation counts as done once it is begun.
    Begun,
    /// A write of bytes with 0xee among them clears its first byte.
    Tail,
    /// `unchanged` doesn't see a difference.
    Unchanged,
    /// Closing a state that has an open table is answered.
    Closing,
}

#[cfg(test)]
pub use hook::*;
#[cfg(test)]
mod hook {
    use super::Wrong;
    use crate::update::{calls::Call, fields::*};
    use bankcore::update::{Answer, DIFFERENT, DONE, SAME, State};
    use common::made::{COMMIT, SECTOR, WORD, WORD_SIZE};
    use std::cell::Cell;

    thread_local! {
        pub static WRONG: Cell<Option<Wrong>> = const { Cell::new(None) };
    }

    pub fn tried(wrong: Wrong) -> bool {
        WRONG.get() == Some(wrong)
    }

    /// A call's answer and region by the wrong core.
    pub fn instead(call: &Call, answer: Answer, before: &State, region: &mut [u8]) -> Answer {
        if WRONG.get().is_none() {
            return answer;
        }
        let before = Fields::of(before);
        let said = |n| Answer { answer: n, ..Answer::default() };
        match (WRONG.get(), call) {
            (Some(Wrong::Word), Call::Word) if before.n(SOURCES) == 2 && answer == said(DONE) => {
                region[before.target() + WORD..][..WORD_SIZE].fill(255);
            }
            (Some(Wrong::Header), Call::Commit(..)) if answer == said(DONE) => {
                let last = WORD + WORD_SIZE - 1;
                region[before.target() + last] = COMMIT.to_le_bytes()[WORD_SIZE - 1];
            }
            (Some(Wrong::Tail), Call::Due)
                if before.numbers[STAGE] == WRITE
                    && before.tail[..before.n(FILL)].contains(&0xee) =>
            {
                region[before.target() + SECTOR + before.n(FIRST)] = 0;
            }
            (Some(Wrong::Unchanged), Call::Unchanged) if answer == said(DIFFERENT) => {
                return said(SAME);
            }
            (Some(Wrong::Closing), Call::Close) if before.open() && answer.refusal == 11 => {
                return said(DONE);
            }
            _ => {}
        }
        answer
    }
}

#[cfg(not(test))]
pub use no_hook::*;
#[cfg(not(test))]
mod no_hook {
    use super::Wrong;
    use crate::update::calls::Call;
    use bankcore::update::{Answer, State};

    #[inline(always)]
    pub fn tried(_: Wrong) -> bool {
        false
    }
    #[inline(always)]
    pub fn instead(_: &Call, answer: Answer, _: &State, _: &mut [u8]) -> Answer {
        answer
    }
}
