//! The calls on a state as one type, the runs of lower calls that the upper ones
//! are, and the flash operation that a lower call did.
use super::{
    content::{names_line, row_line, show_record},
    fields::{ERASE, FIRST, Fields, SECOND, STAGE, WRITE},
};
use crate::{
    rows::text,
    run::hex,
    shrink::{Moves, bytes, each, fewer, number},
    wrong,
};
use bankcore::{
    rows::Values,
    update::{Answer, DONE, State},
};
use common::made::{SECTOR, WORD, WORD_SIZE};
use lifted::{
    cache::{OFFSET, door},
    standins::flash::Operation,
};

#[derive(Clone, Debug)]
pub enum Call {
    Source(Vec<u8>),
    Table(u32),
    Bytes(Vec<u8>),
    End,
    Close,
    Due,
    Unchanged,
    Commit(Option<i64>, bool),
    Word,
    /// The upper calls. A row is its texts and their lengths.
    SourceWithDates(Vec<u8>),
    TableWithNames(u32),
    Row(Vec<u8>, Vec<u32>),
    TableEnd,
    Closing,
}

impl Call {
    pub fn make(&self, state: &mut State, region: &mut [u8]) -> Answer {
        let before = *state;
        let answer = self.ask(state, region);
        wrong::instead(self, answer, &before, region)
    }
    /// The call, with the whole state as the C interface returns it. What the
    /// binding copies of it must be all that has changed.
    fn ask(&self, state: &mut State, region: &mut [u8]) -> Answer {
        let mut copied = *state;
        let answer = self.ask_whole(state, region);
        match self {
            Self::Bytes(_) | Self::Row(..) => copied.copy_parts(state),
            Self::Due => copied.copy_numbers(state),
            _ => return answer,
        }
        assert!(copied == *state, "the binding leaves a part of the state that {self:?} changed");
        answer
    }
    fn ask_whole(&self, state: &mut State, region: &mut [u8]) -> Answer {
        match self {
            Self::Source(record) => state.source(record),
            Self::Table(table) => state.table(*table),
            Self::Bytes(bytes) => state.append_whole(bytes),
            Self::End => state.end(),
            Self::Close => state.close(),
            Self::Due => state.due_whole(region),
            Self::Unchanged => state.unchanged(region),
            Self::Commit(stamp, current) => state.commit(region, *stamp, *current),
            Self::Word => state.commit_word(region),
            upper => upper.make_upper(state, region),
        }
    }
    fn make_upper(&self, state: &mut State, region: &mut [u8]) -> Answer {
        match self {
            Self::SourceWithDates(record) => state.upper_source(region, record),
            Self::TableWithNames(table) => state.upper_table(region, *table),
            Self::Row(texts, lengths) => state.upper_row_whole(region, Values { texts, lengths }),
            Self::TableEnd => state.upper_end(region),
            _ => state.upper_close(region),
        }
    }
    /// The call with a smaller argument.
    pub fn smaller(&self) -> Moves<'_, Self> {
        match self {
            Self::Source(record) => Box::new(bytes(record).map(Self::Source)),
            Self::SourceWithDates(record) => Box::new(bytes(record).map(Self::SourceWithDates)),
            Self::Table(table) => Box::new(number((*table).into()).map(|n| Self::Table(n as u32))),
            Self::TableWithNames(table) => {
                Box::new(number((*table).into()).map(|n| Self::TableWithNames(n as u32)))
            }
            Self::Bytes(offered) => Box::new(bytes(offered).map(Self::Bytes)),
            Self::Row(texts, lengths) => {
                let shorter = bytes(texts).map(|texts| Self::Row(texts, lengths.clone()));
                let one =
                    |n: &u32| -> Moves<'_, u32> { Box::new(number((*n).into()).map(|n| n as u32)) };
                let fewer = fewer(lengths).chain(each(lengths, one));
                Box::new(shorter.chain(fewer.map(|lengths| Self::Row(texts.clone(), lengths))))
            }
            Self::Commit(Some(_), current) => Box::new([Self::Commit(None, *current)].into_iter()),
            _ => Box::new(std::iter::empty()),
        }
    }
    pub fn show(&self) -> String {
        match self {
            Self::Source(record) => format!("source {}", show_record(record)),
            Self::SourceWithDates(record) => format!("source with dates {}", show_record(record)),
            Self::Bytes(offered) => format!("bytes, {} offered: {}", offered.len(), hex(offered)),
            Self::Row(texts, lengths) => format!("row of {}, lengths {lengths:?}", text(texts)),
            other => format!("{other:?}"),
        }
    }
    pub fn is_upper(&self) -> bool {
        use Call::*;
        matches!(self, SourceWithDates(_) | TableWithNames(_) | Row(..) | TableEnd | Closing)
    }
    /// The bytes that an upper call appends.
    pub fn appended(&self) -> Vec<u8> {
        match self {
            Self::SourceWithDates(record) => (0..8).map(|i| byte(record, i)).collect(),
            Self::TableWithNames(table) => names_line(*table as usize),
            Self::Row(texts, lengths) => row_line(&handed(texts, lengths)),
            _ => Vec::new(),
        }
    }
    /// An upper call's run: what is due, the lower call, what is due, and then the
    /// bytes one by one.
    pub fn run(&self) -> Vec<Self> {
        let mut run = vec![Self::Due; 3];
        run.extend(match self {
            Self::SourceWithDates(record) => Some(Self::Source(record.clone())),
            Self::TableWithNames(table) => Some(Self::Table(*table)),
            Self::TableEnd => Some(Self::End),
            Self::Closing => Some(Self::Close),
            _ => None,
        });
        run.extend(vec![Self::Due; 3]);
        run.extend(feed(&self.appended()));
        run
    }
}

/// A byte, then what is due, then the next.
pub fn feed(bytes: &[u8]) -> impl Iterator<Item = Call> {
    bytes.iter().flat_map(|b| [Call::Bytes(vec![*b]), Call::Due, Call::Due, Call::Due])
}

pub fn byte(bytes: &[u8], i: usize) -> u8 {
    bytes.get(i).copied().unwrap_or(0)
}

/// The values that joined texts and their lengths mean.
pub fn handed<'a>(mut texts: &'a [u8], lengths: &[u32]) -> Vec<&'a [u8]> {
    let one = |n: &u32| {
        let (value, rest) = texts.split_at(texts.len().min(*n as usize));
        texts = rest;
        value
    };
    lengths.iter().map(one).collect()
}

/// The operation that a lower call did: by the state before it, and for a header
/// and a commit word by the region after it.
pub fn operation(call: &Call, before: &State, answer: Answer, after: &[u8]) -> Option<Operation> {
    let writes = matches!(call, Call::Due | Call::Commit(..) | Call::Word);
    if !writes || answer.refusal != 0 || answer.answer != DONE {
        return None;
    }
    let before = Fields::of(before);
    let base = before.target();
    let written = |from: usize, to: usize| Operation::Write {
        offset: OFFSET + (base + from) as u32,
        bytes: after[base + from..base + to].to_vec(),
    };
    match call {
        Call::Due => due(&before, OFFSET + base as u32),
        Call::Commit(..) => Some(written(0, door::HEADER)),
        Call::Word => Some(written(WORD, WORD + WORD_SIZE)),
        _ => None,
    }
}

fn due(before: &Fields, base: u32) -> Option<Operation> {
    let (first, second) = (before.numbers[FIRST], before.numbers[SECOND] as usize);
    let sector = SECTOR as u32;
    match before.numbers[STAGE] {
        ERASE => {
            let start = base + first * sector;
            Some(Operation::Erase { start, end: start + sector })
        }
        WRITE => {
            let mut bytes = before.tail[..second].to_vec();
            bytes.resize(second.next_multiple_of(4), 255);
            Some(Operation::Write { offset: base + sector + first, bytes })
        }
        _ => None,
    }
}
