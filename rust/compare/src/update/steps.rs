//! What each call answers, leaves in the state and does to the flash, for every
//! state, by the definitions.
use super::{
    calls::{Call, byte},
    fields::*,
    flash::perform,
    model::NO_TABLE,
};
use bankcore::update::{APPENDED, Answer, DIFFERENT, DONE, NONE_DUE, SAME};
use common::made::{BANK, CAPACITY, COMMIT, REGION, SECTOR, WORD, layout};
use lifted::{
    cache::{OFFSET, door},
    standins::flash::Operation,
};

/// A state and a region, by the definitions.
#[derive(Clone)]
pub struct Model {
    pub fields: Fields,
    pub region: Vec<u8>,
}

type Outcome = Result<Answer, u32>;

fn said(answer: u32) -> Outcome {
    Ok(Answer { answer, ..Answer::default() })
}

fn unless(holds: bool, refusal: u32) -> Result<(), u32> {
    if holds { Ok(()) } else { Err(refusal) }
}

fn crc32(start: u32, bytes: &[u8]) -> u32 {
    let mut hasher = crc32fast::Hasher::new_with_initial(start);
    hasher.update(bytes);
    hasher.finalize()
}

/// The calls that do no flash operation.
impl Fields {
    fn source(&mut self, record: &[u8]) -> Outcome {
        unless(self.may_append() && !self.open(), 11)?;
        unless(self.n(SOURCES) < 3, 10)?;
        let kept = |i| if (84..180).contains(&i) || i >= 339 { 0 } else { byte(record, i) };
        self.sources[self.n(SOURCES)] = std::array::from_fn(kept);
        self.numbers[SOURCES] += 1;
        self.numbers[TABLE] = NO_TABLE;
        self.numbers[BEGUN] = 0;
        said(DONE)
    }
    fn table(&mut self, table: u32) -> Outcome {
        unless(table <= 7, 2)?;
        unless(self.may_append() && self.may_begin(table), 11)?;
        self.numbers[TABLE] = table;
        self.numbers[START] = self.position() as u32;
        self.numbers[TABLE_CRC] = 0;
        self.numbers[BEGUN] |= 1 << table;
        said(DONE)
    }
    fn bytes(&mut self, bytes: &[u8]) -> Outcome {
        unless(self.may_append(), 11)?;
        unless(self.position() + bytes.len() <= CAPACITY, 10)?;
        if self.is_due() {
            return said(APPENDED);
        }
        let fill = self.n(FILL);
        let appended = &bytes[..bytes.len().min(256 - fill)];
        self.tail[fill..fill + appended.len()].copy_from_slice(appended);
        self.numbers[FILL] += appended.len() as u32;
        self.numbers[TAKEN_CRC] = crc32(self.numbers[TAKEN_CRC], appended);
        self.numbers[TABLE_CRC] = crc32(self.numbers[TABLE_CRC], appended);
        self.begin_due();
        Ok(Answer { answer: APPENDED, count: appended.len() as u32, ..Answer::default() })
    }
    fn end(&mut self) -> Outcome {
        unless(self.in_range() && self.open(), 11)?;
        let length = self.position() as u32 - self.numbers[START];
        let block = [self.numbers[START], length, self.numbers[TABLE_CRC]];
        let at = 84 + 12 * self.n(TABLE);
        let source = &mut self.sources[self.numbers[SOURCES] as usize - 1];
        for (i, number) in block.into_iter().enumerate() {
            door::put(source, at + 4 * i, number);
        }
        self.numbers[TABLE] = NO_TABLE;
        said(DONE)
    }
    fn close(&mut self) -> Outcome {
        unless(self.may_append() && !self.open(), 11)?;
        let due = self.is_due();
        self.numbers[CLOSED] = 1;
        if !due {
            self.begin_due();
        }
        said(DONE)
    }
}

impl Model {
    /// The call's answer. What it leaves is in the fields and the region, which a
    /// refused call doesn't change.
    pub fn call(&mut self, call: &Call) -> Answer {
        let mut next = self.fields.normalized();
        let outcome = match call {
            Call::Source(record) => next.source(record),
            Call::Table(table) => next.table(*table),
            Call::Bytes(bytes) => next.bytes(bytes),
            Call::End => next.end(),
            Call::Close => next.close(),
            Call::Due => self.due(&mut next),
            Call::Unchanged => self.unchanged(),
            Call::Commit(stamp, current) => self.commit(&mut next, *stamp, *current),
            Call::Word => self.commit_word(&mut next),
            upper => return self.upper(upper),
        };
        match outcome {
            Ok(answer) => {
                self.fields = next;
                answer
            }
            Err(refusal) => Answer { refusal, ..Answer::default() },
        }
    }
    fn write(&mut self, at: usize, bytes: Vec<u8>) {
        let offset = OFFSET + (self.fields.target() + at) as u32;
        perform(&mut self.region, &Operation::Write { offset, bytes });
    }
    fn due(&mut self, next: &mut Fields) -> Outcome {
        unless(self.region.len() == REGION, 1)?;
        unless(next.in_range(), 11)?;
        match next.numbers[STAGE] {
            ERASE => {
                let sector = next.n(FIRST);
                let start = OFFSET + (next.target() + sector * SECTOR) as u32;
                let erase = Operation::Erase { start, end: start + SECTOR as u32 };
                perform(&mut self.region, &erase);
                if sector == 0 {
                    next.data_due();
                } else {
                    next.stage(WRITE, next.n(WRITTEN), next.n(FILL));
                }
                return said(DONE);
            }
            WRITE => {
                let mut bytes = next.tail[..next.n(FILL)].to_vec();
                bytes.resize(bytes.len().next_multiple_of(4), 255);
                self.write(SECTOR + next.n(WRITTEN), bytes);
            }
            COMPARE => next.numbers[DIFFERS] |= u32::from(self.differs()),
            _ => return said(NONE_DUE),
        }
        next.numbers[WRITTEN] += next.numbers[FILL];
        next.numbers[FILL] = 0;
        next.stage(IDLE, 0, 0);
        said(DONE)
    }
    /// Whether the tail differs from the active bank's bytes there.
    fn differs(&self) -> bool {
        let f = &self.fields;
        let at = f.n(NUMBER) * BANK + SECTOR + f.n(WRITTEN);
        f.n(KIND) == 0
            || f.position() > f.n(LENGTH)
            || self.region[at..at + f.n(FILL)] != f.tail[..f.n(FILL)]
    }
    fn same_source(&self, i: usize) -> bool {
        let f = &self.fields;
        let (size, tables) = layout(f.numbers[VERSION].max(1));
        let record = &self.region[f.n(NUMBER) * BANK + 48 + i * size..][..size];
        let block = |t: usize| match t < tables {
            true => [0, 4, 8].map(|at| door::get(record, 20 + 8 * tables + 12 * t + at)),
            false => [0; 3],
        };
        [0, 4].iter().all(|&at| f.word(i, at) == door::get(record, at))
            && (0..8).all(|t| f.block(i, t) == block(t))
    }
    fn unchanged(&self) -> Outcome {
        let f = &self.fields;
        unless(self.region.len() == REGION, 1)?;
        unless(f.idle_after_closing() && f.is(COMPARING), 11)?;
        let same = f.n(KIND) == 1
            && !f.is(DIFFERS)
            && f.numbers[WRITTEN] == f.numbers[LENGTH]
            && f.numbers[SOURCES] == f.numbers[COUNT]
            && f.key_length() == f.numbers[KEY]
            && (0..f.n(SOURCES)).all(|i| self.same_source(i));
        said(if same { SAME } else { DIFFERENT })
    }
    fn commit(&mut self, next: &mut Fields, stamp: Option<i64>, current: bool) -> Outcome {
        unless(self.region.len() == REGION, 1)?;
        unless(next.idle_after_closing(), 11)?;
        unless(!next.is(COMPARING) && current, 12)?;
        unless(next.fit(stamp), 13)?;
        self.write(0, next.header(stamp));
        next.stage(HEADED, 0, 0);
        said(DONE)
    }
    fn commit_word(&mut self, next: &mut Fields) -> Outcome {
        unless(self.region.len() == REGION, 1)?;
        unless(next.in_range() && next.numbers[STAGE] == HEADED, 11)?;
        self.write(WORD, COMMIT.to_le_bytes().to_vec());
        next.stage(COMMITTED, 0, 0);
        said(DONE)
    }
}

/// The upper calls: a test of all, then the run.
impl Model {
    fn upper_refusal(&self, call: &Call) -> Result<(), u32> {
        let f = &self.fields;
        unless(self.region.len() == REGION, 1)?;
        let order = match call {
            Call::TableWithNames(table) => {
                unless(*table <= 7, 2)?;
                f.may_begin(*table)
            }
            Call::Row(..) | Call::TableEnd => f.open(),
            _ => !f.open(),
        };
        // A table's end after closing isn't among what document 01 has out of order.
        let open = !f.is(CLOSED) || matches!(call, Call::TableEnd);
        unless(f.in_range() && open && order, 11)?;
        let appended = call.appended();
        if let Call::Row(_, lengths) = call {
            let columns = crate::rows::columns(f.n(TABLE));
            unless(lengths.len() == columns && appended.len() <= crate::rows::LONGEST, 14)?;
        }
        let source = !matches!(call, Call::SourceWithDates(_)) || f.n(SOURCES) < 3;
        unless(source && f.position() + appended.len() <= CAPACITY, 10)
    }
    fn upper(&mut self, call: &Call) -> Answer {
        if let Err(refusal) = self.upper_refusal(call) {
            return Answer { refusal, ..Answer::default() };
        }
        self.fields = self.fields.normalized();
        for lower in call.run() {
            self.call(&lower);
        }
        Answer::default()
    }
}
