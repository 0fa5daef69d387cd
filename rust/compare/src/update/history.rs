//! Demand 3's history in executable form: it is given the calls' arguments, their
//! answers and how many operations were done at each cut. It reads no state and no
//! flash.
use super::calls::{Call, byte};
use bankcore::{
    answers::BankAnswer,
    update::{APPENDED, Answer, DONE},
};

/// What source, table and table end calls note, with the number of bytes before any
/// of their own.
#[derive(Clone)]
enum Note {
    Source(Vec<u8>),
    Table(u32, usize),
    End(usize),
}

#[derive(Clone)]
pub struct Open {
    number: u32,
    generation: u32,
    now: i64,
    data: Vec<u8>,
    notes: Vec<Note>,
    checked: i64,
}

/// G with its records, and the open update.
#[derive(Clone)]
pub struct History {
    pub held: BankAnswer,
    pub records: Vec<[u8; 384]>,
    /// The bytes that the update of G appended, if it was committed here.
    pub given: Option<Vec<u8>>,
    pub open: Option<Open>,
}

/// A source's record without blocks, in version 3's form.
fn emptied(record: &[u8]) -> [u8; 384] {
    let kept = |i| !(84..180).contains(&i) && i < 339;
    std::array::from_fn(|i| if kept(i) { byte(record, i) } else { 0 })
}

impl Open {
    /// The records that the notes give, over the bytes appended.
    fn records(&self) -> Vec<[u8; 384]> {
        let mut records: Vec<[u8; 384]> = Vec::new();
        let (mut table, mut from) = (0, 0);
        for note in &self.notes {
            match note {
                Note::Source(record) => records.push(emptied(record)),
                Note::Table(number, at) => (table, from) = (*number as usize, *at),
                Note::End(to) => {
                    let crc = crc32fast::hash(&self.data[from..*to]);
                    let last = records.last_mut().expect("a table has a source");
                    for (i, n) in [from as u32, (to - from) as u32, crc].into_iter().enumerate() {
                        last[84 + 12 * table + 4 * i..][..4].copy_from_slice(&n.to_le_bytes());
                    }
                }
            }
        }
        records
    }
    /// The bank that this update makes.
    fn bank(&self) -> BankAnswer {
        let records = self.records();
        let routes = records.first().map_or(0, |r| lifted::cache::door::get(r, 84));
        BankAnswer {
            refusal: 0,
            found: 1,
            number: self.number,
            version: 3,
            generation: self.generation,
            length: self.data.len() as u32,
            crc: crc32fast::hash(&self.data),
            count: records.len() as u32,
            key: routes.saturating_sub(8),
            checked: self.checked,
        }
    }
    /// What an answered call changes.
    fn after(&mut self, call: &Call, answer: Answer) {
        let at = self.data.len();
        match (call, answer.answer) {
            (Call::Source(record) | Call::SourceWithDates(record), DONE) => {
                self.notes.push(Note::Source(record.clone()));
            }
            (Call::Table(table) | Call::TableWithNames(table), DONE) => {
                self.notes.push(Note::Table(*table, at));
            }
            (Call::End | Call::TableEnd, DONE) => self.notes.push(Note::End(at)),
            (Call::Commit(stamp, _), DONE) => {
                self.checked = stamp.filter(|s| *s >= self.now).unwrap_or(self.now);
            }
            (Call::Bytes(bytes), APPENDED) => self.data.extend(&bytes[..answer.count as usize]),
            _ => {}
        }
        if call.is_upper() && answer.answer == DONE {
            self.data.extend(call.appended());
        }
    }
}

impl History {
    /// At the start: load's answer on the region found, its records, no update.
    pub fn new(held: BankAnswer, records: Vec<[u8; 384]>) -> Self {
        Self { held, records, given: None, open: None }
    }
    /// A beginning, with the key that it appends.
    pub fn begin(&mut self, now: i64, key: &[u8], answer: Answer) {
        if answer.refusal != 0 || answer.answer != DONE {
            return;
        }
        let BankAnswer { found, number, generation, .. } = self.held;
        let (number, generation) = match found {
            1 => (1 - number, generation.wrapping_add(1)),
            _ => (0, 0),
        };
        let (data, notes) = (key.to_vec(), Vec::new());
        self.open = Some(Open { number, generation, now, data, notes, checked: now });
    }
    /// A call on a state, answered.
    pub fn call(&mut self, call: &Call, answer: Answer) {
        if answer.refusal != 0 {
            return;
        }
        if matches!(call, Call::Word) && answer.answer == DONE {
            self.commit();
        }
        if let Some(open) = &mut self.open {
            open.after(call, answer);
        }
    }
    /// A call that was cut with `done` operations done: no answer, and the update
    /// is dropped. `None` is a beginning.
    pub fn cut(&mut self, call: Option<&Call>, done: usize) {
        if matches!(call, Some(Call::Word)) && done > 0 {
            self.commit();
        }
        self.open = None;
    }
    /// The commit word is written: G is this update's bank.
    fn commit(&mut self) {
        if let Some(open) = &self.open {
            self.held = open.bank();
            self.records = open.records();
            self.given = Some(open.data.clone());
        }
    }
}
