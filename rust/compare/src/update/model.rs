//! Which states are within their ranges, what is due in them, and the bank that
//! they would commit: document 01's rules over a state's fields.
use super::fields::*;
use common::made::{CAPACITY, SECTOR, UNKNOWN, WORD, WORD_SIZE};
use lifted::cache::door;

/// No table is open.
pub const NO_TABLE: u32 = 8;

impl Fields {
    pub fn n(&self, i: usize) -> usize {
        self.numbers[i] as usize
    }
    pub fn is(&self, i: usize) -> bool {
        self.numbers[i] != 0
    }
    pub fn position(&self) -> usize {
        self.n(WRITTEN) + self.n(FILL)
    }
    pub fn is_due(&self) -> bool {
        self.n(FILL) == 256 || (self.is(CLOSED) && self.n(FILL) > 0)
    }
    pub fn open(&self) -> bool {
        self.numbers[TABLE] != NO_TABLE
    }
    pub fn stage(&mut self, stage: u32, first: usize, second: usize) {
        self.numbers[..3].copy_from_slice(&[stage, first as u32, second as u32]);
    }
    /// As it is after an answered call: numbers without a meaning are 0, flags 0 or
    /// 1.
    pub fn normalized(&self) -> Self {
        let mut fields = self.clone();
        let used = match self.numbers[STAGE] {
            ERASE => 2,
            WRITE | COMPARE => 3,
            _ => 1,
        };
        fields.numbers[used..3].fill(0);
        if self.numbers[KIND] == 0 {
            fields.numbers[NUMBER..=KEY].fill(0);
            fields.checked = 0;
        }
        for flag in [COMPARING, DIFFERS, CLOSED] {
            fields.numbers[flag] = u32::from(self.is(flag));
        }
        for source in &mut fields.sources {
            source[339..].fill(0);
        }
        fields
    }
    fn stage_ok(&self) -> bool {
        let (first, second, written) = (self.n(FIRST), self.n(SECOND), self.n(WRITTEN));
        let writing = !self.is(COMPARING);
        let tail = first == written && second == self.n(FILL);
        let sector = written % SECTOR == 0 && first == written / SECTOR + 1;
        match self.numbers[STAGE] {
            IDLE => !self.is_due(),
            ERASE => self.is_due() && writing && ((written == 0 && first == 0) || sector),
            WRITE => self.is_due() && writing && tail,
            COMPARE => self.is_due() && !writing && tail,
            HEADED | COMMITTED => writing && self.is(CLOSED) && self.n(FILL) == 0,
            _ => false,
        }
    }
    /// Refusal 11, by range.
    pub fn in_range(&self) -> bool {
        let active = self.n(KIND) == 0 || (self.n(KIND) == 1 && self.n(NUMBER) <= 1);
        let aligned = self.n(WRITTEN).is_multiple_of(256) || (self.is(CLOSED) && self.n(FILL) == 0);
        let taken = self.n(FILL) <= 256 && self.position() <= CAPACITY && aligned;
        let source = self.n(SOURCES) >= 1 && self.n(START) <= self.position();
        let tables = self.n(SOURCES) <= 3 && (!self.open() || (self.n(TABLE) <= 7 && source));
        active && taken && tables && self.stage_ok()
    }
    pub fn may_append(&self) -> bool {
        self.in_range() && !self.is(CLOSED)
    }
    pub fn idle_after_closing(&self) -> bool {
        self.in_range() && self.is(CLOSED) && self.numbers[STAGE] == IDLE
    }
    pub fn may_begin(&self, table: u32) -> bool {
        let begun = self.numbers[BEGUN];
        let first = self.n(SOURCES) == 1 && begun == 0;
        !self.open() && self.n(SOURCES) >= 1 && begun >> table & 1 == 0 && (table == 0 || !first)
    }
    /// What is due first, if nothing was before.
    pub fn begin_due(&mut self) {
        let (written, fill) = (self.n(WRITTEN), self.n(FILL));
        match (self.is_due(), self.is(COMPARING)) {
            (false, _) => self.stage(IDLE, 0, 0),
            (true, true) => self.stage(COMPARE, written, fill),
            (true, false) if written == 0 => self.stage(ERASE, 0, 0),
            (true, false) => self.data_due(),
        }
    }
    pub fn data_due(&mut self) {
        let (written, fill) = (self.n(WRITTEN), self.n(FILL));
        if written % SECTOR == 0 {
            self.stage(ERASE, written / SECTOR + 1, 0);
        } else {
            self.stage(WRITE, written, fill);
        }
    }
    pub fn word(&self, source: usize, at: usize) -> u32 {
        door::get(&self.sources[source], at)
    }
    /// A table's offset, length and CRC.
    pub fn block(&self, source: usize, table: usize) -> [u32; 3] {
        [0, 4, 8].map(|at| self.word(source, 84 + 12 * table + at))
    }
    pub fn key_length(&self) -> u32 {
        self.block(0, 0)[0].saturating_sub(8)
    }
}

/// The bank that a commit would make.
impl Fields {
    fn checked_at(&self, stamp: Option<i64>) -> i64 {
        stamp.filter(|stamp| *stamp >= self.now).unwrap_or(self.now)
    }
    fn fit_source(&self, i: usize, checked: i64) -> bool {
        let (start, end) = (self.word(i, 0), self.word(i, 4));
        let updated = i64::from_le_bytes(self.sources[i][12..20].try_into().unwrap());
        let dates = door::valid_date(start) && door::valid_date(end) && start <= end;
        let time = updated == UNKNOWN || (0..=checked).contains(&updated);
        let block = |t| {
            let [offset, length, _] = self.block(i, t).map(u64::from);
            let within = offset + length <= self.numbers[WRITTEN].into();
            length == 0 || (u64::from(self.key_length()) <= offset && within)
        };
        let texts = self.sources[i][192] <= 80 && self.sources[i][273] <= 64;
        dates && self.word(i, 8) <= 255 && time && (0..8).all(block) && texts
    }
    /// Refusal 13
    pub fn fit(&self, stamp: Option<i64>) -> bool {
        let (length, key) = (self.numbers[WRITTEN], self.key_length());
        let checked = self.checked_at(stamp);
        (1..=length).contains(&key)
            && length as usize <= CAPACITY
            && (1..=3).contains(&self.n(SOURCES))
            && checked >= 0
            && (0..self.n(SOURCES)).all(|i| self.fit_source(i, checked))
    }
    fn generation(&self) -> u32 {
        if self.numbers[KIND] == 1 { self.numbers[GENERATION].wrapping_add(1) } else { 0 }
    }
    /// The header, with 255 in the commit word.
    pub fn header(&self, stamp: Option<i64>) -> Vec<u8> {
        let mut out = b"TTFC".to_vec();
        let (length, crc) = (self.numbers[WRITTEN], self.numbers[TAKEN_CRC]);
        let (count, key) = (self.numbers[SOURCES], self.key_length());
        for word in [3, self.generation(), length, crc, count, key, 0] {
            out.extend(word.to_le_bytes());
        }
        out.extend(self.checked_at(stamp).to_le_bytes());
        out.extend([0; 8]);
        for source in &self.sources[..count as usize] {
            out.extend(&source[..339]);
            out.extend([0; 45]);
        }
        out.resize(48 + 3 * 384, 0);
        let seal = crc32fast::hash(&out);
        out[40..44].copy_from_slice(&seal.to_le_bytes());
        out[WORD..][..WORD_SIZE].fill(255);
        out
    }
}
