//! An update, call by call: the lower layer, one flash operation a call, and the
//! upper layer, whole rows and tables. Any state has an answer, and so has every
//! region, table, record and row; nothing needs a check beforehand.
use crate::{answers::Refusal, banks::Picks, constants::*, rows::Values};

mod core_interface {
    use super::{State, Step};

    #[repr(C)]
    pub struct OperationNumbers {
        pub refusal: u32,
        pub kind: u32,
        pub bank: u32,
        pub offset: u64,
        pub length: u64,
    }

    unsafe extern "C" {
        pub fn tt_update_begin(
            region: *const u8,
            n: u64,
            comparing: bool,
            now: i64,
            state: State,
        ) -> Step;
        pub fn tt_update_source(state: State, record: *const u8, n: u64) -> Step;
        pub safe fn tt_update_table(state: State, table: u32) -> Step;
        pub fn tt_update_bytes(state: State, bytes: *const u8, n: u64) -> Step;
        pub safe fn tt_update_end(state: State) -> Step;
        pub safe fn tt_update_close(state: State) -> Step;
        pub fn tt_update_due(region: *mut u8, n: u64, state: State) -> Step;
        pub safe fn tt_update_operation(state: State) -> OperationNumbers;
        pub fn tt_update_unchanged(region: *const u8, n: u64, state: State) -> Step;
        pub fn tt_update_commit(
            region: *mut u8,
            n: u64,
            state: State,
            stamped: bool,
            stamp: i64,
            current: bool,
        ) -> Step;
        pub fn tt_update_commit_word(region: *mut u8, n: u64, state: State) -> Step;
        pub fn tt_upper_begin(
            region: *mut u8,
            n: u64,
            comparing: bool,
            now: i64,
            identity: *const u8,
            identity_length: u64,
            texts: *const u8,
            texts_length: u64,
            lengths: *const u32,
            lengths_length: u64,
            state: State,
        ) -> Step;
        pub fn tt_upper_source(
            region: *mut u8,
            n: u64,
            state: State,
            record: *const u8,
            size: u64,
        ) -> Step;
        pub fn tt_upper_table(region: *mut u8, n: u64, state: State, table: u32) -> Step;
        pub fn tt_upper_row(
            region: *mut u8,
            n: u64,
            state: State,
            texts: *const u8,
            texts_length: u64,
            lengths: *const u32,
            lengths_length: u64,
        ) -> Step;
        pub fn tt_upper_end(region: *mut u8, n: u64, state: State) -> Step;
        pub fn tt_upper_close(region: *mut u8, n: u64, state: State) -> Step;
    }
}
use core_interface::*;

pub use crate::constants::answer::{APPENDED, DIFFERENT, DONE, NONE_DUE, SAME};

/// What a call answers. A refusal is its number, 0 for none; beside one the other
/// numbers are 0.
///
/// ```
/// use bankcore::update::{APPENDED, State};
/// let region = std::fs::read("../../samples/two-good.img")?;
/// let (mut state, begun) = State::new(&region, false, 0);
/// assert_eq!(begun.refused(), None);
/// let answer = state.append(&[7; 300]);
/// assert_eq!((answer.answer, answer.count), (APPENDED, 256));
/// # Ok::<(), std::io::Error>(())
/// ```
#[repr(C)]
#[derive(Clone, Copy, Debug, Default, PartialEq, Eq)]
pub struct Answer {
    /// The refusal's number, 0 for none.
    pub refusal: u32,
    /// One of `constants::answer`.
    pub answer: u32,
    /// How many bytes were appended.
    pub count: u32,
}

impl Answer {
    /// The refusal, if the call was refused.
    pub fn refused(&self) -> Option<Refusal> {
        Refusal::of(self.refusal)
    }
}

#[repr(C)]
struct Step {
    answer: Answer,
    state: State,
}

#[repr(C)]
#[derive(Clone, Copy, Debug, PartialEq, Eq)]
struct Bank {
    /// Number, version, generation, length, CRC, count, key length.
    numbers: [u32; 7],
    checked: i64,
}

/// Two numbers of a table's original, three of its block, for all tables.
const TABLE_NUMBERS: usize = 5 * TABLES;

#[repr(C)]
#[derive(Clone, Copy, Debug, PartialEq, Eq)]
struct Source {
    /// Start, end, present.
    numbers: [u32; 3],
    updated: i64,
    /// The originals' pairs (CRC and length), then offset, length and CRC of each
    /// block.
    tables: [u32; TABLE_NUMBERS],
    stamp: [u8; STAMP_SIZE],
    idlen: u8,
    id: [u8; ID_SIZE],
    validator: [u8; VALIDATOR_SIZE],
}

/// The state of an update. A refused call leaves it as it was. The default is a
/// state on which every call but a beginning is refused.
///
/// ```
/// use bankcore::{Refusal, update::State};
/// let mut state = State::default();
/// assert_eq!(state.begin(&[], false, 0).refused(), Some(Refusal::Region));
/// assert_eq!(state, State::default());
/// assert_eq!(state.close().refused(), Some(Refusal::Turn));
/// ```
#[repr(C)]
#[derive(Clone, Copy, Debug, PartialEq, Eq)]
pub struct State {
    /// The stage, the due operation's two numbers, the active bank's kind.
    stage: [u32; 4],
    bank: Bank,
    now: i64,
    /// Comparing, written, fill, CRC, different, closed; count, table, start,
    /// CRC, begun.
    numbers: [u32; 11],
    sources: [Source; SOURCES],
    tail: [u8; TAIL_SIZE],
}

/// How many bytes a state has, as `to_bytes` gives them: its numbers one after
/// the other, little-endian.
pub const SIZE: usize = 16 + 36 + 8 + 44 + 3 * 339 + 256;

/// How many bytes an answer with its state has in the C interface.
pub const STEP: usize = size_of::<Step>();

const _: () = assert!(size_of::<State>() == 1400 && STEP == 1416);

/// The operation that comes next; all numbers are 0 beside a refusal, and if there
/// is none.
///
/// ```
/// use bankcore::{constants::{SECTOR_SIZE, operation}, update::State};
/// let region = std::fs::read("../../samples/two-good.img")?;
/// let mut state = State::new(&region, false, 0).0;
/// assert_eq!(state.operation().kind, operation::NONE);
/// state.append(&[7; 256]);
/// let next = state.operation();
/// assert_eq!((next.kind, next.bank, next.offset, next.length), (operation::ERASE, 0, 0, SECTOR_SIZE));
/// # Ok::<(), std::io::Error>(())
/// ```
#[derive(Clone, Copy, Debug, Default, PartialEq, Eq)]
pub struct OperationAnswer {
    /// The refusal's number, 0 for none.
    pub refusal: u32,
    /// One of `constants::operation`.
    pub kind: u32,
    /// The number of its bank.
    pub bank: u32,
    /// The offset of its first byte in the bank.
    pub offset: usize,
    /// How many bytes it has.
    pub length: usize,
}

/// Goes through a state's bytes in order, and copies them to or from the state.
struct Copier<'a> {
    bytes: &'a mut [u8; SIZE],
    at: usize,
    to_state: bool,
}

impl Copier<'_> {
    fn raw(&mut self, field: &mut [u8]) {
        let bytes = &mut self.bytes[self.at..self.at + field.len()];
        if self.to_state {
            field.copy_from_slice(bytes);
        } else {
            bytes.copy_from_slice(field);
        }
        self.at += field.len();
    }
    fn words(&mut self, field: &mut [u32]) {
        for word in field {
            let mut bytes = word.to_le_bytes();
            self.raw(&mut bytes);
            *word = u32::from_le_bytes(bytes);
        }
    }
    fn time(&mut self, field: &mut i64) {
        let mut bytes = field.to_le_bytes();
        self.raw(&mut bytes);
        *field = i64::from_le_bytes(bytes);
    }
}

impl State {
    fn copy(&mut self, bytes: &mut [u8; SIZE], to_state: bool) {
        let mut copier = Copier { bytes, at: 0, to_state };
        copier.words(&mut self.stage);
        copier.words(&mut self.bank.numbers);
        copier.time(&mut self.bank.checked);
        copier.time(&mut self.now);
        copier.words(&mut self.numbers);
        for source in &mut self.sources {
            copier.words(&mut source.numbers);
            copier.time(&mut source.updated);
            copier.words(&mut source.tables);
            copier.raw(&mut source.stamp);
            copier.raw(core::slice::from_mut(&mut source.idlen));
            copier.raw(&mut source.id);
            copier.raw(&mut source.validator);
        }
        copier.raw(&mut self.tail);
    }
    const fn empty() -> Self {
        let source = Source {
            numbers: [0; 3],
            updated: 0,
            tables: [0; TABLE_NUMBERS],
            stamp: [0; STAMP_SIZE],
            idlen: 0,
            id: [0; ID_SIZE],
            validator: [0; VALIDATOR_SIZE],
        };
        Self {
            stage: [u32::MAX, 0, 0, 0],
            bank: Bank { numbers: [0; 7], checked: 0 },
            now: 0,
            numbers: [0; 11],
            sources: [source; SOURCES],
            tail: [0; TAIL_SIZE],
        }
    }
    /// The state that these bytes are; any are allowed.
    pub fn from_bytes(mut bytes: [u8; SIZE]) -> Self {
        let mut state = Self::empty();
        state.copy(&mut bytes, true);
        state
    }
    /// The state's bytes.
    pub fn to_bytes(&self) -> [u8; SIZE] {
        let mut bytes = [0; SIZE];
        let mut state = *self;
        state.copy(&mut bytes, false);
        bytes
    }
    fn replace(&mut self, step: Step) -> Answer {
        *self = step.state;
        step.answer
    }
    /// Copies the other's numbers: all that `due` changes.
    #[doc(hidden)]
    pub fn copy_numbers(&mut self, other: &Self) {
        (self.stage, self.bank) = (other.stage, other.bank);
        (self.now, self.numbers) = (other.now, other.numbers);
    }
    /// Copies the other's numbers and tail: all that `append` and `upper_row`
    /// change. These calls and `due` leave the sources, three quarters of a state
    /// (crates/writer/specs/Parts.antt).
    #[doc(hidden)]
    pub fn copy_parts(&mut self, other: &Self) {
        self.copy_numbers(other);
        self.tail = other.tail;
    }
    /// The operation that comes next: what `due` does; else, once an update that
    /// isn't compared is closed, the header that `commit` writes unless it is
    /// refused, then the commit word; else none.
    pub fn operation(&self) -> OperationAnswer {
        let next = tt_update_operation(*self);
        let (offset, length) = (next.offset as usize, next.length as usize);
        OperationAnswer { refusal: next.refusal, kind: next.kind, bank: next.bank, offset, length }
    }
}

impl Default for State {
    fn default() -> Self {
        Self::empty()
    }
}

/// The calls that leave the sources, with the whole state as the C interface
/// returns it.
impl State {
    fn appended(&self, bytes: &[u8]) -> Step {
        unsafe { tt_update_bytes(*self, bytes.as_ptr(), bytes.len() as u64) }
    }
    fn operated(&self, region: &mut [u8]) -> Step {
        unsafe { tt_update_due(region.as_mut_ptr(), region.len() as u64, *self) }
    }
    fn row_appended(&self, region: &mut [u8], values: Values) -> Step {
        unsafe {
            tt_upper_row(
                region.as_mut_ptr(),
                region.len() as u64,
                *self,
                values.texts.as_ptr(),
                values.texts.len() as u64,
                values.lengths.as_ptr(),
                values.lengths.len() as u64,
            )
        }
    }
    /// `append`, with all of the returned state: for comparing.
    #[doc(hidden)]
    pub fn append_whole(&mut self, bytes: &[u8]) -> Answer {
        let step = self.appended(bytes);
        self.replace(step)
    }
    /// `due`, with all of the returned state.
    #[doc(hidden)]
    pub fn due_whole(&mut self, region: &mut [u8]) -> Answer {
        let step = self.operated(region);
        self.replace(step)
    }
    /// `upper_row`, with all of the returned state.
    #[doc(hidden)]
    pub fn upper_row_whole(&mut self, region: &mut [u8], values: Values) -> Answer {
        let step = self.row_appended(region, values);
        self.replace(step)
    }
}

/// The lower layer: a call does at most one flash operation.
impl State {
    /// Begins an update on a region; if it is refused, so is every other call on the
    /// state.
    pub fn new(region: &[u8], comparing: bool, now: i64) -> (Self, Answer) {
        let mut state = Self::empty();
        let answer = state.begin(region, comparing, now);
        (state, answer)
    }
    /// Begins an update, which replaces the one that was there.
    pub fn begin(&mut self, region: &[u8], comparing: bool, now: i64) -> Answer {
        let (at, n) = (region.as_ptr(), region.len() as u64);
        let step = unsafe { tt_update_begin(at, n, comparing, now, *self) };
        self.replace(step)
    }
    /// Begins a source; its record is version 3's, 384 bytes. Missing bytes
    /// are 0.
    pub fn source(&mut self, record: &[u8]) -> Answer {
        let step = unsafe { tt_update_source(*self, record.as_ptr(), record.len() as u64) };
        self.replace(step)
    }
    /// Begins a table of the last source.
    pub fn table(&mut self, table: u32) -> Answer {
        let step = tt_update_table(*self, table);
        self.replace(step)
    }
    /// Appends bytes until the tail is full, and says how many; none while an
    /// operation is due.
    pub fn append(&mut self, bytes: &[u8]) -> Answer {
        let step = self.appended(bytes);
        self.copy_parts(&step.state);
        step.answer
    }
    /// Ends the open table.
    pub fn end(&mut self) -> Answer {
        let step = tt_update_end(*self);
        self.replace(step)
    }
    /// No more bytes: what the tail holds is then due.
    pub fn close(&mut self) -> Answer {
        let step = tt_update_close(*self);
        self.replace(step)
    }
    /// Does the erase, write or comparison that is due, or says that none is.
    pub fn due(&mut self, region: &mut [u8]) -> Answer {
        let step = self.operated(region);
        self.copy_numbers(&step.state);
        step.answer
    }
    /// Whether the active bank equals what was compared with it.
    pub fn unchanged(&mut self, region: &[u8]) -> Answer {
        let step = unsafe { tt_update_unchanged(region.as_ptr(), region.len() as u64, *self) };
        self.replace(step)
    }
    /// The first write of a commit: the header without its commit word.
    pub fn commit(&mut self, region: &mut [u8], stamp: Option<i64>, current: bool) -> Answer {
        let (at, n) = (region.as_mut_ptr(), region.len() as u64);
        let (stamped, stamp) = (stamp.is_some(), stamp.unwrap_or_default());
        let step = unsafe { tt_update_commit(at, n, *self, stamped, stamp, current) };
        self.replace(step)
    }
    /// The second write of a commit: the commit word.
    pub fn commit_word(&mut self, region: &mut [u8]) -> Answer {
        let step =
            unsafe { tt_update_commit_word(region.as_mut_ptr(), region.len() as u64, *self) };
        self.replace(step)
    }
}

/// The upper layer: a call does all its flash operations, and leaves none due.
impl State {
    /// Begins an update, which replaces the one that was there, and appends the key
    /// of an identity and picks.
    pub fn upper_begin(
        &mut self,
        region: &mut [u8],
        comparing: bool,
        now: i64,
        identity: &[u8],
        picks: Picks,
    ) -> Answer {
        let step = unsafe {
            tt_upper_begin(
                region.as_mut_ptr(),
                region.len() as u64,
                comparing,
                now,
                identity.as_ptr(),
                identity.len() as u64,
                picks.texts.as_ptr(),
                picks.texts.len() as u64,
                picks.lengths.as_ptr(),
                picks.lengths.len() as u64,
                *self,
            )
        };
        self.replace(step)
    }
    /// Begins a source, and appends its dates; its record is version 3's, 384
    /// bytes. Missing bytes are 0.
    pub fn upper_source(&mut self, region: &mut [u8], record: &[u8]) -> Answer {
        let (at, n) = (region.as_mut_ptr(), region.len() as u64);
        let step = unsafe { tt_upper_source(at, n, *self, record.as_ptr(), record.len() as u64) };
        self.replace(step)
    }
    /// Begins a table of the last source, and appends its names line.
    pub fn upper_table(&mut self, region: &mut [u8], table: u32) -> Answer {
        let step =
            unsafe { tt_upper_table(region.as_mut_ptr(), region.len() as u64, *self, table) };
        self.replace(step)
    }
    /// Appends a row of the open table.
    pub fn upper_row(&mut self, region: &mut [u8], values: Values) -> Answer {
        let step = self.row_appended(region, values);
        self.copy_parts(&step.state);
        step.answer
    }
    /// Ends the open table.
    pub fn upper_end(&mut self, region: &mut [u8]) -> Answer {
        let step = unsafe { tt_upper_end(region.as_mut_ptr(), region.len() as u64, *self) };
        self.replace(step)
    }
    /// Closes the update: what the tail holds is written.
    pub fn upper_close(&mut self, region: &mut [u8]) -> Answer {
        let step = unsafe { tt_upper_close(region.as_mut_ptr(), region.len() as u64, *self) };
        self.replace(step)
    }
}
