//! A state's numbers, read and written: the only module here that knows its form.
use crate::{
    run::hex_then_zeros,
    shrink::{Moves, each, number, zeros},
};
use bankcore::update::State;
use common::Random;

/// The indexes of the numbers in `Fields::numbers`.
pub const STAGE: usize = 0;
pub const FIRST: usize = 1;
pub const SECOND: usize = 2;
pub const KIND: usize = 3;
pub const NUMBER: usize = 4;
pub const VERSION: usize = 5;
pub const GENERATION: usize = 6;
pub const LENGTH: usize = 7;
pub const COUNT: usize = 9;
pub const KEY: usize = 10;
pub const COMPARING: usize = 11;
pub const WRITTEN: usize = 12;
pub const FILL: usize = 13;
pub const TAKEN_CRC: usize = 14;
pub const DIFFERS: usize = 15;
pub const CLOSED: usize = 16;
pub const SOURCES: usize = 17;
pub const TABLE: usize = 18;
pub const START: usize = 19;
pub const TABLE_CRC: usize = 20;
pub const BEGUN: usize = 21;
pub const NUMBERS: usize = 22;

pub const IDLE: u32 = 0;
pub const ERASE: u32 = 1;
pub const WRITE: u32 = 2;
pub const COMPARE: u32 = 3;
pub const HEADED: u32 = 4;
pub const COMMITTED: u32 = 5;

/// How many bytes of a record a state has; those after them are 0.
const RECORD: usize = 339;

/// What a state holds. A stage is one of the six above, with its operation's
/// two numbers; the active bank's kind is 0 for none and 1 for a bank.
#[derive(Clone, Debug, PartialEq, Eq)]
pub struct Fields {
    pub numbers: [u32; NUMBERS],
    pub checked: i64,
    pub now: i64,
    pub sources: [[u8; 384]; 3],
    pub tail: [u8; 256],
}

impl Fields {
    pub fn random(random: &mut Random) -> Self {
        Self {
            numbers: std::array::from_fn(|_| random.u32()),
            checked: random.u64() as i64,
            now: random.u64() as i64,
            sources: std::array::from_fn(|_| {
                let mut record = random.bytes(RECORD);
                record.resize(384, 0);
                record.try_into().unwrap()
            }),
            tail: random.bytes(256).try_into().unwrap(),
        }
    }
    pub fn of(state: &State) -> Self {
        let bytes = state.to_bytes();
        let word = |at: usize| u32::from_le_bytes(bytes[at..][..4].try_into().unwrap());
        let time = |at: usize| i64::from_le_bytes(bytes[at..][..8].try_into().unwrap());
        let source = |at: usize| {
            let mut record = [0; 384];
            record[..RECORD].copy_from_slice(&bytes[at..][..RECORD]);
            record
        };
        Self {
            numbers: std::array::from_fn(|i| word(4 * i + if i < COMPARING { 0 } else { 16 })),
            checked: time(44),
            now: time(52),
            sources: [104, 104 + RECORD, 104 + 2 * RECORD].map(source),
            tail: bytes[104 + 3 * RECORD..].try_into().unwrap(),
        }
    }
    pub fn state(&self) -> State {
        let word = |n: &u32| n.to_le_bytes();
        let mut bytes: Vec<u8> = self.numbers[..COMPARING].iter().flat_map(word).collect();
        bytes.extend(self.checked.to_le_bytes());
        bytes.extend(self.now.to_le_bytes());
        bytes.extend(self.numbers[COMPARING..].iter().flat_map(word));
        self.sources.iter().for_each(|source| bytes.extend(&source[..RECORD]));
        bytes.extend(self.tail);
        State::from_bytes(bytes.try_into().expect("a state's bytes"))
    }
    /// With a number or bytes that are smaller.
    pub fn smaller(&self) -> Moves<'_, Self> {
        let one = |n: &u32| -> Moves<'_, u32> { Box::new(number((*n).into()).map(|n| n as u32)) };
        let numbers = each(&self.numbers, one);
        let numbers = numbers.map(|n| Self { numbers: n.try_into().unwrap(), ..self.clone() });
        let record = |bytes: &[u8; 384]| -> Vec<[u8; 384]> {
            zeros(bytes).map(|b| b.try_into().unwrap()).collect()
        };
        let sources = each(&self.sources, move |s| Box::new(record(s).into_iter()));
        let sources = sources.map(|s| Self { sources: s.try_into().unwrap(), ..self.clone() });
        let tails = zeros(&self.tail).map(|t| Self { tail: t.try_into().unwrap(), ..self.clone() });
        let times = (self.now, self.checked) != (0, 0);
        let times = times.then(|| Self { now: 0, checked: 0, ..self.clone() });
        Box::new(sources.chain(tails).chain(times).chain(numbers))
    }
    pub fn show(&self) -> String {
        let Self { numbers, checked, now, sources, tail } = self;
        let sources: Vec<String> = sources.iter().map(|s| hex_then_zeros(s)).collect();
        format!(
            "numbers {numbers:?}, checked {checked}, now {now}, sources {}, tail {}",
            sources.join(" / "),
            hex_then_zeros(tail)
        )
    }
    /// Where the written bank starts in the region.
    pub fn target(&self) -> usize {
        let second = self.numbers[KIND] == 1 && self.numbers[NUMBER] == 0;
        usize::from(second) * common::made::BANK
    }
}
