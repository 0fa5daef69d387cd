//! Checking a bank's data in turns.
use super::answered;
use crate::{answers::TurnAnswer, banks, get, put, refusal::Refusal};

/// What a turn of checking says.
///
/// ```
/// use bankcore::cache::{Checking, Turn};
/// let region = std::fs::read("../../samples/two-good.img")?;
/// let mut checking = Checking::new(&region, 1)?;
/// assert_eq!(checking.turn(&region, 10)?, Turn::Hashed(10));
/// # Ok::<(), Box<dyn std::error::Error>>(())
/// ```
#[derive(Clone, Copy, Debug, PartialEq, Eq)]
pub enum Turn {
    /// The number of bytes hashed in this turn.
    Hashed(u32),
    /// All bytes were hashed, and their CRC is the header's.
    Good,
}

/// The state of checking a bank's data in turns. It may be kept as its bytes and
/// made from any: one out of its ranges is refused (11).
///
/// ```
/// use bankcore::cache::{Checking, Turn};
/// let region = std::fs::read("../../samples/two-good.img")?;
/// let mut checking = Checking::new(&region, 1)?;
/// while checking.turn(&region, 256)? != Turn::Good {
///     // the main loop's other work
///     checking = Checking::from_bytes(checking.bytes());
/// }
/// # Ok::<(), Box<dyn std::error::Error>>(())
/// ```
#[derive(Clone, Copy, Debug, PartialEq, Eq)]
pub struct Checking([u8; 12]);

impl Checking {
    /// Begins with a bank.
    pub fn new(region: &[u8], bank: u32) -> Result<Self, Refusal> {
        let a = banks::check_start(region, bank);
        answered(a.refusal, Self::of(&a))
    }

    /// The state that these bytes are; any are allowed.
    pub fn from_bytes(bytes: [u8; 12]) -> Self {
        Self(bytes)
    }

    /// The state's bytes: bank, position and CRC.
    pub fn bytes(self) -> [u8; 12] {
        self.0
    }

    /// One turn of at most `n` bytes. A refused turn leaves the state.
    pub fn turn(&mut self, region: &[u8], n: u32) -> Result<Turn, Refusal> {
        let (bank, position, crc) = (get(&self.0, 0), get(&self.0, 4), get(&self.0, 8));
        let a = banks::check_turn(region, bank, position, crc, n);
        *self = Self::of(&a);
        let turn = if a.verdict == 1 { Turn::Good } else { Turn::Hashed(a.count) };
        answered(a.refusal, turn)
    }

    fn of(a: &TurnAnswer) -> Self {
        let mut bytes = [0; 12];
        put(&mut bytes, 0, a.bank);
        put(&mut bytes, 4, a.position);
        put(&mut bytes, 8, a.crc);
        Self(bytes)
    }
}
