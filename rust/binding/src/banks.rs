//! Keys and banks. A region of any length has an answer, and so has every bank
//! number, pick and state; nothing needs a check beforehand.
use crate::{answers::*, constants::*, core_interface::*};

/// Picks as they are passed: all texts one after the other, and five lengths to a
/// pick (line, route, stop code, stop, stop name). A length past the texts' end
/// means what is left, a missing one 0; bytes after the last text are ignored.
/// [`JoinedPicks`] joins them.
///
/// ```
/// use bankcore::{banks::Picks, cache};
/// let picks = Picks { texts: b"7rsn", lengths: &[1, 1, 0, 1, 1] };
/// let mut out = [0; 16];
/// assert_eq!(cache::key(&[], picks, &mut out), Ok(10));
/// assert_eq!(out[..10], [1, 1, b'7', 1, b'r', 0, 1, b's', 1, b'n']);
/// ```
#[derive(Clone, Copy, Debug, Default)]
pub struct Picks<'a> {
    /// All texts, joined.
    pub texts: &'a [u8],
    /// The length of each, five to a pick.
    pub lengths: &'a [u32],
}

/// The longest text of each field.
const LONGEST: [usize; PICK_FIELDS] = [MAX_LINE, MAX_ROUTE, MAX_STOP_CODE, MAX_STOP, MAX_STOP_NAME];

/// A pick too many, and a byte too many of each text, are kept: they are refused.
const PICKS: usize = MAX_PICKS + 1;
const TEXTS: usize =
    PICKS * (MAX_LINE + MAX_ROUTE + MAX_STOP_CODE + MAX_STOP + MAX_STOP_NAME + PICK_FIELDS);

/// Picks joined from their texts, line, route, stop code, stop and stop name of
/// each. What a key can't hold, a pick too many or a text that is too long, is cut
/// so that a call with it is refused (2) all the same.
///
/// ```
/// use bankcore::{Refusal, banks::JoinedPicks, cache};
/// let picks = JoinedPicks::new(&[["7", "r", "", "s", "n"]]);
/// let mut out = [0; 16];
/// assert_eq!(cache::key(&[], &picks, &mut out), Ok(10));
/// let line = [&b"a line of pick"[..], b"", b"", b"", b""];
/// assert_eq!(cache::key(&[], &JoinedPicks::new(&[line]), &mut out), Err(Refusal::Argument));
/// ```
#[derive(Clone, Debug)]
pub struct JoinedPicks {
    texts: [u8; TEXTS],
    size: usize,
    lengths: [u32; PICKS * PICK_FIELDS],
    count: usize,
}

impl JoinedPicks {
    /// Joins the texts of some picks.
    pub fn new<T: AsRef<[u8]>>(picks: &[[T; PICK_FIELDS]]) -> Self {
        let mut joined =
            Self { texts: [0; TEXTS], size: 0, lengths: [0; PICKS * PICK_FIELDS], count: 0 };
        for pick in picks.iter().take(PICKS) {
            for (text, longest) in pick.iter().zip(LONGEST) {
                let text = text.as_ref();
                joined.append(&text[..text.len().min(longest + 1)]);
            }
        }
        joined
    }

    fn append(&mut self, text: &[u8]) {
        self.texts[self.size..][..text.len()].copy_from_slice(text);
        self.size += text.len();
        self.lengths[self.count] = text.len() as u32;
        self.count += 1;
    }
}

impl<'a> From<&'a JoinedPicks> for Picks<'a> {
    fn from(joined: &'a JoinedPicks) -> Self {
        Self { texts: &joined.texts[..joined.size], lengths: &joined.lengths[..joined.count] }
    }
}

/// All tests of a bank, its data's CRC too.
pub fn validate(region: &[u8], bank: u32) -> BankAnswer {
    unsafe { tt_validate(region.as_ptr(), region.len() as u64, bank) }
}

/// All tests of a bank but its data's CRC.
pub fn header(region: &[u8], bank: u32) -> BankAnswer {
    unsafe { tt_header(region.as_ptr(), region.len() as u64, bank) }
}

/// The bank in use, if one is good.
pub fn load(region: &[u8]) -> BankAnswer {
    unsafe { tt_load(region.as_ptr(), region.len() as u64) }
}

/// A source's record in version 3's form, into the first 384 bytes of `out`;
/// the refusal's number, 0 for none.
pub fn source(region: &[u8], bank: u32, index: u32, out: &mut [u8]) -> u32 {
    unsafe {
        tt_source(
            region.as_ptr(),
            region.len() as u64,
            bank,
            index,
            out.as_mut_ptr(),
            out.len() as u64,
        )
    }
}

/// When the bank was checked and the sources of the wanted days were updated.
pub fn fresh(
    region: &[u8],
    bank: u32,
    [day0, day1, day2]: [u32; 3],
    [wanted0, wanted1, wanted2]: [bool; 3],
    now: i64,
) -> FreshAnswer {
    let (at, n) = (region.as_ptr(), region.len() as u64);
    unsafe { tt_fresh(at, n, bank, day0, day1, day2, wanted0, wanted1, wanted2, now) }
}

/// The key of an identity and picks, into the first bytes of `out`.
pub fn key(identity: &[u8], picks: Picks, out: &mut [u8]) -> KeyAnswer {
    let key = unsafe {
        tt_key(
            identity.as_ptr(),
            identity.len() as u64,
            picks.texts.as_ptr(),
            picks.texts.len() as u64,
            picks.lengths.as_ptr(),
            picks.lengths.len() as u64,
            out.as_mut_ptr(),
            out.len() as u64,
        )
    };
    KeyAnswer { refusal: key.refusal, length: key.length as usize }
}

/// Whether the bank's key is that of an identity and picks.
pub fn same_key(region: &[u8], bank: u32, identity: &[u8], picks: Picks) -> SameKeyAnswer {
    unsafe {
        tt_same_key(
            region.as_ptr(),
            region.len() as u64,
            bank,
            identity.as_ptr(),
            identity.len() as u64,
            picks.texts.as_ptr(),
            picks.texts.len() as u64,
            picks.lengths.as_ptr(),
            picks.lengths.len() as u64,
        )
    }
}

/// Begins checking a bank's data in turns.
pub fn check_start(region: &[u8], bank: u32) -> TurnAnswer {
    unsafe { tt_check_start(region.as_ptr(), region.len() as u64, bank) }
}

/// One turn of at most `n` bytes, from the state that the turn before gave.
pub fn check_turn(region: &[u8], bank: u32, position: u32, crc: u32, n: u32) -> TurnAnswer {
    unsafe { tt_check_turn(region.as_ptr(), region.len() as u64, bank, position, crc, n) }
}

/// The row at an offset of a source's table, the names line being the one at 0: its
/// values, joined, into the first bytes of `out`, and where each ends into `ends`. A row
/// ends in LF or CRLF.
pub fn bank_row(
    region: &[u8],
    bank: u32,
    source: u32,
    table: u32,
    place: usize,
    out: &mut [u8],
    ends: &mut [usize],
) -> BankRowAnswer {
    unsafe {
        tt_bank_row(
            region.as_ptr(),
            region.len() as u64,
            bank,
            source,
            table,
            place as u64,
            out.as_mut_ptr(),
            out.len() as u64,
            ends.as_mut_ptr().cast(),
            ends.len() as u64,
        )
    }
}
