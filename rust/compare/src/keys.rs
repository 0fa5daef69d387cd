//! Keys: `key`, from identity and picks.
use crate::{
    run::{Case, Plan, Tally, drawn, hex},
    shrink::{Moves, Question, bytes, each, fewer, number},
    wrong::{Wrong, tried},
};
use bankcore::{answers::KeyAnswer, banks::Picks};
use common::{
    Random,
    picks::{LONGEST, SIZES, fields, picks, text},
};
use lifted::{cache::door, gtfs::Error, standins::settings};

pub const LONGEST_KEY: usize = 67_795;

/// A selection as it is passed.
#[derive(Clone, Debug, Default)]
pub struct Selection {
    pub identity: Vec<u8>,
    pub texts: Vec<u8>,
    pub lengths: Vec<u32>,
}

impl Selection {
    pub fn picks(&self) -> Picks<'_> {
        Picks { texts: &self.texts, lengths: &self.lengths }
    }
    pub fn fields(&self) -> Vec<[&[u8]; 5]> {
        fields(&self.texts, &self.lengths)
    }
    /// From picks, exactly.
    pub fn of(identity: &[u8], picks: &[[String; 5]]) -> Self {
        let texts = picks.iter().flatten().flat_map(|f| f.bytes()).collect();
        let lengths = picks.iter().flatten().map(|f| f.len() as u32).collect();
        Self { identity: identity.into(), texts, lengths }
    }
    /// The lifted settings; refusal 2 if they can't be made.
    pub fn config(&self) -> Result<lifted::timetable_display::Config, u32> {
        let fields = self.fields();
        let texts: Vec<[&str; 5]> =
            fields.iter().map(|p| p.map(|f| str::from_utf8(f).expect("texts are UTF-8"))).collect();
        settings::config(&texts).ok_or(2)
    }
    /// The lifted key, or the refusal's number.
    pub fn key(&self) -> Result<Vec<u8>, u32> {
        door::key(&self.config()?, &self.identity).map_err(|error| {
            assert_eq!(error, Error::BufferTooSmall);
            8
        })
    }
    pub fn describe(&self) -> (Vec<u64>, String) {
        let size = self.identity.len() + self.texts.len() + self.lengths.len();
        (vec![size as u64], self.show())
    }
    pub fn show(&self) -> String {
        let shown = |pick: [&[u8]; 5]| pick.map(|f| f.escape_ascii().to_string()).join("|");
        let picks: Vec<String> = self.fields().into_iter().map(shown).collect();
        let Self { identity, lengths, .. } = self;
        let (n, identity, count) = (identity.len(), hex(identity), lengths.len());
        let odd =
            if self.plain() { String::new() } else { format!(", {count} lengths {lengths:?}") };
        format!("identity of {n} bytes ({identity}), picks {picks:?}{odd}")
    }
    /// Whether the lengths are those of the texts, five to a pick.
    fn plain(&self) -> bool {
        let sum: u64 = self.lengths.iter().map(|n| u64::from(*n)).sum();
        sum == self.texts.len() as u64 && self.lengths.len().is_multiple_of(5)
    }
    fn owned(&self) -> Vec<[String; 5]> {
        let text = |f: &[u8]| String::from_utf8_lossy(f).into_owned();
        self.fields().into_iter().map(|pick| pick.map(text)).collect()
    }
    fn is_text(&self) -> bool {
        self.fields().iter().flatten().all(|f| str::from_utf8(f).is_ok())
    }
    /// Fewer picks and shorter fields; first the lengths are made those of the
    /// texts.
    fn smaller_picks(&self) -> Moves<'_, Self> {
        let identity = &self.identity;
        if self.plain() {
            let picks = self.owned();
            let fewer: Vec<_> = fewer(&picks).chain(each(&picks, smaller_pick)).collect();
            return Box::new(fewer.into_iter().map(|picks| Self::of(identity, &picks)));
        }
        let plain = std::iter::once(Self::of(identity, &self.owned()));
        let lengths = fewer(&self.lengths).map(|lengths| Self { lengths, ..self.clone() });
        let texts = fewer(&self.texts).map(|texts| Self { texts, ..self.clone() });
        Box::new(plain.chain(lengths).chain(texts).filter(Self::is_text))
    }
    pub fn smaller(&self) -> Moves<'_, Self> {
        let identities = bytes(&self.identity).map(|identity| Self { identity, ..self.clone() });
        Box::new(self.smaller_picks().chain(identities))
    }
}

/// A pick with letters left out, or with a field of as many bytes, all of them a.
fn smaller_pick(pick: &[String; 5]) -> Moves<'_, [String; 5]> {
    Box::new((0..5).flat_map(move |k| {
        let letters: Vec<char> = pick[k].chars().collect();
        let mut all: Vec<Vec<char>> = fewer(&letters).collect();
        if letters.iter().any(|c| *c != 'a') {
            all.push(vec!['a'; pick[k].len()]);
        }
        all.into_iter().map(move |letters| {
            let mut pick = pick.clone();
            pick[k] = letters.into_iter().collect();
            pick
        })
    }))
}

pub fn identity(random: &mut Random) -> Vec<u8> {
    let length = match random.below(1000) {
        0 => LONGEST,
        1 => LONGEST + 1,
        2 => LONGEST - 1,
        3..10 => 255,
        10..17 => 256,
        17..300 => 0,
        300..500 => 1,
        _ => random.below(70),
    };
    random.bytes(length)
}

fn selection(random: &mut Random) -> Selection {
    let identity = identity(random);
    let count = match random.below(20) {
        0 => 16,
        1 => 17,
        2 => random.below(18),
        _ => random.below(6),
    };
    let over = random.once_in(4);
    let mut made = Selection::of(&identity, &picks(random, count, over));
    change_lengths(random, &mut made);
    made
}

/// Every other time, makes lengths and texts that don't match.
fn change_lengths(random: &mut Random, made: &mut Selection) {
    match random.below(8) {
        // missing lengths, which are 0
        0 => {
            while made.lengths.last() == Some(&0) {
                made.lengths.pop();
            }
        }
        // a length past the end, which is what is left
        1 => {
            if let Some(at) = made.lengths.iter().rposition(|n| *n != 0) {
                made.lengths[at] = match random.below(3) {
                    0 => u32::MAX,
                    1 => made.lengths[at] + 1,
                    _ => u32::MAX - random.below(100) as u32,
                };
            }
        }
        // texts left over
        2 => made.texts.extend(text(random, 5).bytes()),
        // any lengths over letters of one byte
        3 => {
            let n = random.below(90);
            made.texts = (0..random.below(60)).map(|_| random.pick(b"ab\x00\x7f")).collect();
            made.lengths = (0..n).map(|_| any_length(random)).collect();
        }
        _ => {}
    }
}

fn any_length(random: &mut Random) -> u32 {
    match random.below(12) {
        0 => u32::MAX,
        1 => u32::MAX - 1,
        2 => 1 << 31,
        3 => random.below(60) as u32,
        _ => random.below(3) as u32,
    }
}

/// A selection, an output of n bytes, and its content before the call.
#[derive(Clone)]
pub struct Asked {
    selection: Selection,
    room: usize,
    pattern: u8,
}

impl Question for Asked {
    fn list(case: &Case) -> Vec<Self> {
        drawn(case, 250, |random| {
            let selection = selection(random);
            let length = selection.key().map_or(0, |key| key.len());
            let room = match random.below(8) {
                0 => length.saturating_sub(1),
                1 => length,
                2 => random.below(length + 1),
                3 => 0,
                _ => length + random.below(5),
            };
            Self { selection, room, pattern: random.u32() as u8 }
        })
    }
    fn ask(&self, tally: &mut Tally) {
        let Self { selection, room, pattern } = self;
        let before: Vec<u8> = (0..*room).map(|i| pattern.wrapping_add(i as u8)).collect();
        let mut out = before.clone();
        let core = bankcore::banks::key(&selection.identity, selection.picks(), &mut out);
        if tried(Wrong::Key) && core.refusal == 0 {
            let long = selection.fields().iter().any(|pick| pick[3].len() > 1);
            out[core.length - 1] ^= u8::from(long);
        }
        let mut after = before;
        let answer = match selection.key() {
            Err(refusal) => KeyAnswer { refusal, length: 0 },
            Ok(key) if key.len() > *room => KeyAnswer { refusal: 9, length: 0 },
            Ok(key) => {
                after[..key.len()].copy_from_slice(&key);
                KeyAnswer { refusal: 0, length: key.len() }
            }
        };
        let input = |what: &str| (selection.describe().0, format!("{what} of {}", self.show()));
        tally.same(core, answer, || input("the answer"));
        tally.same(out == after, true, || input("whether the bytes are the Rust's,"));
    }
    fn smaller(&self) -> Moves<'_, Self> {
        let selections =
            self.selection.smaller().map(|selection| Self { selection, ..self.clone() });
        let rooms = number(self.room as u64).map(|n| Self { room: n as usize, ..self.clone() });
        let pattern = (self.pattern != 0).then(|| Self { pattern: 0, ..self.clone() });
        Box::new(selections.chain(rooms).chain(pattern))
    }
    fn show(&self) -> String {
        format!("key into {} bytes from {}, {}", self.room, self.pattern, self.selection.show())
    }
}

/// Document 01's worked examples, then the longest key.
pub fn key(_: &Plan, tally: &mut Tally) {
    let pick = |fields: [&str; 5]| fields.map(String::from);
    let named = pick(["7", "r", "", "s", "n"]);
    let coded = pick(["7", "r", "c", "s", "n"]);
    let long: Vec<[String; 5]> = (0..16_usize)
        .map(|i| SIZES.map(|n| if n == 16 { String::new() } else { format!("{i:0n$}") }))
        .collect();
    let longest = Selection::of(&vec![65; LONGEST], &long);
    tally.same(longest.key().map(|k| k.len()), Ok(LONGEST_KEY), || longest.describe());
    for (selection, key) in [
        (Selection::default(), &[0][..]),
        (Selection::of(b"A", &[]), &[255, 1, 0, 65, 0]),
        (Selection::of(b"", &[named]), &[1, 1, 55, 1, 114, 0, 1, 115, 1, 110]),
        (Selection::of(b"", &[coded]), &[1, 1, 55, 1, 114, 1, 99, 1, 115, 0]),
    ] {
        tally.same(selection.key(), Ok(key.to_vec()), || selection.describe());
        for room in 0..key.len() + 3 {
            Asked { selection: selection.clone(), room, pattern: 100 }.ask(tally);
        }
    }
    for room in [LONGEST_KEY - 1, LONGEST_KEY, LONGEST_KEY + 1] {
        Asked { selection: longest.clone(), room, pattern: 100 }.ask(tally);
    }
}
