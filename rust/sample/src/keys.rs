//! Keys, and whether a stored key is that of a selection.
use crate::hex;
use common::{
    Random,
    made::{self, REGION, SECTOR},
    picks::{SIZES, fields, picks},
};
use lifted::{
    cache::door,
    numbered,
    standins::{settings, view::View},
    timetable_display::Config,
};
use std::{
    fmt::{Result, Write as _},
    slice,
};

/// Identity, joined texts, lengths (five to a pick).
#[derive(Clone)]
pub struct Selection {
    pub identity: Vec<u8>,
    texts: Vec<u8>,
    lengths: Vec<u8>,
}

impl Selection {
    pub fn of(identity: &[u8], picks: &[[String; 5]]) -> Self {
        Self {
            identity: identity.into(),
            texts: picks.iter().flatten().flat_map(|f| f.bytes()).collect(),
            lengths: picks.iter().flatten().map(|f| f.len() as u8).collect(),
        }
    }
    pub fn config(&self) -> Config {
        let lengths: Vec<u32> = self.lengths.iter().map(|n| (*n).into()).collect();
        let fields = fields(&self.texts, &lengths);
        let texts: Vec<[&str; 5]> =
            fields.iter().map(|p| p.map(|f| str::from_utf8(f).unwrap())).collect();
        settings::config(&texts).unwrap()
    }
    pub fn key(&self) -> Vec<u8> {
        door::key(&self.config(), &self.identity).unwrap()
    }
    pub fn words(&self) -> String {
        format!("{} {} {}", hex(&self.identity), hex(&self.texts), hex(&self.lengths))
    }
}

/// Whether the lifted `same_key` finds the selection's key in a bank with this
/// one.
fn same(region: &mut [u8], stored: &[u8], selection: &Selection) -> bool {
    let made = made::good(&mut Random::new(1), stored.len() as u32, stored.len() as u32 + 9);
    region[SECTOR..][..stored.len()].copy_from_slice(stored);
    made.write(region, 0);
    let view = View { identity: &selection.identity, ..View::new(region) };
    let bank = numbered::validate(&view, 0).unwrap();
    door::same_key(bank, &view, &selection.config()).unwrap()
}

fn pick(fields: [&str; 5]) -> [String; 5] {
    fields.map(String::from)
}

/// Selections that are always asked for.
fn fixed() -> Vec<Selection> {
    let named = pick(["7", "r", "", "s", "n"]);
    let coded = pick(["7", "r", "c", "s", "n"]);
    let renamed = pick(["7", "r", "c", "s", "another name"]);
    let lines = ["b", "a", "ab", "aa", "", "\u{7f}", "\u{80}", "\u{e9}", "Z", "a"];
    let lines: Vec<_> = lines.iter().map(|line| pick([line, "", "", "", ""])).collect();
    let names: Vec<_> = ["n", "", "m", "nn"].iter().map(|n| pick(["", "", "", "s", n])).collect();
    let full = SIZES.map(|n| "x".repeat(n));
    let nameless = [0, 1, 2, 3, 4].map(|k| if k == 2 { String::new() } else { full[k].clone() });
    vec![
        Selection::of(b"", &[]),
        Selection::of(b"A", &[]),
        Selection::of(b"", slice::from_ref(&named)),
        Selection::of(b"", slice::from_ref(&coded)),
        Selection::of(b"A", &[coded.clone(), named.clone(), coded.clone(), renamed]),
        Selection::of(b"", &vec![named.clone(); 16]),
        Selection::of(b"", &lines),
        Selection::of(b"", &names),
        Selection::of(b"mdb-1078 Europe/Oslo", &[nameless, full]),
        Selection::of(b"", &[pick([""; 5])]),
        Selection::of(b"", &[pick([""; 5]), named, pick([""; 5])]),
    ]
}

/// Lengths past the end and missing, texts left over.
fn misfit(random: &mut Random) -> Selection {
    let lengths = (0..random.below(40)).map(|_| random.pick(&[0, 0, 0, 1, 1, 2, 3])).collect();
    let texts = (0..random.below(9)).map(|_| random.pick(b"ab")).collect();
    let mut made = Selection { identity: Vec::new(), texts, lengths };
    if let Some(last) = made.lengths.last_mut().filter(|_| random.once_in(2)) {
        *last = 255;
    }
    made
}

fn selections(random: &mut Random) -> Vec<Selection> {
    let mut list = fixed();
    for length in [2, 63, 64, 65, 255, 256] {
        list.push(Selection { identity: random.bytes(length), ..list[2].clone() });
    }
    for count in (0..=16).step_by(3) {
        list.push(Selection::of(&random.bytes(count), &picks(random, count.min(8), false)));
    }
    // sixteen short picks
    for _ in 0..4 {
        let short: Vec<_> =
            (0..16).map(|_| pick([0; 5].map(|_| random.pick(&["", "", "a", "b"])))).collect();
        list.push(Selection::of(b"", &short));
    }
    for _ in 0..20 {
        let count = random.below(5);
        let length = random.below(20);
        list.push(Selection::of(&random.bytes(length), &picks(random, count, false)));
    }
    list.extend((0..24).map(|_| misfit(random)));
    list
}

pub fn write(out: &mut String, random: &mut Random) -> Result {
    let list = selections(random);
    for selection in &list {
        writeln!(out, "key {} {}", selection.words(), hex(&selection.key()))?;
    }
    let mut region = vec![255; REGION];
    for selection in list.iter().filter(|s| s.identity.len() + s.texts.len() < 60) {
        let key = selection.key();
        let mut other = key.clone();
        match random.below(7) {
            // a stored key that is a part of the selection's, or goes on after it
            0 if key.len() > 1 => other.truncate(1 + random.below(key.len() - 1)),
            1 => other.extend(random.bytes(1)),
            2 => other[random.below(key.len())] ^= 1 << random.below(8),
            3 => *other.last_mut().unwrap() ^= 1,
            _ => {}
        }
        let answer = u8::from(same(&mut region, &other, selection));
        writeln!(out, "samekey {} {} {answer}", hex(&other), selection.words())?;
    }
    Ok(())
}
