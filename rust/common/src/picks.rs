//! Picks to make keys of: line, route, stop code, stop, stop name.
use crate::Random;

/// How many bytes each field may have.
pub const SIZES: [usize; 5] = [8, 32, 16, 32, 64];
/// The longest identity.
pub const LONGEST: usize = 65_535;

/// The picks that joined texts and lengths, five to a pick, mean: a length past the
/// end is what is left, a missing one 0.
pub fn fields<'a>(texts: &'a [u8], lengths: &[u32]) -> Vec<[&'a [u8]; 5]> {
    let mut rest = texts;
    let mut field = |k: usize| {
        let length = lengths.get(k).map_or(0, |n| *n as usize).min(rest.len());
        let (taken, after) = rest.split_at(length);
        rest = after;
        taken
    };
    let count = lengths.len().div_ceil(5);
    (0..count).map(|i| [0, 1, 2, 3, 4].map(|k| field(i * 5 + k))).collect()
}

const LETTERS: [&str; 12] =
    ["a", "b", "a", "b", "c", "7", "\u{0}", "\u{7f}", "\u{80}", "é", "€", "\u{10000}"];

/// Bytes of text, as close to `length` as whole letters allow.
pub fn text(random: &mut Random, length: usize) -> String {
    let mut text = String::new();
    while text.len() < length {
        let odd = random.once_in(4);
        let letter = random.pick(if odd { &LETTERS } else { &LETTERS[..4] });
        if text.len() + letter.len() <= length {
            text.push_str(letter);
        }
    }
    text
}

fn field(random: &mut Random, k: usize, over: bool) -> String {
    let size = SIZES[k];
    let length = match random.below(24) {
        0 => size,
        1 => size - 1,
        2 if over => size + 1,
        3 if over => size + random.below(200),
        4 => random.below(size + 1),
        n if n < 14 => 0,
        n if n < 20 => 1,
        _ => 2,
    };
    text(random, length)
}

/// Picks with equal ones among them, and ones that differ in a name alone.
pub fn picks(random: &mut Random, count: usize, over: bool) -> Vec<[String; 5]> {
    let mut picks: Vec<[String; 5]> = Vec::new();
    for _ in 0..count {
        let mut pick = [0, 1, 2, 3, 4].map(|k| {
            let over = over && random.once_in(20);
            field(random, k, over)
        });
        if !picks.is_empty() && random.once_in(3) {
            pick = picks[random.below(picks.len())].clone();
            match random.below(4) {
                0 => pick[4] = text(random, 3),
                1 => pick[2] = text(random, 1),
                2 => {
                    let k = random.below(5);
                    pick[k] = field(random, k, false);
                }
                _ => {}
            }
        }
        picks.push(pick);
    }
    picks
}
