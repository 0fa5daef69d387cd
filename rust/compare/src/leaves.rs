//! The leaves: dates, generations, CRC-32, numbers in bytes.
use crate::{
    run::{Case, Plan, Tally, drawn, hex, quietly},
    shrink::{Moves, Question, bytes, number, zeros},
    wrong::{Wrong, tried},
};
use common::Random;
use lifted::{cache::door, timetable_display::config};
use std::marker::PhantomData;

/// The refusal of an output that is too small.
const SMALL: u32 = 9;

const CAPACITY: usize = 487_424;
/// Bytes before and after a lent buffer, to see whether they stay.
const GUARD: usize = 16;

/// Numbers at which 32-bit arithmetic wraps or changes sign.
fn corners() -> Vec<u32> {
    let mut list = vec![7, 0x434f_4d54, 0xedb8_8320, 0x1234_5678];
    for bit in [0, 8, 16, 24, 28, 30, 31] {
        for near in -2..=2_i32 {
            list.push((1_u32 << bit).wrapping_add_signed(near));
            list.push((1_u32 << bit).wrapping_neg().wrapping_add_signed(near));
        }
    }
    list.sort_unstable();
    list.dedup();
    list
}

/// A call on up to three numbers.
pub trait Call: Clone {
    const COUNT: usize;
    fn draw(random: &mut Random) -> [u32; 3];
    fn ask(numbers: [u32; 3], tally: &mut Tally);
    fn text(numbers: [u32; 3]) -> String;
}

#[derive(Clone)]
pub struct Numbers<C>([u32; 3], PhantomData<C>);

impl<C: Call> Question for Numbers<C> {
    fn list(case: &Case) -> Vec<Self> {
        drawn(case, C::COUNT, |random| Self(C::draw(random), PhantomData))
    }
    fn ask(&self, tally: &mut Tally) {
        C::ask(self.0, tally);
    }
    fn smaller(&self) -> Moves<'_, Self> {
        Box::new((0..3).flat_map(move |i| {
            number(self.0[i].into()).map(move |n| {
                let mut numbers = self.0;
                numbers[i] = n as u32;
                Self(numbers, PhantomData)
            })
        }))
    }
    fn show(&self) -> String {
        C::text(self.0)
    }
}

/// The numbers of an input, for sorting, and as text.
fn about<C: Call>(numbers: [u32; 3]) -> (Vec<u64>, String) {
    (numbers.map(u64::from).to_vec(), C::text(numbers))
}

#[derive(Clone)]
pub struct Date;
impl Call for Date {
    const COUNT: usize = 10_000;
    fn draw(random: &mut Random) -> [u32; 3] {
        [random.u32(), 0, 0]
    }
    #[inline]
    fn ask(numbers: [u32; 3], tally: &mut Tally) {
        let d = numbers[0];
        tally.same(bankcore::valid_date(d), door::valid_date(d), || about::<Self>(numbers));
    }
    fn text([d, ..]: [u32; 3]) -> String {
        format!("valid_date({d})")
    }
}

pub fn dates(plan: &Plan, tally: &mut Tally) {
    let mut one = |d: u32| Date::ask([d, 0, 0], tally);
    let step = if plan.quick { 97 } else { 1 };
    (0..=100_020_000).step_by(step).for_each(&mut one);
    [655_380_101, u32::MAX].into_iter().for_each(&mut one);
    if plan.quick {
        // the ends of February, April and December of every year
        for year in 0..=10_001 {
            for day in [228, 229, 230, 301, 430, 431, 1231, 1232] {
                one(year * 10_000 + day);
            }
        }
    }
}

#[derive(Clone)]
pub struct NewDate;
impl Call for NewDate {
    const COUNT: usize = 10_000;
    fn draw(random: &mut Random) -> [u32; 3] {
        let year = if random.once_in(2) { random.below(1 << 16) } else { random.below(10_000) };
        let (month, day) = match random.once_in(4) {
            true => (random.below(256), random.below(256)),
            false => (random.below(14), random.below(33)),
        };
        [year, month, day].map(|n| n as u32)
    }
    fn ask(numbers: [u32; 3], tally: &mut Tally) {
        let (year, month, day) = (numbers[0] as u16, numbers[1] as u8, numbers[2] as u8);
        let rust = door::date_new(year, month, day).ok();
        tally.same(bankcore::date_new(year, month, day), rust, || about::<Self>(numbers));
    }
    fn text([year, month, day]: [u32; 3]) -> String {
        format!("Date::new({year}, {month}, {day})")
    }
}

pub fn new_dates(plan: &Plan, tally: &mut Tally) {
    let mut years: Vec<u32> = vec![
        0, 1, 2, 3, 4, 5, 96, 99, 100, 101, 104, 255, 256, 399, 400, 401, 800, 999, 1000, 1582,
        1600, 1700, 1752, 1800, 1899, 1900, 1901, 1904, 1999, 2000, 2001, 2004, 2023, 2024, 2025,
        2026, 2100, 2400, 4000, 9996, 9998, 9999, 10000, 10001, 10004, 12000, 32767, 32768, 65532,
        65534, 65535,
    ];
    if !plan.quick {
        years.extend((0..1 << 16).step_by(199));
    }
    for year in years {
        for month in 0..=255 {
            for day in 0..=255 {
                NewDate::ask([year, month, day], tally);
            }
        }
    }
}

#[derive(Clone)]
pub struct Newer;
impl Call for Newer {
    const COUNT: usize = 10_000;
    fn draw(random: &mut Random) -> [u32; 3] {
        let (a, near) = (random.u32(), random.below(9) as u32);
        let b = match random.below(4) {
            0 => random.u32(),
            1 => a.wrapping_add(near).wrapping_sub(4),
            2 => a.wrapping_add(1 << 31).wrapping_add(near).wrapping_sub(4),
            _ => a.wrapping_add(1 << random.below(32)),
        };
        [a, b, 0]
    }
    fn ask(numbers: [u32; 3], tally: &mut Tally) {
        let [a, b, _] = numbers;
        let wrong = tried(Wrong::Newer) && a.abs_diff(b) >= 1000;
        let core = bankcore::newer(a, b) != wrong;
        tally.same(core, config::newer(a, b), || about::<Self>(numbers));
    }
    fn text([a, b, _]: [u32; 3]) -> String {
        format!("newer({a}, {b})")
    }
}

pub fn newer(_: &Plan, tally: &mut Tally) {
    let corners = corners();
    for &a in &corners {
        for &b in &corners {
            Newer::ask([a, b, 0], tally);
        }
    }
}

#[derive(Clone)]
pub struct Next;
impl Call for Next {
    const COUNT: usize = 10_000;
    fn draw(random: &mut Random) -> [u32; 3] {
        [random.u32(), 0, 0]
    }
    fn ask(numbers: [u32; 3], tally: &mut Tally) {
        let g = numbers[0];
        assert!(!(tried(Wrong::Next) && g >= 5000), "a wrong core stops");
        tally.same(bankcore::next(g), g.wrapping_add(1), || about::<Self>(numbers));
    }
    fn text([g, ..]: [u32; 3]) -> String {
        format!("next({g})")
    }
}

pub fn next(_: &Plan, tally: &mut Tally) {
    corners().into_iter().for_each(|g| Next::ask([g, 0, 0], tally));
}

#[derive(Clone)]
pub struct Rotate;
impl Call for Rotate {
    const COUNT: usize = 10_000;
    fn draw(random: &mut Random) -> [u32; 3] {
        [random.u32(), 0, 0]
    }
    fn ask(numbers: [u32; 3], tally: &mut Tally) {
        let x = numbers[0];
        tally.same(bankcore::rotate13(x), x.rotate_left(13), || about::<Self>(numbers));
    }
    fn text([x, ..]: [u32; 3]) -> String {
        format!("{x} rotated")
    }
}

pub fn rotate(_: &Plan, tally: &mut Tally) {
    let bits = (0..32).map(|bit| 1_u32 << bit);
    corners().into_iter().chain(bits).for_each(|x| Rotate::ask([x, 0, 0], tally));
}

fn continued(start: u32, bytes: &[u8]) -> u32 {
    let mut hash = crc32fast::Hasher::new_with_initial(start);
    hash.update(bytes);
    hash.finalize()
}

fn core_crc(start: u32, bytes: &[u8]) -> u32 {
    let wrong = tried(Wrong::Crc) && bytes.contains(&0x77);
    bankcore::crc32(start, bytes) ^ u32::from(wrong)
}

/// Bytes at an alignment, whole, in two pieces, and continued from a CRC.
#[derive(Clone)]
pub struct Crc {
    bytes: Vec<u8>,
    shift: usize,
    split: usize,
    start: u32,
}

impl Crc {
    fn about(&self, what: &str) -> (Vec<u64>, String) {
        let order = vec![self.bytes.len() as u64, self.shift as u64, self.split as u64];
        (order, format!("{what} of {}", self.show()))
    }
    fn split(&self, tally: &mut Tally, rust: u32) {
        let (before, after) = self.bytes.split_at(self.split.min(self.bytes.len()));
        let core = core_crc(core_crc(0, before), after);
        tally.same(core, rust, || self.about("the CRC in two pieces"));
    }
    fn continued(&self, tally: &mut Tally) {
        let (start, bytes) = (self.start, &self.bytes);
        let core = core_crc(start, bytes);
        tally.same(core, continued(start, bytes), || self.about("the CRC continued"));
    }
    fn aligned(&self, tally: &mut Tally, rust: u32) {
        let mut buffer = vec![0_u8; self.bytes.len() + 128];
        let at = buffer.as_ptr().align_offset(64) + self.shift;
        let lent = &mut buffer[at..][..self.bytes.len()];
        lent.copy_from_slice(&self.bytes);
        let core = core_crc(0, lent);
        tally.same(core, rust, || self.about("the CRC beside crc32fast"));
        let seed = config::crc32(lent);
        tally.same(core, seed, || self.about("the CRC beside the Rust's own crc32"));
    }
}

impl Question for Crc {
    fn list(case: &Case) -> Vec<Self> {
        drawn(case, 64, |random| {
            let length = if random.once_in(8) { random.below(10_000) } else { random.below(301) };
            Self {
                bytes: random.bytes(length),
                shift: random.below(64),
                split: random.below(length + 1),
                start: random.u32(),
            }
        })
    }
    fn ask(&self, tally: &mut Tally) {
        let rust = crc32fast::hash(&self.bytes);
        self.aligned(tally, rust);
        self.split(tally, rust);
        self.continued(tally);
    }
    fn smaller(&self) -> Moves<'_, Self> {
        let one = |n: usize| number(n as u64).map(|n| n as usize);
        let shifts = one(self.shift).map(|shift| Self { shift, ..self.clone() });
        let splits = one(self.split).map(|split| Self { split, ..self.clone() });
        let starts = number(self.start.into()).map(|n| Self { start: n as u32, ..self.clone() });
        let bytes = bytes(&self.bytes).map(|bytes| Self { bytes, ..self.clone() });
        Box::new(bytes.chain(shifts).chain(splits).chain(starts))
    }
    fn show(&self) -> String {
        let Self { bytes, shift, split, start } = self;
        let (n, bytes) = (bytes.len(), hex(bytes));
        format!("{n} bytes ({bytes}) at alignment {shift}, in two at {split}, after {start:#x}")
    }
}

/// Every length to 300: each alignment to 15, each split of the short ones.
pub fn crc(plan: &Plan, tally: &mut Tally) {
    for length in 0..=300_usize {
        for filled in 0..if plan.quick { 1 } else { 3 } {
            let bytes: Vec<u8> = match filled {
                0 => (0..length).map(|i| (i as u8).wrapping_mul(37) ^ (i >> 8) as u8).collect(),
                1 => vec![0; length],
                _ => vec![255; length],
            };
            let rust = crc32fast::hash(&bytes);
            let mut asked = Crc { bytes, shift: 0, split: 0, start: 0 };
            for shift in 0..16 {
                asked.shift = shift;
                asked.aligned(tally, rust);
            }
            let step = if length <= 64 { 1 } else { length / 16 };
            for split in (0..=length).step_by(step) {
                asked.split = split;
                asked.split(tally, rust);
            }
            for start in [1, 1 << 31, u32::MAX, 0x1234_5678] {
                asked.start = start;
                asked.continued(tally);
            }
        }
    }
}

/// As many bytes as a bank holds, or a few less, whole and in pieces.
#[derive(Clone)]
pub struct Long {
    bytes: Vec<u8>,
    /// The seed of the random pieces.
    pieces: u64,
}

impl Long {
    fn random_pieces(&self) -> u32 {
        let mut random = Random::new(self.pieces);
        let (mut crc, mut rest) = (0, &self.bytes[..]);
        while !rest.is_empty() {
            let (piece, after) = rest.split_at(random.below(5000).min(rest.len()));
            crc = core_crc(crc, piece);
            rest = after;
        }
        crc
    }
}

impl Question for Long {
    fn list(case: &Case) -> Vec<Self> {
        drawn(case, 1, |random| {
            let length = CAPACITY - random.below(18);
            Self { bytes: random.bytes(length), pieces: random.u64() }
        })
    }
    fn ask(&self, tally: &mut Tally) {
        let rust = crc32fast::hash(&self.bytes);
        let core = core_crc(0, &self.bytes);
        let input =
            |how: String| (vec![self.bytes.len() as u64], format!("{}, {how}", self.show()));
        tally.same(core, rust, || input("by crc32fast".into()));
        tally.same(core, config::crc32(&self.bytes), || input("by the Rust's own crc32".into()));
        for size in [1, 255, 256, 2048] {
            let core = self.bytes.chunks(size).fold(0, core_crc);
            tally.same(core, rust, || input(format!("in pieces of {size}")));
        }
        tally.same(self.random_pieces(), rust, || input("in random pieces".into()));
    }
    fn smaller(&self) -> Moves<'_, Self> {
        Box::new(bytes(&self.bytes).map(|bytes| Self { bytes, ..self.clone() }))
    }
    fn show(&self) -> String {
        format!("{} bytes ({}), pieces from {}", self.bytes.len(), hex(&self.bytes), self.pieces)
    }
}

pub fn long_crc(_: &Plan, tally: &mut Tally) {
    for byte in [0, 255] {
        Long { bytes: vec![byte; CAPACITY], pieces: 1 }.ask(tally);
    }
}

/// A call at an offset of a buffer.
pub trait Access: Clone {
    const WIDTH: usize;
    fn ask(place: &Place<Self>, tally: &mut Tally);
}

/// The bytes are between guards, so that a byte changed outside is seen.
#[derive(Clone)]
pub struct Place<A> {
    guarded: Vec<u8>,
    length: usize,
    at: usize,
    value: u64,
    access: PhantomData<A>,
}

impl<A> Place<A> {
    fn bytes(&self) -> &[u8] {
        &self.guarded[GUARD..GUARD + self.length]
    }
    /// All bytes after a call on those between the guards.
    fn after(&self, call: impl FnOnce(&mut [u8])) -> Vec<u8> {
        let mut guarded = self.guarded.clone();
        call(&mut guarded[GUARD..GUARD + self.length]);
        guarded
    }
    fn span(&self, width: usize) -> Option<&[u8]> {
        self.bytes().get(self.at..self.at.checked_add(width)?)
    }
    /// The number there, a byte at a time, with 0 past the end.
    fn bytewise(&self, width: usize) -> u64 {
        (0..width).fold(0, |sum, k| {
            let byte = self.at.checked_add(k).and_then(|at| self.bytes().get(at)).copied();
            sum | u64::from(byte.unwrap_or(0)) << (8 * k)
        })
    }
    fn about(&self, what: &str) -> (Vec<u64>, String) {
        let Self { length, at, value, .. } = self;
        let bytes = hex(self.bytes());
        let text = format!("{what} at {at} of {length} bytes ({bytes}), value {value:#x}");
        (vec![*length as u64, *at as u64], text)
    }
}

const VALUES: [i64; 9] =
    [0, 1, -1, i64::MIN, i64::MAX, i64::MIN + 1, 1 << 32, -(1 << 32), 1_790_000_000];

impl<A: Access> Question for Place<A> {
    /// Every length to 24 with every offset in it, near its end and near the
    /// largest number.
    fn list(case: &Case) -> Vec<Self> {
        let (mut random, mut list) = (case.random(), Vec::new());
        let corners = corners();
        let far = [usize::MAX / 2, 1 << 31, 1 << 32, (1 << 32) - 1];
        for length in 0..=24 {
            let near = (0..=A::WIDTH + 1).map(|less| usize::MAX - less);
            for at in (0..=length + A::WIDTH + 1).chain(near).chain(far) {
                let value = match random.below(4) {
                    0 => random.pick(&corners).into(),
                    1 => random.pick(&VALUES) as u64,
                    _ => random.u64(),
                };
                let guarded = random.bytes(length + 2 * GUARD);
                list.push(Self { guarded, length, at, value, access: PhantomData });
            }
        }
        list
    }
    fn ask(&self, tally: &mut Tally) {
        A::ask(self, tally);
    }
    fn smaller(&self) -> Moves<'_, Self> {
        let lengths = number(self.length as u64).map(|n| Self {
            length: n as usize,
            guarded: self.guarded[..n as usize + 2 * GUARD].to_vec(),
            ..self.clone()
        });
        let places = number(self.at as u64).map(|n| Self { at: n as usize, ..self.clone() });
        let values = number(self.value).map(|value| Self { value, ..self.clone() });
        let zeros = zeros(&self.guarded).map(|guarded| Self { guarded, ..self.clone() });
        Box::new(lengths.chain(places).chain(values).chain(zeros))
    }
    fn show(&self) -> String {
        self.about("a call").1
    }
}

#[derive(Clone)]
pub struct Get;
impl Access for Get {
    const WIDTH: usize = 4;
    fn ask(place: &Place<Self>, tally: &mut Tally) {
        let (bytes, at) = (place.bytes(), place.at);
        let rust = quietly(|| door::get(bytes, at)).ok();
        let fits = place.span(4).is_some();
        tally.same(rust.is_some(), fits, || place.about("whether the Rust's get answers"));
        let expected = rust.unwrap_or(place.bytewise(4) as u32);
        tally.same(bankcore::get(bytes, at), expected, || place.about("get"));
    }
}

#[derive(Clone)]
pub struct Put;
impl Access for Put {
    const WIDTH: usize = 4;
    fn ask(place: &Place<Self>, tally: &mut Tally) {
        let (at, value) = (place.at, place.value as u32);
        let mut refusal = 0;
        let core = place.after(|bytes| refusal = bankcore::put(bytes, at, value));
        let rust = quietly(|| place.after(|bytes| door::put(bytes, at, value))).ok();
        let fits = place.span(4).is_some();
        tally.same(rust.is_some(), fits, || place.about("whether the Rust's put is done"));
        tally.same(refusal, if fits { 0 } else { SMALL }, || place.about("put's answer"));
        let rust = rust.unwrap_or(place.guarded.clone());
        tally.same(core, rust, || place.about("put"));
    }
}

#[derive(Clone)]
pub struct Time;
impl Access for Time {
    const WIDTH: usize = 8;
    fn ask(place: &Place<Self>, tally: &mut Tally) {
        let (at, value) = (place.at, place.value as i64);
        let rust = match place.span(8) {
            Some(span) => i64::from_le_bytes(span.try_into().unwrap()),
            None => place.bytewise(8) as i64,
        };
        tally.same(bankcore::get_time(place.bytes(), at), rust, || place.about("get_time"));
        let fits = place.span(8).is_some();
        let rust = place.after(|bytes| {
            if fits {
                bytes[at..at + 8].copy_from_slice(&value.to_le_bytes());
            }
        });
        let mut refusal = 0;
        let core = place.after(|bytes| refusal = bankcore::put_time(bytes, at, value));
        tally.same(core, rust, || place.about("put_time"));
        tally.same(refusal, if fits { 0 } else { SMALL }, || place.about("put_time's answer"));
    }
}
