//! Random calls: with any arguments, or such that a state may answer.
use super::{
    calls::Call,
    content::{NOW, fields},
    fields::*,
};
use common::{Random, made::CAPACITY};

pub fn time(random: &mut Random) -> i64 {
    random.pick(&[0, 1, -1, NOW, NOW + 1, i64::MIN, i64::MIN + 1, i64::MAX])
}

pub fn record(random: &mut Random) -> Vec<u8> {
    let mut record = [0; 384];
    fields(random).encode(&mut record);
    record.to_vec()
}

fn bytes(random: &mut Random) -> Vec<u8> {
    let some = random.below(1200);
    let size = random.pick(&[0, 1, 3, 255, 256, 257, some]);
    random.bytes(size)
}

/// A record of any length.
fn any_record(random: &mut Random) -> Vec<u8> {
    let mut record = record(random);
    let size = random.pick(&[384, 384, 384, 0, 7, 180, 383, 500]);
    record.resize(size, 7);
    record
}

/// A row, mostly with n values.
pub fn row(random: &mut Random, columns: usize) -> Call {
    let columns = if random.once_in(12) { random.below(12) } else { columns };
    let mut lengths: Vec<u32> = (0..columns).map(|_| random.below(20) as u32).collect();
    if let Some(length) = lengths.last_mut() {
        let more = random.pick(&[0, 0, 0, 200, 300, 1000]);
        *length += more + if random.once_in(20) { 8160 + random.below(40) as u32 } else { 0 };
    }
    let size = lengths.iter().sum::<u32>() as usize;
    let letter = |_| random.pick(b"abcdefgh 0123456789,\"\n");
    let mut texts: Vec<u8> = (0..size).map(letter).collect();
    if random.once_in(20) {
        texts.truncate(size / 2);
    }
    Call::Row(texts, lengths)
}

/// An upper call with any arguments.
pub fn any_upper(random: &mut Random) -> Call {
    match random.below(6) {
        0 => Call::SourceWithDates(any_record(random)),
        1 => Call::TableWithNames(random.pick(&[0, 0, 1, 2, 3, 4, 5, 6, 7, 8, u32::MAX])),
        2 | 3 => {
            let columns = random.pick(&[2, 3, 5, 8, 10]);
            row(random, columns)
        }
        4 => Call::TableEnd,
        _ => Call::Closing,
    }
}

/// A call with any arguments.
pub fn any(random: &mut Random) -> Call {
    match random.below(15) {
        0 => Call::Source(any_record(random)),
        1 => Call::Table(random.pick(&[0, 0, 1, 2, 3, 4, 5, 6, 7, 8, 32, u32::MAX])),
        11..15 => any_upper(random),
        2 if random.once_in(20) => Call::Bytes(vec![3; random.pick(&[CAPACITY, CAPACITY + 1])]),
        2 | 3 => Call::Bytes(bytes(random)),
        4 => Call::End,
        5 => Call::Close,
        6 | 7 => Call::Due,
        8 => Call::Unchanged,
        9 => Call::Commit(random.once_in(2).then(|| time(random)), !random.once_in(6)),
        _ => Call::Word,
    }
}

/// A call that is in order, if the state is within its ranges.
pub fn apt(random: &mut Random, f: &Fields) -> Call {
    let commit = Call::Commit(random.once_in(2).then(|| time(random)), true);
    match f.numbers[STAGE] {
        HEADED => Call::Word,
        IDLE if f.is(CLOSED) => {
            if f.is(COMPARING) {
                Call::Unchanged
            } else {
                commit
            }
        }
        _ if random.once_in(3) => apt_upper(random, f),
        IDLE => match random.below(4) {
            0 if f.open() => Call::End,
            0 => Call::Source(record(random)),
            1 if !f.open() => Call::Table(random.below(8) as u32),
            2 if !f.open() => Call::Close,
            _ => Call::Bytes(bytes(random)),
        },
        _ => Call::Due,
    }
}

fn apt_upper(random: &mut Random, f: &Fields) -> Call {
    match (f.open(), random.below(3)) {
        (true, 0) => Call::TableEnd,
        (true, _) => row(random, crate::rows::columns(f.n(TABLE) % 8)),
        (false, 0) => Call::SourceWithDates(record(random)),
        (false, 1) => Call::TableWithNames(random.below(8) as u32),
        (false, _) => Call::Closing,
    }
}
