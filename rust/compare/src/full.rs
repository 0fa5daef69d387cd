//! Updates that fill the bank, and what no longer fits.
use crate::{
    run::Tally,
    update::{
        calls::Call,
        content::{Content, Key, LONGEST, Piece, names_line, row_line},
        core::Core,
        lifted::{COMMITTED, Lifted, Outcome},
        upper::{Upper, row},
    },
    updates::{Beside, count},
};
use common::{Random, made::CAPACITY};

/// A content of one table.
fn one_table(random: &mut Random, rows: bool) -> Content {
    let mut content = Content::random(random, rows);
    content.sources.truncate(1);
    content.sources[0].tables.truncate(1);
    content
}

/// An update that doesn't fit. The Rust writes what fits, and fails; the core
/// refuses the bytes offered, all together, and then the first one too many.
pub fn bytes(tally: &mut Tally, random: &mut Random, region: &[u8]) {
    let over = random.pick(&[1, 2, 255, 256, 4096]);
    let mut content = one_table(random, false);
    content.key = Key::Bytes(random.bytes(9));
    let before = content.length();
    content.stretch(random, CAPACITY + over);
    let rust = Lifted::write(region, &content, COMMITTED);
    let beside = Beside { length: CAPACITY + over };
    tally.same(rust.outcome, Outcome::Full, || beside.about("the Rust's end"));

    let Some(Piece::Bytes(rest)) = content.sources[0].tables[0].1.pop() else { return };
    content.sources[0].tables[0].1.push(Piece::Bytes(Vec::new()));
    let mut core = Core::new(region, false, content.now);
    open(&mut core, random, &content);
    let all = vec![(rest.clone(), 10), (rest[..CAPACITY - before].to_vec(), 0), (vec![7], 10)];
    for (bytes, refusal) in all {
        let kept = (core.state, core.region.clone());
        if refusal == 0 {
            core.refusal = 0;
            core.append(random, &bytes);
            tally.same(core.refusal, 0, || beside.about("what fits"));
        } else {
            core.call(&Call::Bytes(bytes));
            tally.same(core.refusal, 10, || beside.about("what doesn't fit"));
            let stays = (core.state, core.region.clone()) == kept;
            tally.same(stays, true, || beside.about("a refused call"));
        }
    }
    beside.operations(tally, &core, &rust.operations, &rust.region);
    tally.same(rust.operations.len(), 2024, || beside.about("how many operations"));
    count(tally, Outcome::Full, false, rust.operations.len());
}

/// The first table of the first source, begun and left open.
fn open(core: &mut Core, random: &mut Random, content: &Content) {
    let source = &content.sources[0];
    core.append(random, &content.key.bytes());
    core.call(&Call::Source(source.record().to_vec()));
    core.append(random, &source.fields.start.to_le_bytes());
    core.append(random, &source.fields.end.to_le_bytes());
    core.call(&Call::Table(0));
    core.append(random, &names_line(0));
    for piece in &source.tables[0].1 {
        core.append(random, &piece.bytes());
    }
}

/// By the upper calls: a row of one byte too many is refused whole; the row that
/// fills the bank isn't, and then every row is.
pub fn rows(tally: &mut Tally, random: &mut Random, region: &[u8]) {
    let mut content = one_table(random, true);
    content.stretch(random, CAPACITY);
    let rust = Lifted::write(region, &content, COMMITTED);
    let beside = Beside { length: CAPACITY };
    let mut begun = content.clone();
    let Some(last) = begun.sources[0].tables[0].1.pop() else { return };
    let Piece::Row(mut long) = last.clone() else { return };
    long[0].push('x');
    // 14 comes before 10
    let refused = if row_line(&long).len() > LONGEST { 14 } else { 10 };

    let selection = content.key.selection();
    let (mut upper, _) = Upper::begin(region, (false, content.now), &selection, None);
    upper.open(&begun.sources[0]);
    let empty = vec![String::new(); long.len()];
    for (piece, refusal) in [(Piece::Row(long), refused), (last, 0), (Piece::Row(empty), 10)] {
        let answer = upper.call(&row(&piece));
        tally.same(answer.refusal, refusal, || beside.about("a row at the bank's end"));
    }
    upper.run.refusal = 0;
    for call in [Call::TableEnd, Call::Closing, Call::Commit(content.stamp, true), Call::Word] {
        upper.call(&call);
    }
    tally.same(upper.apart.as_deref(), None, || beside.about("an upper call that isn't its run"));
    let unfit = rust.outcome == Outcome::Unfit;
    tally.same(upper.run.refusal == 0, !unfit, || beside.about("the end"));
    if !unfit {
        beside.operations(tally, &upper.run, &rust.operations, &rust.region);
        tally.same(rust.operations.len(), 2026, || beside.about("how many operations"));
    }
    count(tally, rust.outcome, true, rust.operations.len());
}
