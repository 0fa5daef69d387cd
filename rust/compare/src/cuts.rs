//! Updates cut after k operations and j bytes of the next, beside the lifted
//! `Writer` cut there.
use crate::{
    run::{Case, Tally},
    shrink::{Input, Moves, each, fewer},
    stores::Found,
    update::{
        content::Content,
        cut::Cut,
        flash::{Kind, done_at, first_other, kind},
        lifted::{COMMITTED, How, Lifted, Outcome},
    },
    updates::{Beside, found, operations_of, write},
};
use common::{
    Random,
    made::{BANK, CAPACITY, WORD_SIZE},
};
use lifted::standins::flash::Operation;

/// After how many operations: all if they are few, else the first ones, some, and
/// the last ones.
fn places(random: &mut Random, total: usize) -> Vec<usize> {
    if total <= 8 {
        return (0..=total).collect();
    }
    let mut places = vec![0, 1, total - 2, total - 1, total];
    places.extend((0..3).map(|_| 2 + random.below(total - 4)));
    places
}

/// A cut after each of these numbers of operations, one more at the header erase and
/// at the header write, and one after each byte of the commit word.
fn cuts(random: &mut Random, operations: &[Operation]) -> Vec<Cut> {
    let total = operations.len();
    let mut places = places(random, total);
    places.extend([0, total.saturating_sub(2)]);
    let mut cuts: Vec<Cut> =
        places.into_iter().map(|k| Cut::after(random, k, operations)).collect();
    cuts.extend((1..=WORD_SIZE).map(|j| Cut { k: total.saturating_sub(1), j }));
    cuts
}

/// An update that is cut, and then another, whole. The pieces in which bytes are
/// offered are drawn from a seed.
#[derive(Clone)]
struct Attempt {
    cut: Cut,
    next: Content,
    pieces: u64,
    /// Whether the next cut is made on the region after these.
    goes_on: bool,
}

impl Attempt {
    fn random(random: &mut Random, cut: Cut) -> Self {
        let rows = random.once_in(3);
        let next = Content::random(random, rows);
        Self { cut, next, pieces: random.u64(), goes_on: random.once_in(3) }
    }
    /// The region after both updates. The operations are those of the first, whole.
    fn compare(
        &self,
        tally: &mut Tally,
        region: &[u8],
        (content, operations): (&Content, &[Operation]),
    ) -> Vec<u8> {
        let Self { cut, .. } = self;
        let committed = done_at(cut.k, cut.j, operations) == operations.len();
        let mut random = Random::new(self.pieces);
        let beside = Beside { length: content.length() };
        let before = beside.load(tally, region);
        let how = How { cut: Some(*cut), ..COMMITTED };
        let (_, left) = write(tally, &mut random, region, (content, how));
        let after = beside.load(tally, &left);
        let about = |what: &str| beside.about(&format!("{}: {what}", cut.show()));
        tally.same(after == before, !committed, || about("whether load has the bank from before"));
        if let Some(bank) = before.filter(|_| !committed) {
            let span = (bank.offset - lifted::cache::OFFSET) as usize;
            let span = span..span + BANK;
            let other = first_other(&left[span.clone()], &region[span]);
            tally.same(other, None, || about("the bank from before"));
        }
        self.count(tally, (content, operations));
        if !self.next.fits() {
            return left;
        }
        let (outcome, region) = write(tally, &mut random, &left, (&self.next, COMMITTED));
        let found = beside.load(tally, &region);
        if outcome == Outcome::Committed {
            let length = found.map(|bank| bank.length as usize);
            tally.same(length, Some(self.next.length()), || about("the update after it"));
        }
        region
    }
    /// Counts the cut. One between two operations may be between two upper calls.
    fn count(&self, tally: &mut Tally, (content, operations): (&Content, &[Operation])) {
        self.cut.count(tally, operations);
        let upper =
            |o: &&Operation| content.rows && ![Kind::HeaderWrite, Kind::Word].contains(&kind(o));
        let within = self.cut.inside(operations).filter(upper);
        tally.count("cuts inside an upper call", usize::from(within.is_some()));
    }
    fn smaller(&self) -> Moves<'_, Self> {
        let next = self.next.smaller().map(|next| Self { next, ..self.clone() });
        let cuts = self.cut.smaller().map(|cut| Self { cut, ..self.clone() });
        Box::new(next.chain(cuts))
    }
    fn show(&self) -> Vec<String> {
        let Self { cut, pieces, goes_on, .. } = self;
        let mut lines = vec![format!("the update {}, pieces {pieces}; then", cut.show())];
        lines.extend(self.next.show());
        lines.extend(goes_on.then(|| "and on the region after it".to_string()));
        lines
    }
}

/// An update that is cut, at one operation after another.
#[derive(Clone)]
pub struct Cuts {
    found: Found,
    content: Content,
    list: Vec<Attempt>,
}

impl Cuts {
    /// With another content. A cut in the header write, or after it, stays there.
    fn with(&self, content: Content) -> Self {
        let [old, new] = [&self.content, &content].map(|c| operations_of(c.length()));
        let mut list = self.list.clone();
        for Attempt { cut, .. } in list.iter_mut().filter(|attempt| attempt.cut.k + 2 >= old) {
            cut.k = (cut.k + new).saturating_sub(old);
        }
        Self { content, list, ..self.clone() }
    }
}

impl Input for Cuts {
    fn make(case: &Case) -> Self {
        let mut random = case.random();
        let found = Found::new(found(&mut random));
        let rows = random.once_in(2);
        let mut content = Content::random(&mut random, rows);
        if case.number % 40 == 7 {
            content.stretch(&mut random, CAPACITY);
        }
        let operations = Lifted::write(&found.0, &content, COMMITTED).operations;
        let cuts = cuts(&mut random, &operations);
        let list = cuts.into_iter().map(|cut| Attempt::random(&mut random, cut)).collect();
        Self { found, content, list }
    }
    fn compare(&self, tally: &mut Tally) {
        let mut region = self.found.0.to_vec();
        let whole = Lifted::write(&region, &self.content, COMMITTED);
        if !self.content.fits() || whole.outcome != Outcome::Committed {
            return;
        }
        for attempt in &self.list {
            let after = attempt.compare(tally, &region, (&self.content, &whole.operations));
            if attempt.goes_on {
                region = after;
            }
        }
    }
    fn smaller(&self) -> Moves<'_, Self> {
        let found = self.found.smaller().map(|found| Self { found, ..self.clone() });
        let contents = self.content.smaller().map(|content| self.with(content));
        let lists = fewer(&self.list).chain(each(&self.list, Attempt::smaller));
        Box::new(found.chain(lists.map(|list| Self { list, ..self.clone() })).chain(contents))
    }
    fn show(&self) -> Vec<String> {
        let mut lines = self.found.show();
        lines.extend(self.content.show());
        lines.extend(self.list.iter().flat_map(Attempt::show));
        lines
    }
}
