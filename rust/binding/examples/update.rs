//! An update with at most one flash operation a turn of the main loop: cut after
//! each number of operations, then whole, then cut inside each operation. update IMAGE
use bankcore::{
    Refusal,
    cache::{self, Bank, JoinedValues, Kind, Operation, Picks, Source, Writer},
    constants::{DATES_SIZE, MAX_ROW, table::ROUTES},
    put,
};

const NOW: i64 = 1_790_000_000;

/// What the host passes next.
enum Next {
    Bytes(Vec<u8>),
    Source(Box<Source>),
    Table(u32),
    End,
    Close,
    Commit,
    Word,
}

/// An update of one source with one table, in the order of its calls.
fn content() -> Result<Vec<Next>, Refusal> {
    let mut out = [0; MAX_ROW];
    let n = cache::key(b"shelter 12", Picks::default(), &mut out)?;
    let key = out[..n].to_vec();
    let source = Source {
        start: 20260101,
        end: 20261231,
        present: 1 << ROUTES,
        updated: Some(NOW - 600),
        ..Source::default()
    };
    let mut dates = vec![0; DATES_SIZE];
    put(&mut dates, 0, source.start);
    put(&mut dates, 4, source.end);
    let n = cache::names_line(ROUTES, &mut out)?;
    let mut table = out[..n].to_vec();
    let values = JoinedValues::new(&["r7", "Harbour", "3"]);
    for _ in 0..40 {
        let n = cache::row(ROUTES, &values, &mut out)?;
        table.extend_from_slice(&out[..n]);
    }
    Ok(vec![
        Next::Bytes(key),
        Next::Source(Box::new(source)),
        Next::Bytes(dates),
        Next::Table(ROUTES),
        Next::Bytes(table),
        Next::End,
        Next::Close,
        Next::Commit,
        Next::Word,
    ])
}

/// One turn: the due operation if there is one, else what comes next. Says how
/// many flash operations it did, none when all is done.
fn turn(
    writer: &mut Writer,
    region: &mut [u8],
    rest: &mut Vec<Next>,
) -> Result<Option<usize>, Refusal> {
    if writer.due(region)? {
        return Ok(Some(1));
    }
    let Some(next) = rest.first_mut() else {
        return Ok(None);
    };
    match next {
        Next::Bytes(bytes) => {
            let appended = writer.append(bytes)?;
            bytes.drain(..appended);
            if !bytes.is_empty() {
                return Ok(Some(0));
            }
        }
        Next::Source(source) => writer.source(source)?,
        Next::Table(table) => writer.table(*table)?,
        Next::End => writer.end()?,
        Next::Close => writer.close()?,
        Next::Commit => writer.commit(region, None, true)?,
        Next::Word => writer.commit_word(region)?,
    }
    let next = rest.remove(0);
    Ok(Some(usize::from(matches!(next, Next::Commit | Next::Word))))
}

/// An update that loses power once `power` operations are done: the writer is gone
/// then. How many were done, and whether it was finished.
fn update(region: &mut [u8], power: usize) -> Result<(usize, bool), Refusal> {
    let mut writer = Writer::begin(region, false, NOW)?;
    let mut rest = content()?;
    let mut done = 0;
    while done < power {
        match turn(&mut writer, region, &mut rest)? {
            Some(operations) => done += operations,
            None => return Ok((done, true)),
        }
    }
    Ok((done, false))
}

fn name(kind: Kind) -> &'static str {
    match kind {
        Kind::Erase => "erase",
        Kind::Write => "write",
        Kind::Compare => "compare",
        Kind::Header => "header",
        Kind::CommitWord => "commit word",
    }
}

/// The power fails inside an operation, after each of its bytes: those so far are
/// as the operation leaves them, the others as they were. The commit word is shown
/// byte by byte.
fn cut_inside(number: usize, next: Operation, before: &[u8], after: &[u8]) -> Result<(), Refusal> {
    let (what, offset, size) = (name(next.kind), next.range().start, next.length);
    let word = next.kind == Kind::CommitWord;
    let old = cache::load(before)?;
    let (mut torn, mut kept) = (before.to_vec(), 0);
    for j in 1..=size {
        torn[offset + j - 1] = after[offset + j - 1];
        if word {
            show(&format!("operation {number}, {what} at {offset}, {j} of {size} bytes"), &torn)?;
        }
        kept += usize::from(j < size && cache::load(&torn)? == old);
    }
    if !word {
        let (cuts, old) = (size - 1, given(old));
        println!("inside operation {number}, {what} at {offset}: {old} at {kept} of {cuts} cuts");
    }
    Ok(())
}

/// The update once more, each operation cut inside.
fn cuts_inside(image: &[u8]) -> Result<(), Refusal> {
    let mut region = image.to_vec();
    let mut writer = Writer::begin(&region, false, NOW)?;
    let mut rest = content()?;
    let mut number = 0;
    loop {
        let next = writer.operation()?;
        let before = region.clone();
        if turn(&mut writer, &mut region, &mut rest)?.is_none() {
            return Ok(());
        }
        if let Some(next) = next {
            number += 1;
            cut_inside(number, next, &before, &region)?;
        }
    }
}

fn given(found: Option<Bank>) -> String {
    match found {
        Some(bank) => format!("load gives bank {}, generation {}", bank.number, bank.generation),
        None => "load gives none".into(),
    }
}

fn show(what: &str, region: &[u8]) -> Result<(), Refusal> {
    println!("{what}: {}", given(cache::load(region)?));
    Ok(())
}

fn run(image: &[u8]) -> Result<(), Refusal> {
    show("at the start", image)?;
    let mut power = 0;
    loop {
        let mut region = image.to_vec();
        let (done, whole) = update(&mut region, power)?;
        let many = if done == 1 { "operation" } else { "operations" };
        if whole {
            show(&format!("whole, {done} {many}"), &region)?;
            return cuts_inside(image);
        }
        show(&format!("cut after {done} {many}"), &region)?;
        update(&mut region, usize::MAX)?;
        show("  and again, whole", &region)?;
        power += 1;
    }
}

fn main() {
    let name = std::env::args().nth(1).unwrap_or("samples/two-good.img".into());
    let image = std::fs::read(&name).unwrap_or_else(|error| {
        eprintln!("update: {name} can't be read: {error}");
        std::process::exit(2);
    });
    if let Err(refusal) = run(&image) {
        println!("{refusal}");
        std::process::exit(1);
    }
}
