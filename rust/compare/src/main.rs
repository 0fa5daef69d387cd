//! Runs the core beside the lifted Rust and counts the differences.
mod banks;
mod cuts;
mod events;
mod filter;
mod forged;
mod full;
mod keys;
mod leaves;
mod pairs;
mod parts;
mod rows;
mod run;
mod shrink;
mod stored;
mod stores;
#[cfg(test)]
mod tests;
mod unchanged;
mod update;
mod updates;
mod wrong;

use parts::{PARTS, Part, Random};
use run::{Plan, Run, Tally, progress, quietly};
use std::{
    process::ExitCode,
    time::{Duration, Instant},
};

const HELP: &str = "\
compare [--seed N] [--quick] [--minutes M] [--cases N] [--case N] [PART...]

Runs the proved core beside the Rust it follows, and prints for each part how
many answers were compared and how many differ. Without a PART all are run.

A part goes through some inputs whole, all dates and all short rows among them,
and through random cases, which have numbers. A case has random numbers of its
own, from the seed and its number alone.

  --seed N     the seed of the random cases (default 1)
  --quick      fewer inputs
  --minutes M  random cases for so long, in shares for the parts
  --cases N    so many cases of each part, 0 to N - 1
  --case N     that case alone of each part
  --help       this text

Of inputs that differ the smallest are shown. Of the first case of a part that
differs a line says how to run it again, and for at most 20 seconds a smaller
form of it is looked for: calls, bytes and fields are left out or made zero as
long as it still differs.

Parts:
";

fn help() -> ExitCode {
    print!("{HELP}");
    for part in PARTS {
        println!("  {:<11} {}", part.name, part.about);
    }
    println!("\nExit status: 0 no difference, 1 differences, 2 wrong use.");
    ExitCode::SUCCESS
}

fn wrong_use(text: &str) -> ExitCode {
    eprintln!("compare: {text}; see compare --help");
    ExitCode::from(2)
}

/// Sets what an option says.
fn option(plan: &mut Plan, name: &str, value: Option<String>) -> Result<(), ExitCode> {
    let whole = value.as_deref().and_then(|n| n.parse::<u64>().ok());
    let minutes = value.and_then(|n| n.parse::<f64>().ok()).filter(|m| (0.0..1e6).contains(m));
    match (name, whole, minutes) {
        ("--minutes", _, Some(_)) => plan.minutes = minutes,
        ("--seed", Some(number), _) => plan.seed = number,
        ("--cases", Some(_), _) => plan.cases = whole,
        ("--case", Some(_), _) => plan.case = whole,
        _ => return Err(wrong_use(&format!("{name} needs a number"))),
    }
    Ok(())
}

/// The plan and the parts asked for; none if the program is to end with a status.
fn asked() -> Result<(Plan, Vec<&'static Part>), ExitCode> {
    let mut plan = Plan { seed: 1, ..Plan::default() };
    let mut wanted = Vec::new();
    let mut arguments = std::env::args().skip(1);
    while let Some(argument) = arguments.next() {
        match argument.as_str() {
            "--help" | "-h" => return Err(help()),
            "--quick" => plan.quick = true,
            name @ ("--seed" | "--cases" | "--case" | "--minutes") => {
                option(&mut plan, name, arguments.next())?;
            }
            name if PARTS.iter().any(|p| p.name == name) => wanted.push(argument),
            name => return Err(wrong_use(&format!("there is no part {name}"))),
        }
    }
    let asked = |part: &&Part| wanted.is_empty() || wanted.iter().any(|name| name == part.name);
    Ok((plan, PARTS.iter().filter(asked).collect()))
}

/// The cases of a part, with the time at which it is to end.
fn numbers(plan: &Plan, random: Random, part: &'static str, end: Option<Instant>) -> Run<'static> {
    let usual = if plan.quick { random.usual.div_ceil(10) } else { random.usual };
    let numbers = match (plan.case, plan.cases, end) {
        (Some(number), ..) => number..number.saturating_add(1),
        (_, Some(count), _) => 0..count,
        (_, _, Some(_)) => 0..u64::MAX,
        _ => 0..usual,
    };
    Run { part, seed: plan.seed, numbers, end }
}

/// The time left, shared among the parts to come.
fn end(until: Option<Instant>, share: u32, to_come: u32) -> Option<Instant> {
    let now = Instant::now();
    until.map(|until| now + until.saturating_duration_since(now) * share / to_come)
}

/// Runs the parts: first what is gone through whole, then the cases.
fn run(plan: &Plan, parts: &[&'static Part]) -> Vec<Tally> {
    let until = plan.minutes.map(|m| Instant::now() + Duration::from_secs_f64(60.0 * m));
    let mut tallies: Vec<Tally> = parts.iter().map(|_| Tally::default()).collect();
    if plan.case.is_none() {
        for (part, tally) in parts.iter().zip(&mut tallies) {
            progress(&format!("{}: what is gone through whole", part.name));
            if let Err(text) = quietly(|| (part.whole)(plan, tally)) {
                tally.stopped(&text);
            }
        }
    }
    let mut to_come: u32 = parts.iter().filter_map(|p| p.random).map(|r| r.share).sum();
    for (part, tally) in parts.iter().zip(&mut tallies) {
        if let Some(random) = part.random {
            let end = end(until, random.share, to_come);
            (random.run)(&numbers(plan, random, part.name, end), tally);
            to_come -= random.share;
        }
        progress("");
        report(part, tally);
    }
    tallies
}

/// What a part's inputs were, and which differ.
fn report(part: &Part, tally: &Tally) {
    let (name, note) = (part.name, tally.note());
    if !note.is_empty() || tally.differ > 0 {
        println!("{}", format!("{name}: {note}").trim_end());
    }
    for line in tally.texts().iter().chain(&tally.form) {
        println!("  {line}");
    }
}

/// The table at the end; whether nothing differs.
fn table(parts: &[&Part], tallies: &[Tally]) -> bool {
    println!("\n{:<12}{:>10}{:>15}{:>10}", "part", "cases", "compared", "differ");
    let mut sums = [0; 3];
    for (part, tally) in parts.iter().zip(tallies) {
        let Tally { cases, compared, differ, .. } = tally;
        println!("{:<12}{cases:>10}{compared:>15}{differ:>10}", part.name);
        sums.iter_mut().zip([cases, compared, differ]).for_each(|(sum, n)| *sum += n);
    }
    let [cases, compared, differ] = sums;
    println!("{} parts, {cases} cases, {compared} compared, {differ} differ", parts.len());
    differ == 0
}

fn main() -> ExitCode {
    let (plan, parts) = match asked() {
        Ok(asked) => asked,
        Err(status) => return status,
    };
    let quick = if plan.quick { ", quick" } else { "" };
    println!("seed {}, crc32fast {}{quick}", plan.seed, common::crc32fast());
    run::listen();
    let tallies = run(&plan, &parts);
    if table(&parts, &tallies) { ExitCode::SUCCESS } else { ExitCode::FAILURE }
}
