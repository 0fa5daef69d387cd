//! Times all calls of the core beside the Rust, csv-core and crc32fast, in one
//! table.
#[cfg(feature = "banks")]
mod banks;
#[cfg(feature = "banks")]
mod calls;
mod crc;
#[cfg(feature = "banks")]
mod filter;
mod line;
mod measure;
mod picture;
#[cfg(feature = "banks")]
mod rows;
mod sizes;
mod table;
#[cfg(feature = "banks")]
mod updates;

use line::{Line, Row};
use std::{
    env, fs,
    process::{Command, ExitCode, Stdio},
};

const HELP: &str = "\
bench [options] [crc] [banks] [rows] [filter] [updates] [calls]

crc     CRC-32 beside crc32fast's table path, and with SIMD
banks   load, validate, key and key match beside the lifted Rust, built with
        crc32fast's table path and with SIMD
rows    the writing and the reading of rows beside csv-core
filter  queries and insertions of the trip filter beside the lifted Rust, built
        in both ways
updates a full update by bytes and by rows beside the lifted Rust, built in both
        ways
calls   single calls of an update and on a bank, the core alone

Without a word all are timed. One table has them: nanoseconds a call, the ratio
(the peer's time over the core's, so above 1 the core is faster), the least and the
most of the ratios, the mark. A mark is reached if the least ratio reaches it.

  --quick      four runs with fewer rounds
  --markdown   the table in Markdown
  --svg FILE   draws the ratios as bars for a browser
  --judge      exit status 1 where a mark is missed
  --draw       only draws the speed of CRC-32, beside zlib too
  --sizes      only prints the bytes of what crosses the C interface
  --help       this text

All is timed in eight runs, each a process of its own. Four programs take turns,
which differ only in where their code lies: that alone moves the ratios of rows by
up to a quarter. In a run the core and its peers take turns in short
batches, so that a busy machine slows all alike; a time is the lower decile of its
batches. The table has the medians of the runs.

Exit status: 0 all was timed, 1 answers differ, or with --judge a mark is missed,
2 wrong use.
";

/// Runs, and rounds in each.
const WHOLE: (usize, usize) = (8, 800);
const QUICK: (usize, usize) = (4, 150);
/// The same program with its code at other addresses.
const LINKED: [&str; 4] = ["bench", "bench-1", "bench-2", "bench-3"];

/// The program, its code moved by n bytes: they come before all other code, since a
/// program's own object is linked first.
#[macro_export]
macro_rules! linked {
    ($skip:literal) => {
        core::arch::global_asm!(concat!(
            ".section .text.before,\"ax\"\n.globl before\nbefore: .zero ",
            stringify!($skip),
            "\n.text"
        ));
        unsafe extern "C" {
            static before: u8;
        }
        fn main() -> std::process::ExitCode {
            std::hint::black_box(&raw const before);
            bench::main()
        }
    };
}

type Part = (&'static str, fn(usize) -> Vec<Line>);
#[cfg(not(feature = "banks"))]
const PARTS: [Part; 1] = [("crc", crc::lines)];
#[cfg(feature = "banks")]
const PARTS: [Part; 6] = [
    ("crc", crc::lines),
    ("banks", banks::lines),
    ("rows", |rounds| rows::lines(rounds / 3)),
    ("filter", |rounds| filter::lines(rounds / 3)),
    ("updates", |rounds| updates::lines(rounds / 10)),
    ("calls", |rounds| calls::lines(rounds / 3)),
];

#[derive(Default)]
struct Options {
    quick: bool,
    markdown: bool,
    judge: bool,
    svg: Option<String>,
    parts: Vec<String>,
    /// Other modes: one run for the process that started it, a drawing, sizes,
    /// help.
    only: Option<String>,
}

fn options() -> Option<Options> {
    let mut options = Options::default();
    let mut arguments = env::args().skip(1);
    while let Some(argument) = arguments.next() {
        match &argument[..] {
            "--quick" => options.quick = true,
            "--markdown" => options.markdown = true,
            "--judge" => options.judge = true,
            "--svg" => options.svg = Some(arguments.next()?),
            "--run" | "--draw" | "--sizes" | "--help" | "-h" => options.only = Some(argument),
            part if PARTS.iter().any(|(name, _)| *name == part) => options.parts.push(argument),
            _ => return None,
        }
    }
    Some(options)
}

impl Options {
    fn rounds(&self) -> (usize, usize) {
        if self.quick { QUICK } else { WHOLE }
    }
    fn asked(&self, part: &str) -> bool {
        self.parts.is_empty() || self.parts.iter().any(|p| p == part)
    }
}

/// All lines once, written for the process that asked.
fn run(options: &Options) {
    for (name, lines) in PARTS {
        if options.asked(name) {
            lines(options.rounds().1).iter().for_each(|line| println!("{}", line.written()));
        }
    }
}

/// All lines once, by a process of their own.
fn started(options: &Options, linked: &str) -> std::io::Result<Vec<Line>> {
    let this = env::current_exe()?;
    let other = this.with_file_name(linked);
    let mut command = Command::new(if other.is_file() { other } else { this });
    command.arg("--run").args(&options.parts).stderr(Stdio::inherit());
    if options.quick {
        command.arg("--quick");
    }
    let output = command.output()?;
    if !output.status.success() {
        return Err(std::io::Error::other("a run came to no end"));
    }
    Ok(String::from_utf8_lossy(&output.stdout).lines().filter_map(Line::read).collect())
}

fn show(options: &Options) -> std::io::Result<bool> {
    let machine = table::machine();
    let count = options.rounds().0;
    let programs = LINKED.iter().cycle().take(count);
    let runs: Vec<_> = programs.map(|p| started(options, p)).collect::<Result<_, _>>()?;
    let rows = Row::of_runs(&runs);
    println!("{machine}; {count} runs; crc32fast {}", common::crc32fast());
    println!();
    if options.markdown {
        table::markdown(&rows)
    } else {
        table::text(&rows)
    }
    println!();
    table::summary(&rows);
    if let Some(file) = &options.svg {
        fs::write(file, picture::svg(&rows, &machine))?;
    }
    let missed = rows.iter().any(|r| r.reached() == Some(false));
    let failed = rows.iter().any(Row::differs) || options.judge && missed;
    Ok(!failed)
}

/// Why nothing can be timed.
fn unfit() -> Option<&'static str> {
    if cfg!(debug_assertions) {
        return Some("not a release build; run it with cargo run --release");
    }
    let standin = common::crc32fast().contains("standin");
    standin.then_some("built with a stand-in for crc32fast: there is nothing to measure against")
}

pub fn main() -> ExitCode {
    let Some(options) = options() else {
        eprintln!("bench: not understood; see bench --help");
        return ExitCode::from(2);
    };
    if let Some(why) = unfit() {
        eprintln!("bench: {why}");
        return ExitCode::from(2);
    }
    match options.only.as_deref() {
        Some("--run") => run(&options),
        Some("--draw") => crc::draw(options.rounds().1),
        Some("--sizes") => sizes::sizes(),
        Some(_) => print!("{HELP}"),
        None => match show(&options) {
            Ok(true) => {}
            Ok(false) => return ExitCode::FAILURE,
            Err(error) => {
                eprintln!("bench: {error}");
                return ExitCode::from(2);
            }
        },
    }
    ExitCode::SUCCESS
}
