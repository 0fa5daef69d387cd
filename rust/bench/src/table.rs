//! The table, as text or in Markdown, and the machine that it was measured on.
use crate::line::Row;
use std::{fs, thread::available_parallelism};

const HEADS: [&str; 9] =
    ["call", "core, ns", "peer", "peer, ns", "SIMD, ns", "ratio", "all runs", "mark", "reached"];
type Cells = [String; 9];

/// A number with a comma after each three digits.
pub fn grouped(number: usize) -> String {
    let digits = number.to_string();
    let mut out = String::new();
    for (i, digit) in digits.chars().enumerate() {
        if i > 0 && (digits.len() - i).is_multiple_of(3) {
            out.push(',');
        }
        out.push(digit);
    }
    out
}

fn nanoseconds(time: f64) -> String {
    if time < 99.95 { format!("{time:.1}") } else { grouped(time.round() as usize) }
}

/// A ratio with two digits, cut and not rounded, so that 0.999 doesn't look like 1.
pub fn ratio(number: f64) -> String {
    format!("{:.2}", (number * 100.0).floor() / 100.0)
}

fn cells(row: &Row) -> Cells {
    let time = |k: usize| row.line.times.get(k).map_or(String::new(), |t| nanoseconds(*t));
    let spread = match row.ratios[..] {
        [] | [_] => String::new(),
        [least, .., most] => format!("{} to {}", ratio(least), ratio(most)),
    };
    let reached = match row.reached() {
        _ if row.differs() => "the answers differ",
        Some(true) => "yes",
        Some(false) => "**no**",
        None => "",
    };
    [
        row.line.name.clone(),
        time(0),
        row.line.peer.clone(),
        time(1),
        time(2),
        row.ratio().map_or(String::new(), ratio),
        spread,
        row.line.mark.map_or(String::new(), |m| format!("{m:.2}")),
        reached.into(),
    ]
}

pub fn markdown(rows: &[Row]) {
    println!("| {} |", HEADS.join(" | "));
    println!("|---|--:|---|--:|--:|--:|---|---|---|");
    for row in rows {
        println!("| {} |", cells(row).join(" | "));
    }
}

pub fn text(rows: &[Row]) {
    let all: Vec<Cells> =
        [HEADS.map(String::from)].into_iter().chain(rows.iter().map(cells)).collect();
    let width = |k: usize| all.iter().map(|c| c[k].len()).max().unwrap_or(0);
    let widths: Vec<usize> = (0..HEADS.len()).map(width).collect();
    for cells in &all {
        let mut line = String::new();
        for (k, cell) in cells.iter().enumerate() {
            let cell = cell.trim_matches('*');
            let width = widths[k];
            match k {
                0 | 2 | 6 | 8 => line += &format!("{cell:<width$}  "),
                _ => line += &format!("{cell:>width$}  "),
            }
        }
        println!("{}", line.trim_end());
    }
}

/// The processor's kind, how many cores there are, and the load of the last
/// minute.
pub fn machine() -> String {
    let about = fs::read_to_string("/proc/cpuinfo").unwrap_or_default();
    let field = |name: &str| {
        let line = about.lines().find(|l| l.starts_with(name))?;
        Some(line.split_once(':')?.1.replace("(R)", "").replace("(TM)", "").trim().to_string())
    };
    let model = field("model name").unwrap_or("a processor of unknown kind".into());
    let [family, number] = ["cpu family", "model\t"].map(|n| field(n).unwrap_or("?".into()));
    let clock = field("cpu MHz").and_then(|c| c.parse().ok()).unwrap_or(0.0) / 1000.0;
    let cores = available_parallelism().map_or(0, usize::from);
    let load = fs::read_to_string("/proc/loadavg").unwrap_or_default();
    let load = load.split(' ').next().unwrap_or("?").to_string();
    let kind = format!("{model} (family {family}, model {number}, {clock:.1} GHz)");
    format!("{kind}, {cores} cores; load before the run {load}")
}

/// What was reached, in one line; what was not, a line each. The least of a row's
/// ratios counts.
pub fn summary(rows: &[Row]) {
    let marked = rows.iter().filter(|r| r.reached().is_some()).count();
    let reached = rows.iter().filter(|r| r.reached() == Some(true)).count();
    println!("{reached} of {marked} marks reached in every run");
    println!();
    for row in rows.iter().filter(|r| r.reached() == Some(false)) {
        let [least, middle] = [row.least(), row.ratio()].map(|r| ratio(r.unwrap_or(0.0)));
        let mark = row.line.mark.unwrap_or(0.0);
        println!("- missed: {}, {least} of {mark:.2} (median {middle})", row.line.name);
    }
}
