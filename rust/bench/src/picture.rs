//! The ratios as bars, in an SVG picture.
use crate::{line::Row, table};
use std::{
    fmt::Write,
    time::{SystemTime, UNIX_EPOCH},
};

/// Where names and figures end and bars begin, and the length of a ratio of 1.
const NAMES: f64 = 272.0;
const FIGURES: f64 = 362.0;
const LEFT: f64 = 372.0;
const UNIT: f64 = 160.0;
/// From a bar to the next, and the gap between bars of different peers.
const STEP: f64 = 17.0;
const GAP: f64 = 10.0;
const TOP: f64 = 108.0;
/// Longer bars are cut off.
const MOST: f64 = 3.0;
const CUT: &str = "\u{bb}";
const DAY: u64 = 86_400;
const WIDTH: f64 = LEFT + UNIT * MOST + 24.0;

const STYLE: &str = "\
text{font:12px sans-serif;fill:#222}.h{font-size:15px;font-weight:bold}.n{fill:#555}.e{text-anchor:end}\
.m{text-anchor:middle;fill:#555}.b{font-weight:bold}.fast{fill:#4a8f5c}.slow{fill:#d9a441}.missed{fill:#c8553d}\
.on{fill:#fff;font-weight:bold}\
.all{stroke:#222;opacity:.6}.one{stroke:#222;stroke-width:1.5}.grid{stroke:#ddd}.mark{stroke:#222;stroke-width:2}";

/// What is above the bars: what they are, their colours, the machine and the day.
fn heads(machine: &str) -> String {
    let [title, how] = [
        "The core beside the Rust: the Rust's time over the core's",
        "Right of 1 the core is faster. Upright stroke: the mark; thin line: all runs; \u{bb}: longer than the scale.",
    ];
    let colours = [("fast", "faster"), ("slow", "slower"), ("missed", "below its mark in a run")];
    let mut out = format!(r#"<text class="h" x="12" y="22">{title}</text>"#);
    out += &format!(r#"<text class="n" x="12" y="41">{how}</text>"#);
    out += &format!(r#"<text class="n" x="12" y="58">{machine}; {}</text>"#, today());
    for (k, (class, said)) in colours.iter().enumerate() {
        let x = LEFT + 80.0 * k as f64;
        out += &format!(r#"<rect class="{class}" x="{x}" y="66" width="12" height="12"/>"#);
        out += &format!(r#"<text x="{}" y="76">{said}</text>"#, x + 17.0);
    }
    out + "\n"
}

/// The day, by the Gregorian rule.
fn today() -> String {
    let seconds = SystemTime::now().duration_since(UNIX_EPOCH).map_or(0, |d| d.as_secs());
    let (mut day, mut year) = (seconds / DAY, 1970);
    let leap = |y: u64| y.is_multiple_of(4) && (!y.is_multiple_of(100) || y.is_multiple_of(400));
    let days = |y: u64| if leap(y) { 366 } else { 365 };
    while day >= days(year) {
        day -= days(year);
        year += 1;
    }
    let mut month = 0;
    let lengths = [31, days(year) - 337, 31, 30, 31, 30, 31, 31, 30, 31, 30, 31];
    while day >= lengths[month] {
        day -= lengths[month];
        month += 1;
    }
    format!("{year}-{:02}-{:02}", month + 1, day + 1)
}

fn bar(out: &mut String, row: &Row, ratio: f64, y: f64) -> std::fmt::Result {
    let (class, said) = match row.reached() {
        Some(false) => ("missed", "e b"),
        _ if ratio < 1.0 => ("slow", "e"),
        _ => ("fast", "e"),
    };
    let (name, base, length) = (&row.line.name, y + 11.0, ratio.min(MOST) * UNIT);
    let missed = if class == "missed" { "missed " } else { "" };
    writeln!(out, r#"<text class="e" x="{NAMES}" y="{base}">{name}</text>"#)?;
    let figure = table::ratio(ratio);
    writeln!(out, r#"<text class="{said}" x="{FIGURES}" y="{base}">{missed}{figure}</text>"#)?;
    let place = format!(r#"x="{LEFT}" y="{y}" width="{length:.0}" height="13""#);
    writeln!(out, r#"<rect class="{class}" {place}/>"#)?;
    if ratio > MOST {
        let x = LEFT + length - 14.0;
        writeln!(out, r#"<text class="on" x="{x}" y="{base}">{CUT}</text>"#)?;
    }
    if let [least, .., most] = row.ratios[..] {
        let [from, to] = [least, most].map(|r| LEFT + r.min(MOST) * UNIT);
        writeln!(out, r#"<path class="all" d="M{from:.0} {}H{to:.0}"/>"#, y + 6.5)?;
    }
    if let Some(mark) = row.line.mark {
        let (x, y) = (LEFT + mark * UNIT, y - 2.0);
        writeln!(out, r#"<path class="mark" d="M{x} {y}v17"/>"#)?;
    }
    Ok(())
}

/// Lines at the halves of the scale, with their numbers above.
fn scale(out: &mut String, bottom: f64) -> std::fmt::Result {
    for k in 0..=(MOST * 2.0) as usize {
        let (value, x) = (k as f64 / 2.0, LEFT + k as f64 / 2.0 * UNIT);
        let class = if value == 1.0 { "one" } else { "grid" };
        let (number, top) = (TOP - 11.0, TOP - 6.0);
        writeln!(out, r#"<path class="{class}" d="M{x} {top}V{bottom}"/>"#)?;
        writeln!(out, r#"<text class="m" x="{x}" y="{number}">{value}</text>"#)?;
    }
    Ok(())
}

fn drawn(rows: &[Row], machine: &str) -> Result<String, std::fmt::Error> {
    let rows: Vec<(&Row, f64)> = rows.iter().filter_map(|r| Some((r, r.ratio()?))).collect();
    let (mut bars, mut out) = (String::new(), String::new());
    let mut y = TOP;
    for (i, (row, ratio)) in rows.iter().enumerate() {
        if i > 0 && rows[i - 1].0.line.peer != row.line.peer {
            y += GAP;
        }
        bar(&mut bars, row, *ratio, y)?;
        y += STEP;
    }
    let size = format!(r#"width="{WIDTH}" height="{h}" viewBox="0 0 {WIDTH} {h}""#, h = y + 12.0);
    writeln!(out, r#"<svg xmlns="http://www.w3.org/2000/svg" {size}>"#)?;
    writeln!(out, r##"<style>{STYLE}</style><rect width="100%" height="100%" fill="#fff"/>"##)?;
    out += &heads(machine);
    scale(&mut out, y)?;
    Ok(out + &bars + "</svg>\n")
}

pub fn svg(rows: &[Row], machine: &str) -> String {
    drawn(rows, machine).expect("a text can be written to")
}
