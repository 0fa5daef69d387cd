//! Wrong cores on purpose: a case differs, the same case run alone differs in the
//! same way, and its smallest form is as small as it should be.
use crate::{
    banks, cuts, events, filter, forged, keys, leaves, rows,
    run::{Run, Tally, cases, listen},
    shrink::Input,
    stored, unchanged, updates,
    wrong::{WRONG, Wrong},
};
use std::sync::Once;

static LISTENING: Once = Once::new();

fn run<I: Input>(numbers: std::ops::Range<u64>) -> Tally {
    let mut tally = Tally::default();
    cases::<I>(&Run { part: "part", seed: 1, numbers, end: None }, &mut tally);
    tally
}

/// The lines of the smallest form that a wrong core's first differing case has.
fn smallest<I: Input>(wrong: Wrong, count: u64) -> Vec<String> {
    LISTENING.call_once(listen);
    assert_eq!(run::<I>(0..1).differ, 0, "the right core differs");
    WRONG.set(Some(wrong));
    let form = run::<I>(0..count).form;
    let again = form.first().expect("a case differs");
    let number = again.strip_prefix("again: compare --seed 1 --case ").expect("how to run again");
    let number: u64 = number.strip_suffix(" part").expect("the part").parse().expect("a number");
    assert_eq!(run::<I>(number..number + 1).form, form, "the case alone");
    assert!(form[1].ends_with("steps:"), "the time was over: {}", form[1]);
    let (shown, differences): (Vec<String>, _) =
        form[2..].iter().map(|l| l.trim().to_string()).partition(|l| !l.starts_with("-> "));
    assert!(!differences.is_empty(), "what differs isn't said");
    shown
}

#[test]
fn newer() {
    let form = smallest::<Vec<leaves::Numbers<leaves::Newer>>>(Wrong::Newer, 1);
    assert_eq!(form, ["newer(0, 1000)"]);
}

#[test]
fn a_core_that_stops() {
    let form = smallest::<Vec<leaves::Numbers<leaves::Next>>>(Wrong::Next, 1);
    assert_eq!(form, ["next(5000)"]);
}

#[test]
fn crc() {
    let form = smallest::<Vec<leaves::Crc>>(Wrong::Crc, 5);
    assert_eq!(form, ["1 bytes (77) at alignment 0, in two at 0, after 0x0"]);
}

#[test]
fn key() {
    let form = smallest::<Vec<keys::Asked>>(Wrong::Key, 5);
    let key = r#"key into 8 bytes from 0, identity of 0 bytes (no bytes), picks ["|||aa|"]"#;
    assert_eq!(form, [key]);
}

#[test]
fn banks() {
    let form = smallest::<banks::Regions>(Wrong::Count, 5);
    assert_eq!(form.len(), 8, "one bank in one region: {form:?}");
    let header = "header TTFC, version 3, generation 0, length 1, data CRC right, count 3, key 1, \
                  spare 0, checked 0, header CRC right, commit word 434f4d54";
    assert!(form[2].ends_with(header), "{}", form[2]);
    let zeros = "originals 64 zeros, tables 96 zeros, rest 224 zeros";
    assert!(form[3..6].iter().all(|record| record.ends_with(zeros)), "{form:?}");
}

#[test]
fn row() {
    let form = smallest::<rows::Rows>(Wrong::Row, 100);
    let row = r#"row ["\\r", "\\\""], lengths [1, 1], and then into 0 bytes"#;
    assert_eq!(form, ["table 6 with its names line", row]);
}

#[test]
fn stored_row() {
    let form = smallest::<stored::Stored>(Wrong::Stored, 20);
    let read = "read_row at 1, width 2, into 0 bytes and 2 ends";
    assert_eq!(form, [r"table of 4 bytes: ,,\n,", read]);
}

#[test]
fn filter() {
    let form = smallest::<filter::Filter>(Wrong::Filter, 40);
    assert_eq!(form, ["filter of 1 bytes: 00", "query, insert and query Z"]);
}

const BLANK: [&str; 2] = ["bank 0: all 0xff", "bank 1: all 0xff"];

/// An update of a key and an empty Routes.
fn least(layer: &str, key: &str) -> Vec<String> {
    let source = "source 20260101 to 20260101, present 0, record 0525350105253501 and 376 zeros";
    let begin = format!("update by the {layer} calls, 46 bytes, now 1790000000");
    let end = ["table 0", "table end", "closing, stamp None"];
    [&begin, key, source].into_iter().chain(end).map(String::from).collect()
}

#[test]
fn updates() {
    let form = smallest::<updates::Updates>(Wrong::Tail, 1);
    assert_eq!(form[..2], BLANK);
    assert_eq!(form[2..8], least("lower", "key ee"));
    assert_eq!(form.len(), 9, "one update: {form:?}");
}

#[test]
fn unchanged() {
    let form = smallest::<unchanged::Comparisons>(Wrong::Unchanged, 1);
    assert!(form[1].starts_with("on a blank region"), "{}", form[1]);
    assert_eq!(form[3], "key 0000");
    assert_eq!(form.len(), 8, "one comparison: {form:?}");
}

#[test]
fn cuts() {
    let form = smallest::<cuts::Cuts>(Wrong::Tail, 2);
    assert_eq!(form[..2], BLANK);
    let key = "key of identity of 0 bytes (no bytes), picks []";
    assert_eq!(form[2..8], least("upper", key));
    assert!(form[8].starts_with("the update cut after 0 operations"), "{}", form[8]);
    assert_eq!(form[9..15], least("lower", "key ee"));
}

/// The update's five operations end with the commit word.
#[test]
fn cuts_inside_the_commit_word() {
    let form = smallest::<cuts::Cuts>(Wrong::Begun, 1);
    assert_eq!(form[..2], BLANK);
    let key = "key of identity of 0 bytes (no bytes), picks []";
    assert_eq!(form[2..8], least("upper", key));
    let cut = "the update cut after 4 operations and 1 bytes of the next, ";
    assert!(form[8].starts_with(cut), "{}", form[8]);
    assert_eq!(form.len(), 15, "one cut, one update: {form:?}");
}

#[test]
fn forged() {
    let form = smallest::<forged::Steps>(Wrong::Closing, 4);
    assert_eq!(form[..2], BLANK);
    assert_eq!(form[2], "begin, comparing false, now 0");
    assert!(form[3].starts_with("state: numbers [0, 0, 0, 0, 0"), "{}", form[3]);
    assert!(form[4].ends_with("Close"), "{}", form[4]);
    assert_eq!(form.len(), 5, "one state and one call: {form:?}");
}

/// Two sources, the first with its Routes, and all that a commit needs.
#[test]
fn history() {
    let form = smallest::<events::Events>(Wrong::Word, 4);
    assert_eq!(form[..2], BLANK);
    assert!(form[2].starts_with("begin, comparing false"), "{}", form[2]);
    assert_eq!(form[3], "bytes, 1 offered: 00");
    assert_eq!(form[5..7], ["Table(0)", "End"]);
    assert_eq!(form[8..], ["Closing", "Commit(None, true)", "Word"]);
    assert!([4, 7].iter().all(|i| form[*i].starts_with("source ")), "{form:?}");
}

/// The smallest form for a wrong core that a cut inside the commit word shows.
fn cut_inside_the_commit_word(wrong: Wrong, count: u64) -> String {
    let mut form = smallest::<events::Events>(wrong, count);
    let word = form.pop().expect("a call");
    assert_eq!(form[..2], BLANK);
    assert!(form[2].starts_with("begin, comparing false"), "{}", form[2]);
    let commit = ["Table(0)", "End", "Close", "Due", "Due", "Due", "Commit(None, true)"];
    assert!(form.ends_with(&commit.map(String::from)), "{form:?}");
    word
}

#[test]
fn history_counts_a_begun_operation() {
    let word = cut_inside_the_commit_word(Wrong::Begun, 4);
    assert_eq!(word, "Word, cut after 0 operations and 1 bytes of the next");
}

/// With one byte fewer, and between two operations, nothing is visible.
#[test]
fn three_bytes_make_the_commit_word() {
    let word = cut_inside_the_commit_word(Wrong::Header, 12);
    assert_eq!(word, "Word, cut after 0 operations and 3 bytes of the next");
}
