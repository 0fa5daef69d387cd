//! The parts: what each goes through whole, and its random cases.
use crate::{
    banks, cuts, events, filter, forged, keys, leaves, pairs, rows,
    run::{Plan, Run, Tally, cases},
    shrink::Input,
    stored, unchanged, updates,
};

pub struct Part {
    pub name: &'static str,
    pub about: &'static str,
    /// What is gone through once, whole.
    pub whole: fn(&Plan, &mut Tally),
    pub random: Option<Random>,
}

/// A part's random cases.
#[derive(Clone, Copy)]
pub struct Random {
    /// How many are run if nothing else is asked for.
    pub usual: u64,
    /// Its share of the time that is asked for.
    pub share: u32,
    pub run: fn(&Run, &mut Tally),
}

const fn random<I: Input>(usual: u64, share: u32) -> Option<Random> {
    Some(Random { usual, share, run: cases::<I> })
}

fn nothing(_: &Plan, _: &mut Tally) {}

fn smoke(_: &Plan, tally: &mut Tally) {
    let checks = lifted::smoke::smoke().unwrap_or_else(|e| {
        eprintln!("the lifted Rust stopped: {e:?}");
        vec![("runs to its end", false)]
    });
    for (i, (what, holds)) in checks.into_iter().enumerate() {
        tally.same(holds, true, || (vec![i as u64], what.into()));
    }
}

pub const PARTS: &[Part] = &[
    Part {
        name: "dates",
        about: "valid_date, every number from 0 to 100020000, and random ones",
        whole: leaves::dates,
        random: random::<Vec<leaves::Numbers<leaves::Date>>>(100, 1),
    },
    Part {
        name: "new-dates",
        about: "Date::new, all months and days of many years, and random dates",
        whole: leaves::new_dates,
        random: random::<Vec<leaves::Numbers<leaves::NewDate>>>(50, 1),
    },
    Part {
        name: "newer",
        about: "newer, corners and random pairs",
        whole: leaves::newer,
        random: random::<Vec<leaves::Numbers<leaves::Newer>>>(200, 1),
    },
    Part {
        name: "next",
        about: "the next generation",
        whole: leaves::next,
        random: random::<Vec<leaves::Numbers<leaves::Next>>>(100, 1),
    },
    Part {
        name: "crc",
        about: "CRC-32, lengths 0 to 300, alignments, splits, starts, and random ones",
        whole: leaves::crc,
        random: random::<Vec<leaves::Crc>>(100, 3),
    },
    Part {
        name: "long-crc",
        about: "CRC-32 of about 487424 bytes, whole and in pieces",
        whole: leaves::long_crc,
        random: random::<Vec<leaves::Long>>(18, 2),
    },
    Part {
        name: "get",
        about: "get, in range and past it",
        whole: nothing,
        random: random::<Vec<leaves::Place<leaves::Get>>>(20, 1),
    },
    Part {
        name: "put",
        about: "put, in range and past it, every byte",
        whole: nothing,
        random: random::<Vec<leaves::Place<leaves::Put>>>(20, 1),
    },
    Part {
        name: "times",
        about: "signed 64-bit times, read and written",
        whole: nothing,
        random: random::<Vec<leaves::Place<leaves::Time>>>(20, 1),
    },
    Part {
        name: "rotate",
        about: "rotation left by 13",
        whole: leaves::rotate,
        random: random::<Vec<leaves::Numbers<leaves::Rotate>>>(100, 1),
    },
    Part {
        name: "keys",
        about: "key, every output byte",
        whole: keys::key,
        random: random::<Vec<keys::Asked>>(1200, 6),
    },
    Part {
        name: "banks",
        about: "validate, header, load, source, freshness, key match, turns, stored rows",
        whole: nothing,
        random: random::<banks::Regions>(5000, 14),
    },
    Part {
        name: "records",
        about: "records of all versions, each byte against the image's own",
        whole: nothing,
        random: random::<banks::Records>(334, 4),
    },
    Part {
        name: "images",
        about: "all these calls on the images of samples/",
        whole: banks::images,
        random: random::<Vec<banks::Image>>(10, 1),
    },
    Part {
        name: "pairs",
        about: "refusals that are true at once: the earlier one is given",
        whole: pairs::pairs,
        random: None,
    },
    Part {
        name: "names",
        about: "names lines and columns of the tables",
        whole: rows::names,
        random: None,
    },
    Part {
        name: "rows",
        about: "rows as written, and read back by the core, csv-core and the Rust",
        whole: rows::rows,
        random: random::<rows::Rows>(20_000, 8),
    },
    Part {
        name: "stored-rows",
        about: "rows as read, of damaged tables too, beside a reader of their own",
        whole: stored::stored,
        random: random::<stored::Stored>(40_000, 8),
    },
    Part {
        name: "filter",
        about: "the trip filter, every byte after each call",
        whole: filter::filter,
        random: random::<filter::Filter>(1950, 6),
    },
    Part {
        name: "updates",
        about: "updates by both layers: each flash operation, and the region",
        whole: updates::updates,
        random: random::<updates::Updates>(60, 24),
    },
    Part {
        name: "unchanged",
        about: "unchanged, beside banks of all versions with one thing other",
        whole: nothing,
        random: random::<unchanged::Comparisons>(30, 10),
    },
    Part {
        name: "cuts",
        about: "updates cut after k operations and j bytes, load, and the next update",
        whole: nothing,
        random: random::<cuts::Cuts>(72, 14),
    },
    Part {
        name: "forged",
        about: "calls on forged states: answer, state and region",
        whole: nothing,
        random: random::<forged::Steps>(60, 14),
    },
    Part {
        name: "history",
        about: "random calls with cuts: load and the bank, beside demand 3's history",
        whole: nothing,
        random: random::<events::Events>(72, 24),
    },
    Part {
        name: "smoke",
        about: "the lifted Rust alone, through an update",
        whole: smoke,
        random: None,
    },
];
