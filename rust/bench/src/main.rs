//! All calls timed; see bench --help.
bench::linked!(0);
