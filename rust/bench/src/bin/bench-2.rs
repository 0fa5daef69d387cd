//! bench, linked with its code moved by 2,080 bytes.
bench::linked!(2080);
