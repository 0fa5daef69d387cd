//! bench, linked with its code moved by 3,120 bytes.
bench::linked!(3120);
