//! bench, linked with its code moved by 1,040 bytes.
bench::linked!(1040);
