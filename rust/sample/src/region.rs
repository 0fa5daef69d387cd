//! A region as lines that change the one before into it.
use common::made::REGION;
use std::fmt::{Result, Write as _};

/// This many equal bytes are a line of their own.
const RUN: usize = 24;
/// This many unchanged bytes end a line.
const GAP: usize = 8;
const LONGEST: usize = 4096;

pub struct Region {
    /// What the lines so far have built.
    written: Vec<u8>,
    pub bytes: Vec<u8>,
}

impl Region {
    /// Begins a region whose bytes are all the same.
    pub fn new(out: &mut String, byte: u8) -> std::result::Result<Self, std::fmt::Error> {
        writeln!(out, "region {byte}")?;
        let bytes = vec![byte; REGION];
        Ok(Self { written: bytes.clone(), bytes })
    }

    fn changed(&self, i: usize) -> bool {
        self.bytes[i] != self.written[i]
    }

    /// How many bytes from an offset on are equal.
    fn run(&self, from: usize) -> usize {
        self.bytes[from..].iter().take_while(|b| **b == self.bytes[from]).count()
    }

    /// The end of the line that begins at an offset.
    fn end(&self, from: usize) -> usize {
        let ends = |&i: &usize| {
            i - from == LONGEST
                || (i..REGION.min(i + GAP)).all(|k| !self.changed(k))
                || self.changed(i) && self.run(i) >= RUN
        };
        (from + 1..REGION).find(ends).unwrap_or(REGION)
    }

    /// Writes what has changed since.
    pub fn write(&mut self, out: &mut String) -> Result {
        let mut at = 0;
        while let Some(from) = (at..REGION).find(|&i| self.changed(i)) {
            let run = self.run(from);
            if run >= RUN {
                writeln!(out, "fill {from} {run} {}", self.bytes[from])?;
                at = from + run;
            } else {
                at = self.end(from);
                writeln!(out, "at {from} {}", crate::hex(&self.bytes[from..at]))?;
            }
        }
        self.written.copy_from_slice(&self.bytes);
        Ok(())
    }
}
