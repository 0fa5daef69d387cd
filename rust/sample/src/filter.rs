//! The trip filter, which is at the region's start.
use crate::{hex, region::Region};
use common::Random;
use lifted::cache::door;
use std::fmt::{Result, Write as _};

struct Filter<'a> {
    out: &'a mut String,
    bits: Vec<u8>,
}

impl Filter<'_> {
    fn query(&mut self, id: &str) -> Result {
        let answer = u8::from(door::bloom(&mut self.bits, id, false));
        writeln!(self.out, "query {} {} {answer}", self.bits.len(), hex(id.as_bytes()))
    }

    /// Inserts, and says which bytes changed and to what, and the CRC of all.
    fn insert(&mut self, id: &str) -> Result {
        let before = self.bits.clone();
        let answer = u8::from(door::bloom(&mut self.bits, id, true));
        writeln!(self.out, "insert {} {} {answer}", self.bits.len(), hex(id.as_bytes()))?;
        for (i, byte) in self.bits.iter().enumerate().filter(|(i, b)| before[*i] != **b) {
            writeln!(self.out, "holds {i} {}", hex(&[*byte]))?;
        }
        writeln!(self.out, "sum 0 {} {}", self.bits.len(), crc32fast::hash(&self.bits))
    }
}

fn ids(random: &mut Random, count: usize) -> Vec<String> {
    let mut list: Vec<String> = ["", "trip", "a", "Åsane", "0", "1"].map(String::from).into();
    while list.len() < count {
        let length = 1 + random.below(30);
        list.push((0..length).map(|_| random.pick(b"abcXYZ0123456789_:-") as char).collect());
    }
    list
}

pub fn write(out: &mut String, random: &mut Random) -> Result {
    for (size, count, any) in [
        (1, 6, false),
        (3, 8, false),
        (3, 8, true),
        (64, 12, true),
        (16_384, 24, false),
        (65_536, 8, false),
    ] {
        let mut region = Region::new(out, 0)?;
        if any {
            region.bytes[..size].copy_from_slice(&random.bytes(size));
            region.write(out)?;
        }
        let bits = region.bytes[..size].to_vec();
        let mut filter = Filter { out, bits };
        let list = ids(random, count);
        for id in &list {
            filter.query(id)?;
            filter.insert(id)?;
            filter.query(id)?;
        }
        for id in list.iter().chain(&ids(random, 12)) {
            filter.query(id)?;
        }
        filter.insert(&list[0])?;
    }
    Ok(())
}
