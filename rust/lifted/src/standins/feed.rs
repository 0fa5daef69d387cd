//! Stands in for `Builder` of display/src/feed.rs, which needs a timezone. Only its
//! three dates and its mask of wanted days are used, by `Bank::fresh`; here the
//! mask is given, not computed.
use crate::gtfs::Date;

pub struct Builder {
    pub dates: [Date; 3],
    pub wanted: u8,
}

impl Builder {
    pub fn day_mask(&self) -> u8 {
        self.wanted
    }
}
