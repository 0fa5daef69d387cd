//! The constants of the core. tools/header makes this file from the crates' sources: don't edit
//! it. Sizes and offsets are in bytes.

// Sizes, in bytes, and counts.
/// The flash region: two banks.
pub const REGION_SIZE: usize = 983_040;
/// Banks 0 and 1.
pub const BANKS: usize = 2;
/// A bank: its header sector, then its data.
pub const BANK_SIZE: usize = 491_520;
/// A sector, which an erase sets to 255.
pub const SECTOR_SIZE: usize = 4096;
/// The most data bytes of a bank.
pub const CAPACITY: usize = 487_424;
/// A write has a multiple of this many bytes.
pub const WRITE_UNIT: usize = 4;
/// An update's tail: no write of data has more bytes.
pub const TAIL_SIZE: usize = 256;
/// A bank's header, which the first commit call writes at the bank's start.
pub const HEADER_SIZE: usize = 1200;
/// The commit word's offset in a bank.
pub const COMMIT_WORD_OFFSET: usize = 44;
/// The commit word, which the second commit call writes.
pub const COMMIT_WORD_SIZE: usize = 4;
/// The most sources of a bank.
pub const SOURCES: usize = 3;
/// Tables 0 to 7.
pub const TABLES: usize = 8;
/// In an update's state: no table is open.
pub const NO_TABLE: u32 = 8;
/// The most columns of a table, and so the fewest `ends` that are enough for any.
pub const MAX_COLUMNS: usize = 10;
/// The longest row, with its row end; an `out` of this size is enough for any row.
pub const MAX_ROW: usize = 8192;
/// The longest key.
pub const MAX_KEY: usize = 67_795;
/// The longest identity.
pub const MAX_IDENTITY: usize = 65_535;
/// The most picks.
pub const MAX_PICKS: usize = 16;
/// The fields of a pick: line, route, stop code, stop, stop name.
pub const PICK_FIELDS: usize = 5;
/// The longest line of a pick.
pub const MAX_LINE: usize = 8;
/// The longest route.
pub const MAX_ROUTE: usize = 32;
/// The longest stop code.
pub const MAX_STOP_CODE: usize = 16;
/// The longest stop.
pub const MAX_STOP: usize = 32;
/// The longest stop name.
pub const MAX_STOP_NAME: usize = 64;
/// The largest trip filter; the smallest has 1 byte.
pub const MAX_FILTER: usize = 65_536;
/// The bank in the state of a refused beginning of checking.
pub const NO_BANK: u32 = 255;
/// The longest names line, with its LF.
pub const MAX_NAMES_LINE: usize = 106;
/// A time that isn't known.
pub const UNKNOWN_TIME: i64 = i64::MIN;

// A source's record, as version 3 has it: offsets and sizes in bytes. Numbers are little-endian.
/// The record.
pub const RECORD_SIZE: usize = 384;
/// U32: the first date, year × 10000 + month × 100 + day.
pub const RECORD_START: usize = 0;
/// U32: the last date.
pub const RECORD_END: usize = 4;
/// U32: bit t is set if table t is present.
pub const RECORD_PRESENT: usize = 8;
/// I64: when the source was updated, in seconds, or the unknown time.
pub const RECORD_UPDATED: usize = 12;
/// For each table CRC and length of the feed's whole file, two u32.
pub const RECORD_ORIGINALS: usize = 20;
/// For each table offset in the data, length and CRC, three u32.
pub const RECORD_BLOCKS: usize = 84;
/// Raw.
pub const RECORD_STAMP: usize = 180;
/// One byte.
pub const RECORD_ID_LENGTH: usize = 192;
/// Raw.
pub const RECORD_ID: usize = 193;
/// Raw: length and kind, a byte each, then the text.
pub const RECORD_VALIDATOR: usize = 273;
/// A table's two numbers at `RECORD_ORIGINALS`.
pub const ORIGINAL_SIZE: usize = 8;
/// A table's three numbers at `RECORD_BLOCKS`.
pub const BLOCK_SIZE: usize = 12;
/// The stamp.
pub const STAMP_SIZE: usize = 12;
/// The id, and the most that commit allows for its length.
pub const ID_SIZE: usize = 80;
/// The validator with its length and kind.
pub const VALIDATOR_SIZE: usize = 66;
/// The most that commit allows for a validator's length.
pub const MAX_VALIDATOR: usize = 64;
/// The two dates at `RECORD_START`, which are also in the data before the source's
/// tables.
pub const DATES_SIZE: usize = 8;

/// What an update's call answers.
pub mod answer {
    /// Done.
    pub const DONE: u32 = 0;
    /// Appended.
    pub const APPENDED: u32 = 1;
    /// None due.
    pub const NONE_DUE: u32 = 2;
    /// Same.
    pub const SAME: u32 = 3;
    /// Different.
    pub const DIFFERENT: u32 = 4;
}

/// The stage of an update's state: nothing due; an erase, a write or a comparison due;
/// the header written; committed.
pub mod stage {
    /// Idle.
    pub const IDLE: u32 = 0;
    /// Erase.
    pub const ERASE: u32 = 1;
    /// Write.
    pub const WRITE: u32 = 2;
    /// Compare.
    pub const COMPARE: u32 = 3;
    /// Header written.
    pub const HEADER_WRITTEN: u32 = 4;
    /// Committed.
    pub const COMMITTED: u32 = 5;
}

/// Whether an update's state has an active bank.
pub mod active {
    /// None.
    pub const NONE: u32 = 0;
    /// Some.
    pub const SOME: u32 = 1;
}

/// An update's operations. The due call does an erase, a write or a comparison, a
/// commit's first call writes the header, its second the commit word.
pub mod operation {
    /// None.
    pub const NONE: u32 = 0;
    /// Erase.
    pub const ERASE: u32 = 1;
    /// Write.
    pub const WRITE: u32 = 2;
    /// Compare.
    pub const COMPARE: u32 = 3;
    /// Header.
    pub const HEADER: u32 = 4;
    /// Commit word.
    pub const COMMIT_WORD: u32 = 5;
}

/// The tables by number.
pub mod table {
    /// Routes.
    pub const ROUTES: u32 = 0;
    /// Stops.
    pub const STOPS: u32 = 1;
    /// Trips.
    pub const TRIPS: u32 = 2;
    /// Stop times.
    pub const STOP_TIMES: u32 = 3;
    /// Calendar.
    pub const CALENDAR: u32 = 4;
    /// Calendar dates.
    pub const CALENDAR_DATES: u32 = 5;
    /// Feed info.
    pub const FEED_INFO: u32 = 6;
    /// Transfers.
    pub const TRANSFERS: u32 = 7;
}

/// The tables' names, by number.
pub const TABLE_NAMES: [&str; TABLES] = [
    "routes",
    "stops",
    "trips",
    "stop_times",
    "calendar",
    "calendar_dates",
    "feed_info",
    "transfers",
];

/// The columns of each table by index: value `column::stops::STOP_NAME` of a row of
/// stops is the stop's name.
pub mod column {
    /// Columns of routes.
    pub mod routes {
        /// Route id.
        pub const ROUTE_ID: usize = 0;
        /// Route short name.
        pub const ROUTE_SHORT_NAME: usize = 1;
        /// Route type.
        pub const ROUTE_TYPE: usize = 2;
        /// How many there are.
        pub const COUNT: usize = 3;
    }
    /// Columns of stops.
    pub mod stops {
        /// Stop id.
        pub const STOP_ID: usize = 0;
        /// Stop code.
        pub const STOP_CODE: usize = 1;
        /// Stop name.
        pub const STOP_NAME: usize = 2;
        /// How many there are.
        pub const COUNT: usize = 3;
    }
    /// Columns of trips.
    pub mod trips {
        /// Route id.
        pub const ROUTE_ID: usize = 0;
        /// Service id.
        pub const SERVICE_ID: usize = 1;
        /// Trip id.
        pub const TRIP_ID: usize = 2;
        /// Trip headsign.
        pub const TRIP_HEADSIGN: usize = 3;
        /// Direction id.
        pub const DIRECTION_ID: usize = 4;
        /// How many there are.
        pub const COUNT: usize = 5;
    }
    /// Columns of stop times.
    pub mod stop_times {
        /// Trip id.
        pub const TRIP_ID: usize = 0;
        /// Stop id.
        pub const STOP_ID: usize = 1;
        /// Stop sequence.
        pub const STOP_SEQUENCE: usize = 2;
        /// Arrival time.
        pub const ARRIVAL_TIME: usize = 3;
        /// Departure time.
        pub const DEPARTURE_TIME: usize = 4;
        /// Pickup type.
        pub const PICKUP_TYPE: usize = 5;
        /// Drop off type.
        pub const DROP_OFF_TYPE: usize = 6;
        /// Stop headsign.
        pub const STOP_HEADSIGN: usize = 7;
        /// How many there are.
        pub const COUNT: usize = 8;
    }
    /// Columns of calendar.
    pub mod calendar {
        /// Service id.
        pub const SERVICE_ID: usize = 0;
        /// Monday.
        pub const MONDAY: usize = 1;
        /// Tuesday.
        pub const TUESDAY: usize = 2;
        /// Wednesday.
        pub const WEDNESDAY: usize = 3;
        /// Thursday.
        pub const THURSDAY: usize = 4;
        /// Friday.
        pub const FRIDAY: usize = 5;
        /// Saturday.
        pub const SATURDAY: usize = 6;
        /// Sunday.
        pub const SUNDAY: usize = 7;
        /// Start date.
        pub const START_DATE: usize = 8;
        /// End date.
        pub const END_DATE: usize = 9;
        /// How many there are.
        pub const COUNT: usize = 10;
    }
    /// Columns of calendar dates.
    pub mod calendar_dates {
        /// Service id.
        pub const SERVICE_ID: usize = 0;
        /// Date.
        pub const DATE: usize = 1;
        /// Exception type.
        pub const EXCEPTION_TYPE: usize = 2;
        /// How many there are.
        pub const COUNT: usize = 3;
    }
    /// Columns of feed info.
    pub mod feed_info {
        /// Feed start date.
        pub const FEED_START_DATE: usize = 0;
        /// Feed end date.
        pub const FEED_END_DATE: usize = 1;
        /// How many there are.
        pub const COUNT: usize = 2;
    }
    /// Columns of transfers.
    pub mod transfers {
        /// From stop id.
        pub const FROM_STOP_ID: usize = 0;
        /// To stop id.
        pub const TO_STOP_ID: usize = 1;
        /// Transfer type.
        pub const TRANSFER_TYPE: usize = 2;
        /// Min transfer time.
        pub const MIN_TRANSFER_TIME: usize = 3;
        /// From route id.
        pub const FROM_ROUTE_ID: usize = 4;
        /// To route id.
        pub const TO_ROUTE_ID: usize = 5;
        /// From trip id.
        pub const FROM_TRIP_ID: usize = 6;
        /// To trip id.
        pub const TO_TRIP_ID: usize = 7;
        /// How many there are.
        pub const COUNT: usize = 8;
    }
}
