//! The refusals, by the words and numbers of documents 01 and 02.

/// Why a call was refused. Numbers up to 14 are document 01's; those above are
/// document 02's, which no call gives yet.
///
/// ```
/// use bankcore::{Refusal, cache};
/// assert_eq!(cache::load(&[]), Err(Refusal::Region));
/// assert_eq!(Refusal::of(14), Some(Refusal::Row));
/// assert_eq!(Refusal::Row.to_string(), "refusal 14 row");
/// ```
#[derive(Clone, Copy, Debug, PartialEq, Eq)]
pub enum Refusal {
    /// The region doesn't have `REGION_SIZE` bytes.
    Region = 1,
    /// A bank, table, date, pick or filter that there is none of.
    Argument = 2,
    /// The magic, the version or the commit word is wrong.
    Mark = 3,
    /// The header's CRC differs.
    Seal = 4,
    /// The data length, key length, source count or checked time is out of its range.
    Span = 5,
    /// A record is out of its ranges, or there is no such source.
    Source = 6,
    /// The data's CRC differs.
    Data = 7,
    /// The identity is too long.
    Identity = 8,
    /// An output is shorter than the result.
    Small = 9,
    /// The bytes don't fit in a bank, or it is one source too many.
    Full = 10,
    /// A call out of order, or a state out of its range.
    Turn = 11,
    /// A commit in comparing mode, or of an update that isn't current.
    Obsolete = 12,
    /// The bank to be committed wouldn't pass its tests.
    Unfit = 13,
    /// A wrong number of values, a row that is too long, or a malformed one.
    Row = 14,
    /// Document 02's; not given yet.
    Key = 15,
    /// Document 02's; not given yet.
    Future = 16,
    /// Document 02's; not given yet.
    Line = 17,
    /// Document 02's; not given yet.
    Rights = 18,
    /// Document 02's; not given yet.
    LastKeeper = 19,
    /// Document 02's; not given yet.
    List = 20,
    /// Document 02's; not given yet.
    Absent = 21,
    /// Document 02's; not given yet.
    Layout = 22,
    /// Document 02's; not given yet.
    Table = 23,
}

impl Refusal {
    /// All of them, by number.
    pub const ALL: [Self; 23] = [
        Self::Region,
        Self::Argument,
        Self::Mark,
        Self::Seal,
        Self::Span,
        Self::Source,
        Self::Data,
        Self::Identity,
        Self::Small,
        Self::Full,
        Self::Turn,
        Self::Obsolete,
        Self::Unfit,
        Self::Row,
        Self::Key,
        Self::Future,
        Self::Line,
        Self::Rights,
        Self::LastKeeper,
        Self::List,
        Self::Absent,
        Self::Layout,
        Self::Table,
    ];

    /// The refusal with a number; none for 0 and for a number without a refusal.
    pub fn of(number: u32) -> Option<Self> {
        Self::ALL.into_iter().find(|r| r.number() == number)
    }

    /// Its number.
    pub fn number(self) -> u32 {
        self as u32
    }

    /// Its word.
    pub fn word(self) -> &'static str {
        match self {
            Self::Region => "region",
            Self::Argument => "argument",
            Self::Mark => "mark",
            Self::Seal => "seal",
            Self::Span => "span",
            Self::Source => "source",
            Self::Data => "data",
            Self::Identity => "identity",
            Self::Small => "small",
            Self::Full => "full",
            Self::Turn => "turn",
            Self::Obsolete => "obsolete",
            Self::Unfit => "unfit",
            Self::Row => "row",
            Self::Key => "key",
            Self::Future => "future",
            Self::Line => "line",
            Self::Rights => "rights",
            Self::LastKeeper => "last keeper",
            Self::List => "list",
            Self::Absent => "absent",
            Self::Layout => "layout",
            Self::Table => "table",
        }
    }
}

impl core::fmt::Display for Refusal {
    fn fmt(&self, f: &mut core::fmt::Formatter) -> core::fmt::Result {
        write!(f, "refusal {} {}", self.number(), self.word())
    }
}

impl core::error::Error for Refusal {}
