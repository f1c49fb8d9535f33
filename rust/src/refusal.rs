//! The refusals that the library's functions give.
use std::error::Error;
use std::fmt;

/// Why a file, its fields, its run or a lent buffer is refused: the numbers 1 to 15, as in `include/ccs.h`.
///
/// ```
/// let refusal = ccs::judge(&[0x43, 0x43, 0x54]).unwrap_err();
/// assert_eq!(refusal, ccs::Refusal::Mark);
/// assert_eq!(refusal.number(), 2);
/// assert_eq!(refusal.to_string(), "refused 2: the mark differs");
/// ```
#[derive(Clone, Copy, Debug, PartialEq, Eq, Hash)]
pub enum Refusal {
    /// 1: a field is cut off by the end; of given fields, a row is too short.
    CutOff,
    /// 2: the mark differs.
    Mark,
    /// 3: the version is neither 1 nor 2.
    Version,
    /// 4: the object is above 2.
    Object,
    /// 5: n is outside 1 to 16.
    Threads,
    /// 6: h is 0.
    Bound,
    /// 7: the capacity is not allowed for the object.
    Capacity,
    /// 8: a count of requests is above 16.
    Count,
    /// 9: a code is unknown to the object, or a take has a value other than 0.
    Request,
    /// 10: the schedule is longer than 32,768.
    ScheduleLength,
    /// 11: an entry is not below n.
    Entry,
    /// 12: bytes follow the end; of given fields, a row is too long.
    Trailing,
    /// 13: the lent buffer is too short.
    Buffer,
    /// 14: in the run, a line would follow a null pointer or put one into tmpNode.
    Null,
    /// 15: the method is above 1; of given fields, also one other than 0 under version 1.
    Method,
    /// A number outside 1 to 15: a conversion's 16, which has no name here yet. The library gives no other; this package does not rely on that.
    #[non_exhaustive]
    Unlisted(u8),
}

/// The listed refusals with their words.
const TABLE: [(Refusal, &str); 15] = [
    (
        Refusal::CutOff,
        "a field is cut off by the end, or a row is too short",
    ),
    (Refusal::Mark, "the mark differs"),
    (Refusal::Version, "the version is neither 1 nor 2"),
    (Refusal::Object, "the object is above 2"),
    (Refusal::Threads, "n is outside 1 to 16"),
    (Refusal::Bound, "h is 0"),
    (
        Refusal::Capacity,
        "the capacity is not allowed for the object",
    ),
    (Refusal::Count, "a count of requests is above 16"),
    (
        Refusal::Request,
        "a code is unknown to the object, or a take has a value other than 0",
    ),
    (
        Refusal::ScheduleLength,
        "the schedule is longer than 32,768",
    ),
    (Refusal::Entry, "an entry is not below n"),
    (
        Refusal::Trailing,
        "bytes follow the end, or a row is too long",
    ),
    (Refusal::Buffer, "the lent buffer is too short"),
    (
        Refusal::Null,
        "in the run, a line would follow a null pointer or put one into tmpNode",
    ),
    (
        Refusal::Method,
        "the method is above 1, or other than 0 under version 1",
    ),
];

impl Refusal {
    /// Its number.
    ///
    /// ```
    /// assert_eq!(ccs::Refusal::Entry.number(), 11);
    /// ```
    pub fn number(self) -> u8 {
        match self {
            Refusal::CutOff => 1,
            Refusal::Mark => 2,
            Refusal::Version => 3,
            Refusal::Object => 4,
            Refusal::Threads => 5,
            Refusal::Bound => 6,
            Refusal::Capacity => 7,
            Refusal::Count => 8,
            Refusal::Request => 9,
            Refusal::ScheduleLength => 10,
            Refusal::Entry => 11,
            Refusal::Trailing => 12,
            Refusal::Buffer => 13,
            Refusal::Null => 14,
            Refusal::Method => 15,
            Refusal::Unlisted(number) => number,
        }
    }

    /// The refusal of a number; 0 is none.
    ///
    /// ```
    /// use ccs::Refusal;
    /// assert_eq!(Refusal::of(0), None);
    /// assert_eq!(Refusal::of(13), Some(Refusal::Buffer));
    /// ```
    pub fn of(number: u8) -> Option<Refusal> {
        let listed = TABLE.iter().find(|row| row.0.number() == number);
        match (number, listed) {
            (0, _) => None,
            (_, Some(row)) => Some(row.0),
            (_, None) => Some(Refusal::Unlisted(number)),
        }
    }
}

impl fmt::Display for Refusal {
    fn fmt(&self, f: &mut fmt::Formatter<'_>) -> fmt::Result {
        let listed = TABLE.iter().find(|row| row.0 == *self);
        let words = listed.map_or("a number that is not listed", |row| row.1);
        write!(f, "refused {}: {}", self.number(), words)
    }
}

impl Error for Refusal {}
