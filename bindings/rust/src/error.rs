//! Why a call is refused.

use std::fmt;

/// Why a call was refused, by document 01's table of numbers.
///
/// A refused call changed nothing, except that [`Error::Conflict`] closed its transaction. Document 01's numbers 8 and
/// 13 have no case here: they belong to the reader table called alone and to the program that reads scripts.
#[derive(Clone, Copy, Debug, PartialEq, Eq, Hash)]
#[non_exhaustive]
pub enum Error {
    /// 1: the key is empty.
    EmptyKey,
    /// 2: the key or the value is longer than 65,535 bytes.
    TooLong,
    /// 3: the handle is not of a transaction begun and not ended.
    NoHandle,
    /// 4: the transaction was closed, by an accepted commit or by a conflict.
    Closed,
    /// 5: there is no room. The transaction stays open and may try again.
    NoRoom,
    /// 6: a commit above the transaction's read number wrote a key whose hash it has read. The transaction is now
    /// closed.
    Conflict,
    /// 7: the clock, the handles or the readers of the clock have come to 2^64-1. The transaction stays open.
    CounterFull,
    /// 9: the state breaks a state rule.
    Unsound,
    /// 10: an opening run is cut, overlong or unsorted, or has an empty key or a wrong mark.
    BadRun {
        /// The run's place among the opening runs, from 1.
        place: u64,
    },
    /// 11: an opening run has the right mark and another version than 1.
    ForeignRun {
        /// The run's place among the opening runs, from 1.
        place: u64,
    },
    /// 12: an opening setting is outside its range.
    BadSetting,
    /// The archive gave a number, or values with the number 0, that none of its contracts allows.
    ///
    /// The archive linked is then not the one that this crate was written for.
    Unexpected {
        /// The number that was returned.
        number: u64,
    },
}

impl Error {
    /// Document 01's number for this refusal.
    pub fn number(&self) -> u64 {
        match self {
            Error::EmptyKey => 1,
            Error::TooLong => 2,
            Error::NoHandle => 3,
            Error::Closed => 4,
            Error::NoRoom => 5,
            Error::Conflict => 6,
            Error::CounterFull => 7,
            Error::Unsound => 9,
            Error::BadRun { .. } => 10,
            Error::ForeignRun { .. } => 11,
            Error::BadSetting => 12,
            Error::Unexpected { number } => *number,
        }
    }

    /// The refusal of a number other than 0; `place` is what the reply tells with 10 and 11.
    pub(crate) fn of(number: u64, place: u64) -> Error {
        match number {
            1 => Error::EmptyKey,
            2 => Error::TooLong,
            3 => Error::NoHandle,
            4 => Error::Closed,
            5 => Error::NoRoom,
            6 => Error::Conflict,
            7 => Error::CounterFull,
            9 => Error::Unsound,
            10 => Error::BadRun { place },
            11 => Error::ForeignRun { place },
            12 => Error::BadSetting,
            _ => Error::Unexpected { number },
        }
    }
}

impl fmt::Display for Error {
    fn fmt(&self, f: &mut fmt::Formatter<'_>) -> fmt::Result {
        match self {
            Error::EmptyKey => f.write_str("the key is empty"),
            Error::TooLong => f.write_str("the key or the value is longer than 65,535 bytes"),
            Error::NoHandle => f.write_str("the handle is not of a transaction begun and not ended"),
            Error::Closed => f.write_str("the transaction is closed"),
            Error::NoRoom => f.write_str("there is no room"),
            Error::Conflict => f.write_str("a later commit wrote what the transaction has read"),
            Error::CounterFull => f.write_str("a counter has come to its end"),
            Error::Unsound => f.write_str("the state breaks a state rule"),
            Error::BadRun { place } => write!(f, "opening run {place} is damaged"),
            Error::ForeignRun { place } => write!(f, "opening run {place} has another version than 1"),
            Error::BadSetting => f.write_str("a setting is outside its range"),
            Error::Unexpected { number } => {
                write!(f, "the archive gave an answer that is not allowed, with number {number}")
            }
        }
    }
}

impl std::error::Error for Error {}

#[cfg(test)]
mod tests {
    use super::Error;

    #[test]
    fn a_number_comes_back_from_its_refusal() {
        for number in 1..100 {
            assert_eq!(Error::of(number, 4).number(), number);
        }
    }

    #[test]
    fn numbers_that_no_call_returns_are_unexpected() {
        for number in [8, 13, 14, u64::MAX] {
            assert_eq!(Error::of(number, 0), Error::Unexpected { number });
        }
    }

    #[test]
    fn the_place_of_a_run_is_kept() {
        assert_eq!(Error::of(10, 3), Error::BadRun { place: 3 });
        assert_eq!(Error::of(11, 4), Error::ForeignRun { place: 4 });
        assert_eq!(Error::BadRun { place: 3 }.to_string(), "opening run 3 is damaged");
    }
}
