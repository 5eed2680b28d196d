//! Why a list of answers is not whole.

use crate::Refusal;
use std::fmt;

/// Why a list of answers ended before it was whole. Later versions may have more reasons, so a `match` needs an arm for any other.
#[derive(Clone, Copy, Debug, PartialEq, Eq, Hash)]
#[non_exhaustive]
pub enum Stop {
    /// the steps allowed are spent
    Steps,
    /// the next answer is beyond the bytes allowed
    Room,
    /// question 8 refused a value of the next answer, or 8, 9 or 10 the next step of the walk; 10 also a query that has no first event with `, fail`
    /// behind it
    Refused(Refusal),
}

impl Stop {
    /// The desk's number: 0 where the steps are spent.
    ///
    /// ```
    /// # use fourport::{Refusal, Stop};
    /// assert_eq!([Stop::Steps, Stop::Room, Stop::Refused(Refusal::Value)].map(Stop::number), [0, 10, 8]);
    /// ```
    pub fn number(self) -> u32 {
        match self {
            Stop::Steps => 0,
            Stop::Room => Refusal::Fit.number(),
            Stop::Refused(refusal) => refusal.number(),
        }
    }
}

impl fmt::Display for Stop {
    fn fmt(&self, f: &mut fmt::Formatter<'_>) -> fmt::Result {
        match self {
            Stop::Steps => f.write_str("the steps allowed are spent"),
            Stop::Room => f.write_str("the next answer is beyond the bytes allowed"),
            Stop::Refused(refusal) => refusal.fmt(f),
        }
    }
}

impl std::error::Error for Stop {}
