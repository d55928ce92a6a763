//! Refusals, in the paper's words.

use crate::words::{self, Kind};
use std::error::Error;
use std::fmt;

/// Why a call refused: a number of document 01 and its two details.
///
/// Shown, it says the number, A and B, and the paper's words for them.
#[derive(Clone, Copy, Debug, PartialEq, Eq)]
pub struct Refusal {
    /// The number, never 0 where a call refused.
    pub number: usize,
    /// Detail A, 0 where unused.
    pub a: usize,
    /// Detail B, 0 where unused.
    pub b: usize,
}

impl Refusal {
    /// The kind of the refusal, for a `match`.
    ///
    /// ```
    /// use altairpeg::{derive, Kind, Mark, Night};
    ///
    /// let night = Night { lengths: &[6], inbound: &[3, 6, 1, 5, 2, 4], tracks: 2, room: 3, mark: Mark::Open };
    /// let refusal = derive(night, 1).unwrap_err();
    /// assert_eq!(refusal.kind(), Kind::LimitTooLow);
    /// assert_eq!(refusal.to_string(), "refused 5 2 0: fewest steps above the limit (fewest steps 2)");
    /// ```
    pub fn kind(&self) -> Kind {
        words::kind(self.number)
    }

    /// The paper's words for the number; one that it does not have gets words too.
    pub fn words(&self) -> &'static str {
        words::words(self.number)
    }

    /// What the details say.
    pub fn details(&self) -> String {
        words::details(self.number, self.a, self.b)
    }
}

impl fmt::Display for Refusal {
    fn fmt(&self, f: &mut fmt::Formatter<'_>) -> fmt::Result {
        write!(
            f,
            "refused {} {} {}: {} ({})",
            self.number,
            self.a,
            self.b,
            self.words(),
            self.details()
        )
    }
}

impl Error for Refusal {}
