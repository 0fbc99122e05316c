//! What came of a call.

use crate::refusal::Refusal;
use std::fmt::{Display, Formatter, Result};

#[derive(Clone, Copy, PartialEq, Eq, PartialOrd, Ord, Debug)]
pub enum Outcome {
    /// Not refused, of every call but an arrival.
    Done,
    /// A difference of timestamps that are half a circle apart.
    NoOrder,
    Refused(Refusal),
    /// An arrival that was accepted.
    Accepted,
    /// An arrival that was a kiss, with its row.
    Kiss(u8),
}

impl Outcome {
    /// What the number of a call means.
    pub fn of_number(number: u8) -> Option<Outcome> {
        match number {
            0 => Some(Outcome::Done),
            _ => Refusal::of_number(number).map(Outcome::Refused),
        }
    }

    pub fn by(self, refusal: Refusal) -> bool {
        self == Outcome::Refused(refusal)
    }

    /// Whether the record handed in is not legal, by itself or as an image.
    pub fn by_record(self) -> bool {
        self.by(Refusal::RecordNotLegal) || self.by(Refusal::ImageNotLegal)
    }

    /// Whether all tests passed.
    pub fn passed(self) -> bool {
        matches!(self, Outcome::Done | Outcome::Accepted)
    }

    pub fn is_kiss(self) -> bool {
        matches!(self, Outcome::Kiss(_))
    }
}

impl Display for Outcome {
    fn fmt(&self, out: &mut Formatter<'_>) -> Result {
        match self {
            Outcome::Done => write!(out, "00"),
            Outcome::NoOrder => write!(out, "no-order"),
            Outcome::Refused(refusal) => write!(out, "{:02}", refusal.number()),
            Outcome::Accepted => write!(out, "accepted"),
            Outcome::Kiss(row) => write!(out, "kiss-{row:02}"),
        }
    }
}
