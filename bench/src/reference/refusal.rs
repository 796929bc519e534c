//! Why input is turned down: docs/REFUSALS.md.

use std::fmt;

#[derive(Clone, Copy, Debug, PartialEq, Eq)]
pub enum Refusal {
    ListLength(usize),
    OutsideLimits(usize),
    BadEdge(usize),
    BadLink(usize),
    NoMachine,
    BadRoute { from: usize, to: usize },
    UnknownTask(usize),
    NotAMachine(usize),
    PlacedAlready(usize),
    PredecessorNotPlaced(usize),
    NothingToTakeBack,
    NoRoute(usize),
    NoRoom(usize),
    NotFree(usize),
    RefusedEverywhere(usize),
    NotTogether,
}

impl Refusal {
    pub fn number(self) -> u32 {
        match self {
            Refusal::ListLength(_) => 1,
            Refusal::OutsideLimits(_) => 4,
            Refusal::BadEdge(_) => 6,
            Refusal::BadLink(_) => 7,
            Refusal::NoMachine => 8,
            Refusal::BadRoute { .. } => 9,
            Refusal::UnknownTask(_) => 11,
            Refusal::NotAMachine(_) => 12,
            Refusal::PlacedAlready(_) => 13,
            Refusal::PredecessorNotPlaced(_) => 14,
            Refusal::NothingToTakeBack => 15,
            Refusal::NoRoute(_) => 16,
            Refusal::NoRoom(_) => 17,
            Refusal::NotFree(_) => 18,
            Refusal::RefusedEverywhere(_) => 19,
            Refusal::NotTogether => 20,
        }
    }

    pub fn detail(self) -> usize {
        match self {
            Refusal::ListLength(detail)
            | Refusal::OutsideLimits(detail)
            | Refusal::BadEdge(detail)
            | Refusal::BadLink(detail)
            | Refusal::UnknownTask(detail)
            | Refusal::NotAMachine(detail)
            | Refusal::PlacedAlready(detail)
            | Refusal::PredecessorNotPlaced(detail)
            | Refusal::NoRoute(detail)
            | Refusal::NoRoom(detail)
            | Refusal::NotFree(detail)
            | Refusal::RefusedEverywhere(detail) => detail,
            Refusal::BadRoute { from, to } => 16 * from + to,
            Refusal::NoMachine | Refusal::NothingToTakeBack | Refusal::NotTogether => 0,
        }
    }
}

impl fmt::Display for Refusal {
    fn fmt(&self, f: &mut fmt::Formatter<'_>) -> fmt::Result {
        write!(f, "{} {}", self.number(), self.detail())
    }
}
