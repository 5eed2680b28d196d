//! The kinds of case. Each makes one round of cases with the dice it is given.

mod answers;
mod boundaries;
mod clauses;
mod counts;
mod damaged;
mod deep;
mod doors;
mod garages;
mod lookups;
mod moves;
mod numbering;
mod parts;
mod queries;
mod runs;
mod text_limits;
mod texts;
mod unifiers;
mod unreached;
mod values;
mod walks;

use crate::compare::{Checked, Checker};
use crate::generate::Dice;

pub struct Kind {
    pub name: &'static str,
    /// of 1,000 cases, how many are to be of this kind; 0 for one round
    pub share: u64,
    pub round: fn(&mut Checker, &mut Dice) -> Checked<()>,
}

pub const KINDS: [Kind; 20] = [
    Kind { name: "boundaries", share: 0, round: boundaries::round },
    Kind { name: "text limits", share: 0, round: |checker, _| text_limits::round(checker) },
    Kind { name: "garages", share: 0, round: garages::round },
    Kind { name: "walks", share: 200, round: walks::round },
    Kind { name: "moves", share: 150, round: moves::round },
    Kind { name: "damaged", share: 200, round: damaged::round },
    Kind { name: "unreached", share: 220, round: unreached::round },
    Kind { name: "runs", share: 30, round: runs::round },
    Kind { name: "values", share: 40, round: values::round },
    Kind { name: "lookups", share: 40, round: lookups::round },
    Kind { name: "counts", share: 30, round: counts::round },
    Kind { name: "clauses", share: 30, round: clauses::round },
    Kind { name: "unifiers", share: 20, round: unifiers::round },
    Kind { name: "deep", share: 10, round: deep::round },
    Kind { name: "numbering", share: 30, round: numbering::round },
    Kind { name: "parts", share: 20, round: parts::round },
    Kind { name: "answers", share: 60, round: answers::round },
    Kind { name: "doors", share: 60, round: doors::round },
    Kind { name: "texts", share: 60, round: texts::round },
    Kind { name: "queries", share: 40, round: queries::round },
];
