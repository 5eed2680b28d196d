//! S(T): the bottom unifier first, the top one last; OR and BY do nothing.

use super::rebuild::{self, Image};
use crate::gate::{Question, Refusal, VALUE_LIMIT};
use crate::records::{Bets, TermRef};

/// S(T) for the lowest `count` bets as S; question 8. A variable goes to the lowest unifier that binds it, and the variables of what it becomes
/// to the unifiers above that one.
pub fn value(term: &TermRef, bets: &Bets, count: usize) -> Result<TermRef, Refusal> {
    let image = |variable, from| match bets.binder(variable, from, count) {
        None => Image::Stays,
        Some((place, bound_to)) => Image::Becomes(bound_to, place + 1),
    };
    rebuild::term(term, 0, VALUE_LIMIT, image).ok_or(Question::Value.into())
}
