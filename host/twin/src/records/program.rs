//! Programs and clause sets.

use super::goal::GoalRef;
use super::term::TermRef;
use std::ops::Range;

#[derive(Debug)]
pub struct Definition {
    pub predicate: u16,
    pub arity: u8,
    pub locals: u8,
    pub goal: GoalRef,
    /// the definition's place in the record
    pub place: Range<usize>,
}

#[derive(Debug)]
pub struct Program {
    pub definitions: Vec<Definition>,
}

#[derive(Debug)]
pub struct Clause {
    pub predicate: u16,
    pub variables: u8,
    pub head: Vec<TermRef>,
    pub goal: GoalRef,
}

impl Program {
    /// The definition that a predicate and arity name.
    pub fn definition(&self, predicate: u16, arity: usize) -> Option<&Definition> {
        let place = self.definitions.binary_search_by_key(&(predicate, arity), |d| (d.predicate, usize::from(d.arity)));
        place.ok().map(|i| &self.definitions[i])
    }
}
