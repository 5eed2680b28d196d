//! Predicates of which no walk reaches every clause: an event that calls a clause has among its ancestors, for each clause before it, that clause and all
//! behind it, and events have a limit.

use crate::diagnostic::{Diagnostic, Level};
use crate::garage::Garage;
use fourport::{Definition, GoalKind, RECORD_LIMIT};

/// The bytes of an event's record beside its goal, its ancestors and its bets: length, version, port and two counts.
const FRAME: usize = 8;
/// The bytes of an atom, or of an ancestor, beside its arguments, or its goals; and of the least argument.
const ATOM: usize = 4;
const PAIR: usize = 2;
const LEAST_ARGUMENT: usize = 3;
/// The goal behind the query in 'Q, fail'.
const FAIL: usize = 1;

/// The first clause of a definition that no event calls, counted from 0; nothing where there is none. The event that is measured has the shortest
/// arguments, the shortest query and no bets.
fn unreached(definition: Definition<'_>, clauses: usize) -> Option<usize> {
    let atom = ATOM + LEAST_ARGUMENT * usize::from(definition.arity());
    let mut ancestors = atom + PAIR + atom + FAIL;
    let mut rest = definition.goal();
    for clause in 0..clauses {
        let last = clause + 1 == clauses;
        let (branch, behind) = match rest.kind() {
            GoalKind::Disjunction(branch, behind) if !last => (branch, behind),
            _ => (rest, rest),
        };
        if !last {
            ancestors += PAIR + branch.as_bytes().len() + behind.as_bytes().len();
        }
        if FRAME + branch.as_bytes().len() + ancestors > RECORD_LIMIT {
            return Some(clause);
        }
        rest = behind;
    }
    None
}

/// A warning for each such predicate.
pub fn warnings(garage: &Garage) -> Vec<Diagnostic> {
    let told = garage.program.definitions().filter_map(|definition| {
        let of = (definition.predicate(), definition.arity());
        let clauses = garage.clauses_of(of).len();
        let first = unreached(definition, clauses)?;
        let (outline, predicate) = (garage.clause(of, first)?, garage.shown_predicate(of));
        let words = format!("no walk gets to clause {} of the {clauses} of {predicate}: an event would have over 32,768 bytes", first + 1);
        let note = "predicates of some 40 clauses each, and one that asks them all by `;`, have more room";
        Some(Diagnostic::at(Level::Warning, &garage.rules, outline.name, words).with_note(note))
    });
    told.collect()
}
