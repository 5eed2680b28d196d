//! Where things stand in a record. A byte that is not there is read as 0.

use crate::{ATOM, CONJUNCTION, DISJUNCTION, EQUALITY, IN_CONJUNCTION, IN_DISJUNCTION, OR, SYMBOL, UNIFIER, VARIABLE};

/// The body of a record starts here: a query's goal, or the count of definitions or clauses.
pub const BODY_AT: usize = 3;
/// The definitions of a program, or the clauses of a clause record, start here.
pub const LIST_AT: usize = 5;
/// An event's port stands here.
pub const PORT_AT: usize = 3;
/// An event's goal starts here.
pub const EVENT_GOAL_AT: usize = 4;

// Places within a definition: predicate, arity, locals, goal.
pub const PREDICATE_AT: usize = 0;
pub const ARITY_AT: usize = 2;
pub const LOCALS_AT: usize = 3;
pub const DEFINITION_GOAL_AT: usize = 4;

// Places within a clause, which has its predicate and arity where a definition has them: the number of variables, head terms and body.
pub const VARIABLE_COUNT_AT: usize = 3;
pub const HEAD_AT: usize = 4;

pub fn byte_at(bytes: &[u8], at: usize) -> u8 {
    bytes.get(at).copied().unwrap_or_default()
}

/// The two-byte number at a place.
pub fn number_at(bytes: &[u8], at: usize) -> u16 {
    u16::from_be_bytes([byte_at(bytes, at), byte_at(bytes, at + 1)])
}

/// The record at the front, by its length field, and the bytes behind it; all bytes where there are not so many.
pub fn split_record(bytes: &[u8]) -> (&[u8], &[u8]) {
    bytes.split_at((2 + usize::from(number_at(bytes, 0))).min(bytes.len()))
}

/// The record at the front.
pub fn record_at(bytes: &[u8]) -> &[u8] {
    split_record(bytes).0
}

/// Where the term at a place ends.
pub fn term_end(bytes: &[u8], at: usize) -> usize {
    end(bytes, at, 1, 0, |_| ())
}

/// Where the goal at a place ends; `meet` is given its variables as they occur.
pub fn goal_end(bytes: &[u8], at: usize, meet: impl FnMut(u16)) -> usize {
    end(bytes, at, 0, 1, meet)
}

/// Where the ancestor at a place ends.
pub fn ancestor_end(bytes: &[u8], at: usize) -> usize {
    match byte_at(bytes, at) {
        IN_CONJUNCTION | IN_DISJUNCTION => end(bytes, at + 2, 0, 2, |_| ()),
        _ => goal_end(bytes, at, |_| ()),
    }
}

/// Where the bet at a place ends.
pub fn bet_end(bytes: &[u8], at: usize) -> usize {
    match byte_at(bytes, at) {
        UNIFIER => (0..number_at(bytes, at + 1)).fold(at + 3, |at, _| term_end(bytes, at + 2)),
        OR => at + 2,
        _ => goal_end(bytes, at + 1, |_| ()),
    }
}

/// Where the definition at a place ends.
pub fn definition_end(bytes: &[u8], at: usize) -> usize {
    goal_end(bytes, at + DEFINITION_GOAL_AT, |_| ())
}

/// Where the clause at a place ends.
pub fn clause_end(bytes: &[u8], at: usize) -> usize {
    end(bytes, at + HEAD_AT, usize::from(byte_at(bytes, at + ARITY_AT)), 1, |_| ())
}

/// Where so many terms, and behind them so many goals, end. Terms are read first, since no goal stands within a term.
fn end(bytes: &[u8], mut at: usize, mut terms: usize, mut goals: usize, mut meet: impl FnMut(u16)) -> usize {
    while terms + goals > 0 {
        let kind = byte_at(bytes, at);
        if terms > 0 {
            terms -= 1;
        } else {
            goals -= 1;
        }
        at += match kind {
            VARIABLE => 3,
            SYMBOL | ATOM => 4,
            _ => 1,
        };
        match kind {
            VARIABLE => meet(number_at(bytes, at - 2)),
            SYMBOL | ATOM => terms += usize::from(byte_at(bytes, at - 1)),
            EQUALITY => terms += 2,
            CONJUNCTION | DISJUNCTION => goals += 2,
            _ => (),
        }
    }
    at
}
