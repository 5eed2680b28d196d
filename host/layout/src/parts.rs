//! Records from their parts.

use crate::*;

pub const TRUE: [u8; 1] = [TRUTH];
pub const FAIL: [u8; 1] = [FAILURE];

/// The record of a program without definitions.
pub const NO_DEFINITIONS: [u8; 5] = [0, 3, VERSION, 0, 0];
/// The record of the event call true with empty stacks.
pub const CALL_TRUE: [u8; 9] = [0, 7, VERSION, port::CALL, TRUTH, 0, 0, 0, 0];

/// The length field, the version and the body. A body too long for the field gets a field that does not name it.
pub fn record(body: &[u8]) -> Vec<u8> {
    [&((body.len() + 1) as u16).to_be_bytes()[..], &[VERSION], body].concat()
}

/// The length field made to name the rest.
pub fn mended(mut record: Vec<u8>) -> Vec<u8> {
    let rest = record.len().saturating_sub(2) as u16;
    if let Some(field) = record.get_mut(..2) {
        field.copy_from_slice(&rest.to_be_bytes());
    }
    record
}

/// A two-byte count and the parts.
pub fn listed(parts: &[Vec<u8>]) -> Vec<u8> {
    [&(parts.len() as u16).to_be_bytes()[..], &parts.concat()].concat()
}

pub fn variable(number: u16) -> Vec<u8> {
    [&[VARIABLE][..], &number.to_be_bytes()].concat()
}

pub fn symbol(symbol: u16, arguments: &[Vec<u8>]) -> Vec<u8> {
    [&[SYMBOL][..], &symbol.to_be_bytes(), &[arguments.len() as u8], &arguments.concat()].concat()
}

pub fn constant(number: u16) -> Vec<u8> {
    symbol(number, &[])
}

/// f(f(..f(inside)..)), that many times.
pub fn nested(times: usize, inside: &[u8]) -> Vec<u8> {
    [&[SYMBOL, 0, 6, 1].repeat(times), inside].concat()
}

pub fn atom(predicate: u16, arguments: &[Vec<u8>]) -> Vec<u8> {
    [&[ATOM][..], &predicate.to_be_bytes(), &[arguments.len() as u8], &arguments.concat()].concat()
}

pub fn equality(left: &[u8], right: &[u8]) -> Vec<u8> {
    [&[EQUALITY], left, right].concat()
}

pub fn conjunction(left: &[u8], right: &[u8]) -> Vec<u8> {
    [&[CONJUNCTION], left, right].concat()
}

pub fn disjunction(left: &[u8], right: &[u8]) -> Vec<u8> {
    [&[DISJUNCTION], left, right].concat()
}

/// An ancestor: the kind `IN_CONJUNCTION` or `IN_DISJUNCTION`, the tag, the two goals.
pub fn half(kind: u8, tag: u8, left: &[u8], right: &[u8]) -> Vec<u8> {
    [&[kind, tag], left, right].concat()
}

pub fn unifier(pairs: &[(u16, Vec<u8>)]) -> Vec<u8> {
    let pairs: Vec<Vec<u8>> = pairs.iter().map(|(variable, term)| [&variable.to_be_bytes()[..], term].concat()).collect();
    [&[UNIFIER][..], &listed(&pairs)].concat()
}

pub fn or(tag: u8) -> Vec<u8> {
    vec![OR, tag]
}

pub fn by(goal: &[u8]) -> Vec<u8> {
    [&[BY], goal].concat()
}

/// Stacks have their top first.
pub fn event(port: u8, goal: &[u8], ancestors: &[Vec<u8>], bets: &[Vec<u8>]) -> Vec<u8> {
    record(&[&[port], goal, &listed(ancestors), &listed(bets)].concat())
}

pub fn definition(predicate: u16, arity: u8, locals: u8, goal: &[u8]) -> Vec<u8> {
    [&predicate.to_be_bytes()[..], &[arity, locals], goal].concat()
}

pub fn program(definitions: &[Vec<u8>]) -> Vec<u8> {
    record(&listed(definitions))
}

pub fn clause(predicate: u16, variables: u8, head: &[Vec<u8>], goal: &[u8]) -> Vec<u8> {
    [&predicate.to_be_bytes()[..], &[head.len() as u8, variables], &head.concat(), goal].concat()
}

pub fn clauses(listed_clauses: &[Vec<u8>]) -> Vec<u8> {
    record(&listed(listed_clauses))
}
