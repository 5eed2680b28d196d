//! The largest clause records, of several shapes, to their canonical form.

use super::{Bytes, Call, Case};
use layout::{atom, clause, clauses, conjunction, constant, nested, symbol, variable, TRUE};

/// So many facts, the n-th of the predicate that is given.
fn facts(n: u16, predicate: impl Fn(u16) -> u16) -> Vec<Bytes> {
    (0..n).map(|i| clause(predicate(i), 0, &[], &TRUE)).collect()
}

/// Predicates that go up and down, each number once.
fn mixed(i: u16) -> u16 {
    (u32::from(i) * 4_099 % 6_553) as u16
}

fn with_head(n: usize, head: Bytes, variables: u8) -> Vec<Bytes> {
    vec![clause(1, variables, &[head], &TRUE); n]
}

/// A clause whose goal has so many atoms.
fn long_goal(atoms: usize) -> Vec<Bytes> {
    let goal = (0..atoms).fold(TRUE.to_vec(), |rest, _| conjunction(&atom(2, &[variable(0)]), &rest));
    vec![clause(1, 1, &[variable(0)], &goal)]
}

pub fn cases() -> Vec<Case> {
    let long = nested(8_180, &constant(0));
    let wide: Bytes = (0..600).fold(constant(0), |rest, _| symbol(1, &[vec![variable(0); 15], vec![rest]].concat()));
    [
        ("6,552 predicates, rising", facts(6_552, |i| i)),
        ("6,552 predicates, falling", facts(6_552, |i| 6_552 - i)),
        ("6,552 predicates in any order", facts(6_552, mixed)),
        ("6,552 clauses of one predicate", facts(6_552, |_| 7)),
        ("6,552 clauses of two predicates in turn", facts(6_552, |i| i % 2)),
        ("as many clauses with a constant in the head as have a canonical form", with_head(2_047, constant(0), 0)),
        ("one clause with a nested term", with_head(1, long, 0)),
        ("one clause with a wide term of variables", with_head(1, wide, 1)),
        ("one clause with a long goal", long_goal(4_000)),
    ]
    .into_iter()
    .map(|(words, listed)| (words, vec![Call::Canonical(clauses(&listed))]))
    .collect()
}
