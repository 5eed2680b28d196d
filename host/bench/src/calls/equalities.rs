//! Unifiers: as many joins of classes, pairs and nodes as two values of 8,192 bytes can hold.

use super::{Bytes, Call, Case};
use layout::{constant, equality, event, program, symbol, unifier, variable, VALUE_LIMIT};

/// The equality called; failed and read back; and, given its unifier, exited and read back.
fn both_ways(left: &Bytes, right: &Bytes) -> Vec<Call> {
    let (none, goal) = (program(&[]), equality(left, right));
    vec![
        Call::Forward(none.clone(), event(1, &goal, &[], &[])),
        Call::Back(none.clone(), event(3, &goal, &[], &[])),
        Call::Back(none, event(2, &goal, &[], &[unifier(&[])])),
    ]
}

/// A term of these leaves in nodes of sixteen, nodes of nodes and so on.
pub fn tree(leaves: Vec<Bytes>) -> Bytes {
    let mut row = leaves;
    while row.len() > 1 {
        row = row.chunks(16).map(|terms| symbol(9, terms)).collect();
    }
    row.pop().unwrap_or_else(|| constant(0))
}

/// The most leaves of so many bytes that a tree within the limit of a value has.
pub fn most_leaves(bytes: usize) -> usize {
    (1..).take_while(|&n| tree(vec![vec![0; bytes]; n]).len() <= VALUE_LIMIT).last().unwrap_or(0)
}

/// f(X1, .., Xn) = f(g(X0, X0), .., g(Xn-1, Xn-1)) in nodes of sixteen, the sides of every other equation exchanged; with a clash at the end or without.
fn family(n: u16, clash: bool) -> (Bytes, Bytes) {
    let equations = (0..n).map(|i| {
        if i % 2 == 0 {
            (variable(i + 1), symbol(2, &[variable(i), variable(i)]))
        } else {
            (symbol(2, &[variable(i), variable(i)]), variable(i + 1))
        }
    });
    let (left, right) = equations.chain([(constant(0), constant(u16::from(clash)))]).unzip();
    (tree(left), tree(right))
}

/// Lists (V0, V1, ..) = (V1, V2, ..) of n elements, or with the numbers falling.
fn chain(n: u16, falling: bool) -> (Bytes, Bytes) {
    let number = |i: u16| if falling { 2 * n - i } else { i };
    let list = |from: u16| (0..n).rev().fold(constant(0), |rest, i| symbol(1, &[variable(number(from + i)), rest]));
    (list(0), list(1))
}

/// k copies of a variable against k trees of m distinct variables, and the other way round: nearly every leaf of both values is bound.
fn sheaves(k: u16, m: u16) -> (Bytes, Bytes) {
    let trees = |from: u16| (0..k).map(|i| tree((0..m).map(|j| variable(from + i * m + j)).collect())).collect::<Vec<_>>();
    let copies = |v: u16| vec![variable(v); usize::from(k)];
    let (first, second) = (2, 2 + k * m);
    (tree([copies(0), trees(first)].concat()), tree([trees(second), copies(1)].concat()))
}

fn largest_sheaves(m: u16) -> (Bytes, Bytes) {
    let k = (2..).take_while(|&k| sheaves(k, m).0.len() <= VALUE_LIMIT).last().unwrap_or(2);
    sheaves(k, m)
}

pub fn cases() -> Vec<Case> {
    let leaves = most_leaves(3) as u16;
    let variables = |from: u16| tree((0..leaves).map(|i| variable(from + i)).collect());
    let constants = tree(vec![constant(1); most_leaves(4)]);
    [
        ("unifier family, n = 800, too long to write", family(800, false)),
        ("unifier family, n = 800, with a clash", family(800, true)),
        ("chain of variables, rising", chain(1_168, false)),
        ("chain of variables, falling", chain(1_168, true)),
        ("as many variables against as many others", (variables(0), variables(leaves))),
        ("as many variables against the next ones", (variables(0), variables(1))),
        ("two equal trees of constants", (constants.clone(), constants)),
        ("copies of a variable against trees of 16 variables", largest_sheaves(16)),
        ("copies of a variable against trees of 48 variables", largest_sheaves(48)),
        ("copies of a variable against trees of 256 variables", largest_sheaves(256)),
    ]
    .into_iter()
    .map(|(words, (left, right))| {
        assert!(left.len() <= VALUE_LIMIT && right.len() <= VALUE_LIMIT, "{words}: {} and {}", left.len(), right.len());
        (words, both_ways(&left, &right))
    })
    .collect()
}
