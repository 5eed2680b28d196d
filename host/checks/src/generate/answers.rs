//! Programs and queries with several answers: choices, recursion, long values, variables that stay unbound.

use super::sized::term_of;
use super::terms::{term_bytes, Names};
use super::{programs, Dice};
use layout::{
    atom, conjunction, constant, definition, disjunction, equality, program, record, symbol, variable, CONJUNCTION, DISJUNCTION, FAIL, FAILURE, TRUE,
    TRUTH,
};

const LIGHT: u16 = 5;

/// A program record and a query record.
pub type Asked = (Vec<u8>, Vec<u8>);

/// Parts joined to the right.
fn joined(join: fn(&[u8], &[u8]) -> Vec<u8>, mut parts: Vec<Vec<u8>>) -> Vec<u8> {
    let last = parts.pop().unwrap_or_else(|| TRUE.to_vec());
    parts.iter().rev().fold(last, |rest, part| join(part, &rest))
}

fn light(v: u16) -> Vec<u8> {
    atom(LIGHT, &[variable(v)])
}

/// What a light may be: a constant out of two, so that some are equal; a term with a local; one of some length; or unbound.
fn colour(dice: &mut Dice, length: usize) -> Vec<u8> {
    let value = match dice.below(8) {
        0 => return TRUE.to_vec(),
        1 => symbol(6, &[variable(1), variable(1)]),
        2 => variable(1),
        3 | 4 if length > 5 => term_of(length / 4 * 4),
        _ => constant(dice.below(2) as u16),
    };
    equality(&variable(0), &value)
}

/// Some lights out of some colours, now and then the same light twice.
pub fn lights(dice: &mut Dice, length: usize) -> Asked {
    let branches = (0..dice.between(1, 4)).map(|_| colour(dice, length)).collect();
    let calls = (0..dice.between(1, 3)).map(|_| light(dice.below(4) as u16)).collect();
    (program(&[definition(LIGHT, 1, 1, &joined(disjunction, branches))]), record(&joined(conjunction, calls)))
}

/// A light that is some colour, or is looked for again: the query is called, and exits, deeper down too, until its ancestors are too many.
fn again(dice: &mut Dice, length: usize) -> Asked {
    let (first, call) = (colour(dice, length), if dice.one_in(2) { light(0) } else { conjunction(&light(1), &colour(dice, 0)) });
    let body = if dice.one_in(3) { disjunction(&call, &first) } else { disjunction(&first, &call) };
    (program(&[definition(LIGHT, 1, 1, &body)]), record(&light(0)))
}

/// Choices without a variable.
fn bare(dice: &mut Dice) -> Asked {
    let mut goal = vec![TRUTH];
    for _ in 0..dice.below(6) {
        let (kind, end) = (*dice.pick(&[CONJUNCTION, DISJUNCTION, DISJUNCTION]), *dice.pick(&[TRUTH, TRUTH, FAILURE]));
        goal = [&[kind], &goal[..], &[end]].concat();
    }
    (program(&[]), record(&goal))
}

/// V1 = f(V2, V2), V2 = f(V3, V3), ..: values whose length doubles, behind an answer without them and beside copies of a long one.
pub fn doubled(dice: &mut Dice) -> Asked {
    let levels = dice.between(8, 11) as u16;
    let level = |v: u16| equality(&variable(v), &symbol(6, &[variable(v + 1), variable(v + 1)]));
    let copied = dice.between(1, 4) as u16;
    let copies: Vec<Vec<u8>> = (0..dice.below(17) as u16).map(|i| variable(20 + i)).collect();
    let equal = equality(&symbol(7, &copies), &symbol(7, &vec![variable(copied); copies.len()]));
    let chain = joined(conjunction, (1..=levels).map(level).collect());
    let goal = conjunction(&equal, &chain);
    let first = if dice.one_in(2) { TRUE } else { FAIL };
    (program(&[]), record(&if dice.one_in(3) { goal } else { disjunction(&first, &goal) }))
}

/// Any program and any query; sometimes one out of two values behind it.
fn any(dice: &mut Dice) -> Asked {
    let (program, query) = (programs::program(dice), programs::query(dice));
    if dice.one_in(2) {
        return (program, query);
    }
    let value = term_bytes(dice, Names::low(4), 1);
    let choice = disjunction(&equality(&variable(0), &value), &equality(&variable(dice.below(4) as u16), &constant(0)));
    (program, record(&conjunction(&choice, &query[3..])))
}

pub fn asked(dice: &mut Dice) -> Asked {
    let length = *dice.pick(&[4, 300, 1_000, 1_800]);
    match dice.below(12) {
        0..=3 => lights(dice, length),
        4 | 5 => again(dice, length),
        6 => bare(dice),
        7 | 8 => doubled(dice),
        _ => any(dice),
    }
}
