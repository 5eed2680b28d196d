//! Clause records.

use super::goals::{goal, ARITIES, PREDICATES};
use super::terms::{all_bytes, terms, Names};
use super::Dice;

/// A clause whose variables are exactly 0 to v - 1, numbered in any order; v is changed by `off`, which breaks the rule unless it is 0.
fn clause_with(dice: &mut Dice, predicate: u16, arity: usize, depth: usize, most: u16, off: i8) -> Vec<u8> {
    let names = Names::low(most);
    let (mut head, mut goal) = (terms(dice, names, depth, arity), goal(dice, names, depth));
    let mut met: Vec<u16> = Vec::new();
    let mut meet = |number: &mut u16| {
        if !met.contains(number) {
            met.push(*number);
        }
    };
    head.iter_mut().for_each(|term| term.each_variable(&mut meet));
    goal.each_variable(&mut meet);
    let mut numbers: Vec<u16> = (0..met.len() as u16).collect();
    dice.shuffle(&mut numbers);
    let mut number = |old: &mut u16| *old = numbers[met.iter().position(|other| other == old).unwrap_or_default()];
    head.iter_mut().for_each(|term| term.each_variable(&mut number));
    goal.each_variable(&mut number);
    let variables = (met.len() as u8).wrapping_add_signed(off);
    layout::clause(predicate, variables, &all_bytes(&head), &goal.bytes())
}

fn clause(dice: &mut Dice) -> Vec<u8> {
    let arity = if dice.one_in(50) { dice.between(0, 16) } else { dice.below(ARITIES) };
    let (predicate, depth, most) = (dice.below(PREDICATES) as u16, dice.below(3), *dice.pick(&[0, 1, 3, 8, 64]));
    clause_with(dice, predicate, arity, depth, most, 0)
}

/// A fact with that many variables.
pub fn fact_of(predicate: u16, variables: u8) -> Vec<u8> {
    let rows: Vec<Vec<u8>> = (0..16)
        .map(|row| (row..variables).step_by(16).map(|i| layout::variable(u16::from(i))).collect::<Vec<_>>())
        .map(|row| layout::symbol(1, &row))
        .collect();
    layout::clause(predicate, variables, &rows, &layout::TRUE)
}

/// Clauses that pass questions 1 to 4.
pub fn clauses(dice: &mut Dice) -> Vec<u8> {
    let mut parts: Vec<Vec<u8>> = match dice.below(60) {
        // many predicates of one short clause each, in any order
        0 => {
            let mut predicates: Vec<u16> = (0..dice.between(1, 4_000) as u16).map(|i| i.wrapping_mul(7)).collect();
            dice.shuffle(&mut predicates);
            predicates
                .iter()
                .map(|&predicate| layout::clause(predicate, 0, &[], if dice.one_in(2) { &layout::TRUE } else { &layout::FAIL }))
                .collect()
        }
        // many clauses of one predicate
        1 => (0..dice.between(1, 6_000)).map(|_| layout::clause(3, 0, &[], &layout::TRUE)).collect(),
        // locals near 255 in one predicate or two; sometimes the program is near the longest too
        2..=5 => {
            let predicates = dice.between(1, 2);
            let mut facts: Vec<Vec<u8>> =
                (0..dice.between(3, 5 * predicates)).map(|_| fact_of(dice.below(predicates) as u16, dice.between(60, 64) as u8)).collect();
            if dice.one_in(2) {
                let left = 32_765 - layout::listed(&facts).len() - dice.below(900);
                facts.insert(
                    dice.below(facts.len()),
                    layout::clause(dice.below(4) as u16, 0, &[layout::nested(left / 4 - 3, &layout::symbol(2, &[]))], &layout::TRUE),
                );
            }
            facts
        }
        // a program near the longest: a fact with constants takes 9 bytes for each of them, and two
        6 | 7 => {
            let arity = dice.between(1, 16);
            let count = 32_759 / (9 * arity + 2) + dice.below(3) - 1;
            (0..count).map(|_| layout::clause(1, 0, &vec![layout::symbol(dice.below(3) as u16, &[]); arity], &layout::TRUE)).collect()
        }
        _ => (0..dice.below(12)).map(|_| clause(dice)).collect(),
    };
    while layout::listed(&parts).len() > 32_765 {
        parts.pop();
    }
    layout::clauses(&parts)
}

/// Clauses whose grammar is right and that break question 4.
pub fn breaking(dice: &mut Dice) -> Vec<u8> {
    let mut parts: Vec<Vec<u8>> = (0..dice.below(5)).map(|_| clause(dice)).collect();
    let broken = match dice.below(4) {
        0 => clause_with(dice, 1, 2, 2, 3, 1),
        1 => layout::clause(1, 1, &[layout::variable(0), layout::variable(1)], &layout::TRUE),
        2 => layout::clause(1, 64, &[layout::variable(*dice.pick(&[64, 63, 65_535]))], &layout::TRUE),
        _ => layout::clause(1, 2, &[layout::variable(0), layout::variable(dice.between(2, 300) as u16)], &layout::FAIL),
    };
    parts.insert(dice.below(parts.len() + 1), broken);
    layout::clauses(&parts)
}
