//! Programs and queries.

use super::goals::{goal_bytes, ARITIES, PREDICATES};
use super::terms::Names;
use super::Dice;

/// A definition of the predicate, its goal of at most that depth.
fn definition(dice: &mut Dice, predicate: u16, arity: u8, depth: usize) -> Vec<u8> {
    let locals = match dice.below(12) {
        0 => 255,
        1..=4 => 0,
        _ => dice.between(1, 3) as u8,
    };
    let variables = u16::from(arity) + u16::from(locals.min(if dice.one_in(8) { 255 } else { 3 }));
    layout::definition(predicate, arity, locals, &goal_bytes(dice, Names::low(variables), depth))
}

fn definitions(dice: &mut Dice) -> Vec<Vec<u8>> {
    let mut found = Vec::new();
    let depth = dice.between(0, 3);
    for predicate in 0..PREDICATES as u16 {
        for arity in 0..ARITIES as u8 {
            if !dice.one_in(3) {
                found.push(definition(dice, predicate, arity, depth));
            }
        }
    }
    for extra in 0..if dice.one_in(30) { dice.below(400) } else { 0 } {
        let arity = dice.byte() % 17;
        found.push(definition(dice, 100 + extra as u16 * 3, arity, 1));
    }
    found
}

/// A program record that passes.
pub fn program(dice: &mut Dice) -> Vec<u8> {
    loop {
        let record = if dice.one_in(20) { layout::program(&[]) } else { layout::program(&definitions(dice)) };
        if record.len() <= 32_768 {
            return record;
        }
    }
}

/// A program whose grammar is right and that breaks question 4.
pub fn breaking(dice: &mut Dice) -> Vec<u8> {
    let mut all = definitions(dice);
    let at = dice.below(all.len() + 1);
    let goal = |variable: u16| layout::equality(&layout::variable(0), &layout::variable(variable));
    match dice.below(5) {
        0 if all.len() > 1 => all.reverse(),
        4 => all.extend([2, 1].map(|arity| layout::definition(60_000, arity, 0, &goal(0)))),
        1 if !all.is_empty() => all.insert(at, all[at.min(all.len() - 1)].clone()),
        2 => all.push(layout::definition(60_000, 2, 3, &goal(5))),
        _ => all.push(layout::definition(60_000, 0, 0, &goal(*dice.pick(&[0, 1, 65_535])))),
    }
    layout::program(&all)
}

/// A query record that passes.
pub fn query(dice: &mut Dice) -> Vec<u8> {
    let (names, depth) = (Names::any(dice), dice.between(0, 3));
    layout::record(&goal_bytes(dice, names, depth))
}
