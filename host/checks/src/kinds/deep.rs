//! Deep terms, joins and ancestors, up to what a record holds.

use crate::compare::{Checked, Checker};
use crate::generate::Dice;
use layout::{atom, conjunction, definition, equality, nested, record, symbol, variable, CONJUNCTION, DISJUNCTION, FAILURE, TRUE, TRUTH};

/// A depth: anything up to the most, often the most.
fn depth(dice: &mut Dice, most: usize) -> usize {
    match dice.below(3) {
        0 => most,
        1 => most - dice.below(8),
        _ => dice.below(most + 1),
    }
}

pub fn round(checker: &mut Checker, dice: &mut Dice) -> Checked<()> {
    match dice.below(5) {
        0 => terms(checker, dice),
        1 => joins(checker, dice),
        2 => ancestors(checker, dice),
        3 => heads(checker, dice),
        _ => bets(checker, dice),
    }
}

/// Every service at an event and where some steps lead.
fn everywhere(checker: &mut Checker, dice: &mut Dice, program: &[u8], event: &[u8]) -> Checked<()> {
    checker.value(event, dice.below(3) as u16, 32_768)?;
    checker.lookup(program, event)?;
    checker.greatest(event)?;
    checker.count(event, [0; 4])?;
    checker.back(program, event, 32_768)?;
    let next = checker.forward(program, event, 32_768)?;
    if next.number == 0 {
        checker.back(program, &next.bytes, 32_768)?;
    }
    let there = checker.run(program, event, dice.below(40) as u32, 0, 32_768)?;
    if !there.bytes.is_empty() {
        checker.run(program, &there.bytes, 40, 1, 32_768)?;
        checker.door(program, &there.bytes, 40, 32_768)?;
    }
    Ok(())
}

/// Terms within each other, alone and on both sides, up to question 8's limit and beyond.
fn terms(checker: &mut Checker, dice: &mut Dice) -> Checked<()> {
    let inside = if dice.one_in(2) { variable(1) } else { symbol(2, &[]) };
    let goal = match dice.below(3) {
        0 => equality(&variable(0), &nested(depth(dice, 8_189), &inside)),
        1 => equality(&nested(depth(dice, 2_047), &variable(0)), &nested(depth(dice, 2_047), &inside)),
        _ => atom(0, &[nested(depth(dice, 8_187), &inside)]),
    };
    let start = checker.first(&record(&goal), 32_768)?;
    let program = layout::program(&[definition(0, 1, 1, &equality(&variable(0), &variable(1)))]);
    checker.answers(&program, &record(&goal), 40, 32_768)?;
    everywhere(checker, dice, &program, &start.bytes)
}

/// Conjunctions and disjunctions in the left or the right half of each other.
fn joins(checker: &mut Checker, dice: &mut Dice) -> Checked<()> {
    let (kind, count) = (*dice.pick(&[CONJUNCTION, DISJUNCTION]), depth(dice, 16_300));
    let end = if dice.one_in(2) { TRUTH } else { FAILURE };
    let goal = if dice.one_in(2) { [vec![kind; count], vec![end; count + 1]].concat() } else { [[kind, end].repeat(count), vec![end]].concat() };
    let start = checker.first(&record(&goal), 32_768)?;
    everywhere(checker, dice, &layout::program(&[]), &start.bytes)
}

/// A predicate that calls itself until no record holds its ancestors.
fn ancestors(checker: &mut Checker, dice: &mut Dice) -> Checked<()> {
    let call = atom(0, &[symbol(1, &[variable(0)])]);
    let body = if dice.one_in(2) { call } else { conjunction(&TRUE, &atom(0, &[variable(1)])) };
    let program = layout::program(&[definition(0, 1, 1, &body)]);
    let start = checker.first(&record(&atom(0, &[variable(0)])), 32_768)?;
    let there = checker.run(&program, &start.bytes, *dice.pick(&[100, 1_000, u32::MAX]), 0, 32_768)?;
    everywhere(checker, dice, &program, &there.bytes)
}

/// Clauses with deep heads.
fn heads(checker: &mut Checker, dice: &mut Dice) -> Checked<()> {
    let clause = layout::clause(5, 1, &[nested(depth(dice, 8_187), &variable(0))], &TRUE);
    let program = checker.canonical(&layout::clauses(&[clause]), 32_768)?;
    let event = layout::event(1, &atom(5, &[variable(0)]), &[], &[]);
    if program.number == 0 {
        everywhere(checker, dice, &program.bytes, &event)?;
    }
    Ok(())
}

/// A deep term in a bet; many bets that grow a term, or that rename a variable at the bottom of a deep one to and fro.
fn bets(checker: &mut Checker, dice: &mut Dice) -> Checked<()> {
    let renaming = |i: u16| layout::unifier(&[(1 + i % 2, variable(2 - i % 2))]);
    let bets: Vec<Vec<u8>> = match dice.below(3) {
        0 => vec![layout::unifier(&[(0, nested(depth(dice, 8_100), &variable(1)))])],
        1 => (0..depth(dice, 2_046) as u16).rev().map(|i| layout::unifier(&[(i, symbol(1, &[variable(i + 1)]))])).collect(),
        _ => {
            let count = if dice.one_in(8) { 3_000 } else { dice.below(400) } as u16;
            let deep = layout::unifier(&[(0, nested(depth(dice, 2_047), &variable(1)))]);
            (0..count).rev().map(renaming).chain([deep]).collect()
        }
    };
    let goal = equality(&variable(0), &variable(*dice.pick(&[0, 3_000])));
    let event = layout::event(dice.between(1, 4) as u8, &goal, &[], &bets);
    everywhere(checker, dice, &layout::program(&[]), &event)
}
