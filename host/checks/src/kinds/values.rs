//! S(v) under stacks of unifiers that bind the same variables again and again.

use crate::compare::{Checked, Checker};
use crate::generate::terms::Names;
use crate::generate::{events, room, sized, Dice};

/// A number that stands after the kind byte of a variable somewhere in the record, or any.
pub fn known_variable(dice: &mut Dice, event: &[u8]) -> u16 {
    let from = dice.below(event.len());
    let found = event[from..].windows(3).find(|window| window[0] == layout::VARIABLE);
    found.map_or_else(|| dice.number(), |window| layout::number_at(window, 1))
}

/// A bet that makes variable i into two of variable i + 1.
fn doubling(i: u16) -> Vec<u8> {
    layout::unifier(&[(i, layout::symbol(1, &[layout::variable(i + 1), layout::variable(i + 1)]))])
}

pub fn round(checker: &mut Checker, dice: &mut Dice) -> Checked<()> {
    let names = Names::any(dice);
    let mut bets: Vec<Vec<u8>> = match dice.below(4) {
        0 => (0..dice.between(1, 14) as u16).map(doubling).rev().collect(),
        _ => (0..dice.between(0, 30)).map(|_| events::bet(dice, names)).collect(),
    };
    if dice.one_in(6) {
        bets.push(layout::unifier(&[(0, sized::term_of(dice.between(8_180, 8_200)))]));
    }
    let event = layout::event(dice.between(1, 4) as u8, &layout::TRUE, &[], &bets);
    for _ in 0..4 {
        checker.value(&event, names.variable(dice), room(dice))?;
        checker.value(&event, known_variable(dice, &event), 32_768)?;
    }
    checker.value(&event, 0, 32_768)?;
    checker.value(&event, dice.number(), 32_768)?;
    Ok(())
}
