//! Runs of any count and direction, also from events that no walk reaches; the longest count where the walk is known to end.

use crate::compare::{Checked, Checker, Difference};
use crate::generate::{events, programs, room, Dice};

/// A walk is known to end when it does within this many steps.
const KNOWN: u32 = 1_500;

fn steps(dice: &mut Dice) -> u32 {
    match dice.below(8) {
        0 => 0,
        1 => 1,
        2..=5 => dice.below(60) as u32,
        _ => dice.below(600) as u32,
    }
}

/// 0 is forward; any other byte is back.
fn way(dice: &mut Dice) -> u8 {
    *dice.pick(&[0, 0, 0, 1, 2, 128, 255])
}

pub fn round(checker: &mut Checker, dice: &mut Dice) -> Checked<()> {
    let program = programs::program(dice);
    let event = if dice.one_in(2) { events::event(dice) } else { checker.first(&programs::query(dice), 32_768)?.bytes };
    let there = checker.run(&program, &event, steps(dice), way(dice), room(dice))?;
    let from = if there.bytes.is_empty() { event } else { there.bytes };
    checker.run(&program, &from, steps(dice), way(dice), room(dice))?;
    let way = way(dice);
    let known = checker.run(&program, &from, KNOWN, way, 32_768)?;
    if known.number != 0 && checker.run(&program, &from, u32::MAX, way, 32_768)? != known {
        return Err(Difference("a longer run over a walk that ends gave something else".into()));
    }
    Ok(())
}
