//! Walks from a query forward and all the way back: every fail has its call and every redo its exit, and each step back gives the event it came from.

use super::values::known_variable;
use crate::compare::{Checked, Checker};
use crate::generate::{programs, room, Dice};

pub fn round(checker: &mut Checker, dice: &mut Dice) -> Checked<()> {
    let (program, query) = (programs::program(dice), programs::query(dice));
    let start = checker.first(&query, room(dice))?;
    if start.number != 0 {
        return Ok(());
    }
    let mut events = vec![start.bytes];
    for _ in 0..if dice.one_in(50) { 600 } else { dice.between(5, 80) } {
        let event = &events[events.len() - 1];
        if dice.one_in(15) {
            aside(checker, dice, &program, event)?;
        }
        let next = checker.forward(&program, event, room(dice))?;
        match next.number {
            0 => events.push(next.bytes),
            5 => {}
            _ => break,
        }
    }
    checker.walked(&program, &query, &events)
}

/// The other services at an event of the walk.
fn aside(checker: &mut Checker, dice: &mut Dice, program: &[u8], event: &[u8]) -> Checked<()> {
    checker.value(event, known_variable(dice, event), room(dice))?;
    checker.lookup(program, event)?;
    checker.greatest(event)?;
    checker.count(event, [dice.long(); 4])?;
    Ok(())
}
