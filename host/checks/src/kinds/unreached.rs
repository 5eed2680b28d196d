//! Events that no walk need reach, stepped both ways. What a step back gives always steps forward to the event it was asked about.

use crate::compare::{Checked, Checker, Difference};
use crate::generate::{damage, events, programs, room, Dice};
use twin::rules::Direction::{Back, Forward};

pub fn round(checker: &mut Checker, dice: &mut Dice) -> Checked<()> {
    let program = programs::program(dice);
    let event = match dice.below(36) {
        0 | 1 => events::nearly_full(dice),
        2 => events::large_values(dice),
        3..=8 => events::of_atom(dice),
        _ => events::event(dice),
    };
    let next = checker.forward(&program, &event, room(dice))?;
    sourced(checker, &program, &event)?;
    if next.number != 0 {
        return Ok(());
    }
    sourced(checker, &program, &next.bytes)?;
    // a near miss: another unifier, another body, another half
    for _ in 0..dice.below(4) {
        let near = damage::one_byte(dice, &next.bytes);
        checker.forward(&program, &near, 32_768)?;
        sourced(checker, &program, &near)?;
    }
    wandered(checker, dice, &program, next.bytes)
}

/// A step back, and the step forward from what it gives.
fn sourced(checker: &mut Checker, program: &[u8], event: &[u8]) -> Checked<()> {
    let source = checker.back(program, event, 32_768)?;
    if source.number == 0 && checker.forward(program, &source.bytes, 32_768)?.bytes != event {
        return Err(Difference("what a step back gave does not step forward to the event".into()));
    }
    Ok(())
}

/// Some more steps either way.
fn wandered(checker: &mut Checker, dice: &mut Dice, program: &[u8], mut event: Vec<u8>) -> Checked<()> {
    for _ in 0..dice.below(12) {
        let direction = if dice.one_in(2) { Forward } else { Back };
        let answer = checker.step(direction, program, &event, 32_768)?;
        if answer.number == 0 {
            event = answer.bytes;
        }
    }
    Ok(())
}
