//! Clause sets to canonical programs, which then serve a walk.

use crate::compare::{Checked, Checker};
use crate::generate::{clauses, damage, events, programs, room, Dice};

pub fn round(checker: &mut Checker, dice: &mut Dice) -> Checked<()> {
    let set = clauses::clauses(dice);
    let program = checker.canonical(&set, room(dice))?;
    checker.canonical(&damage::damaged(dice, &set), 32_768)?;
    checker.canonical(&clauses::breaking(dice), room(dice))?;
    if program.number != 0 {
        return Ok(());
    }
    checker.lookup(&program.bytes, &events::of_atom(dice))?;
    let start = checker.first(&programs::query(dice), 32_768)?;
    checker.run(&program.bytes, &start.bytes, dice.below(200) as u32, 0, 32_768)?;
    Ok(())
}
