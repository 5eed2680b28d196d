//! The definition that an atom names: its place and length; other goals, other arities, damaged records.

use crate::compare::{Checked, Checker};
use crate::generate::goals::PREDICATES;
use crate::generate::{damage, events, programs, Dice};

pub fn round(checker: &mut Checker, dice: &mut Dice) -> Checked<()> {
    let program = programs::program(dice);
    for _ in 0..6 {
        let event = events::of_atom(dice);
        checker.lookup(&program, &event)?;
        let near = damage::one_byte(dice, &event);
        checker.lookup(&program, &near)?;
    }
    for predicate in [dice.below(PREDICATES) as u16, 100, 103, 100 + 3 * dice.below(400) as u16, 65_535] {
        let arguments = vec![layout::variable(0); dice.below(17)];
        checker.lookup(&program, &layout::event(1, &layout::atom(predicate, &arguments), &[], &[]))?;
    }
    checker.lookup(&program, &events::event(dice))?;
    checker.lookup(&programs::breaking(dice), &events::of_atom(dice))?;
    checker.lookup(&program, &events::breaking(dice))?;
    Ok(())
}
