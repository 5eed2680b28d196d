//! The port counts, also at 4,294,967,295.

use crate::compare::{Checked, Checker};
use crate::generate::{damage, events, Dice};

fn before(dice: &mut Dice) -> [u32; 4] {
    [0; 4].map(|_| match dice.below(4) {
        0 => u32::MAX,
        1 => u32::MAX - 1,
        2 => 0,
        _ => dice.long(),
    })
}

pub fn round(checker: &mut Checker, dice: &mut Dice) -> Checked<()> {
    let event = events::event(dice);
    checker.count(&event, before(dice))?;
    checker.count(&damage::damaged(dice, &event), before(dice))?;
    checker.count(&events::breaking(dice), before(dice))?;
    Ok(())
}
