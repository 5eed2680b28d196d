//! The part that holds the greatest variable: alone, and with the same variable in other parts too (SPECIFICATION 4, 8.11).

use crate::compare::{Checked, Checker};
use crate::generate::greatest::{called, Place, ANCESTOR, BETS, GOAL, LEAST};
use crate::generate::{damage, events, Dice};
use crate::holders::HOLDERS;

/// A place in each of the parts that the bits name, as `HOLDERS` has them.
fn places(dice: &mut Dice, held: usize) -> Vec<Place> {
    let each = [*dice.pick(&BETS), GOAL, ANCESTOR];
    (0..each.len()).filter(|i| held >> i & 1 == 1).map(|i| each[i]).collect()
}

pub fn round(checker: &mut Checker, dice: &mut Dice) -> Checked<()> {
    let any = dice.number().max(LEAST);
    let number = *dice.pick(&[LEAST, 255, 256, 65_535, any]);
    for held in 0..HOLDERS.len() {
        let places = places(dice, held);
        checker.greatest(&called(dice, &places, number).at(dice.between(1, 4) as u8))?;
    }
    let event = events::event(dice);
    checker.greatest(&event)?;
    checker.greatest(&damage::damaged(dice, &event))?;
    checker.greatest(&events::breaking(dice))?;
    Ok(())
}
