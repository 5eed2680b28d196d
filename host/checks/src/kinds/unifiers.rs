//! Equalities whose unifier would be very long, chains, random systems; with and without a clash or a cycle, sides exchanged.

use crate::compare::{Answer, Checked, Checker};
use crate::generate::families::{any, doubling, system};
use crate::generate::{events, terms, Dice};

/// Mostly small systems; one in forty up to n = 800, the longest that fits where sides are exchanged.
pub fn round(checker: &mut Checker, dice: &mut Dice) -> Checked<()> {
    let most = *dice.pick(&[4, 12, 40]);
    let goal = match dice.below(80) {
        0 => system(&doubling(dice.between(790, 800) as u16, true)),
        1 => system(&any(dice, 800)),
        _ => system(&any(dice, most)),
    };
    let bets: Vec<Vec<u8>> = if dice.one_in(3) { vec![events::unifier(dice, terms::Names::low(6))] } else { Vec::new() };
    let program = layout::program(&[]);
    let call = layout::event(1, &goal, &[], &bets);
    let next = checker.forward(&program, &call, 32_768)?;
    checker.back(&program, &layout::event(3, &goal, &[], &bets), 32_768)?;
    checker.forward(&program, &layout::event(4, &goal, &[], &bets), 32_768)?;
    exited(checker, dice, &program, next)
}

/// Back from the exit, values there, and back from an exit with another unifier.
fn exited(checker: &mut Checker, dice: &mut Dice, program: &[u8], next: Answer) -> Checked<()> {
    if next.number != 0 {
        return Ok(());
    }
    checker.back(program, &next.bytes, 32_768)?;
    for v in [0, dice.below(12) as u16, dice.below(800) as u16] {
        checker.value(&next.bytes, v, 32_768)?;
    }
    let near = crate::generate::damage::one_byte(dice, &next.bytes);
    checker.back(program, &near, 32_768)?;
    Ok(())
}
