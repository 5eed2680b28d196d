//! Which bet gave a variable its value.

use fourport::{Bet, Event, TermKind};
use std::collections::HashMap;

/// How many bets lie below the unifier that gave the variable its value: the one that binds it, or where it was made the same as another variable, the one
/// that binds that, and so on. Nothing where the last of them is unbound.
pub fn bets_below_the_binding(event: &Event, variable: u16) -> Option<u16> {
    let mut bound: HashMap<u16, (Option<u16>, u16)> = HashMap::new();
    for (bet, below) in event.bets().zip((0..event.bet_count()).rev()) {
        let Bet::Unifier(pairs) = bet else { continue };
        bound.extend(pairs.map(|(variable, term)| match term.kind() {
            TermKind::Variable(other) => (variable, (Some(other), below)),
            TermKind::Symbol(..) => (variable, (None, below)),
        }));
    }
    let mut last = variable;
    // each is taken out, so that the way ends also where bets go round
    loop {
        match bound.remove(&last)? {
            (Some(other), _) => last = other,
            (None, below) => return Some(below),
        }
    }
}
