//! Walks that come back to their goals, and events that no walk need reach, with a way back behind them.

use super::answers::{self, Asked};
use super::events::{ancestor, bet, event, large_values, nearly_full, of_atom, Parts};
use super::goals::goal_bytes;
use super::greatest::{called, PLACES};
use super::terms::Names;
use super::Dice;
use layout::{conjunction, disjunction, port, record, FAIL};

/// A record's body starts here.
const BODY_AT: usize = 3;
/// An ancestor's tag stands here.
const TAG_AT: usize = 1;
/// One tag and this, bit by bit exclusive, is the other.
const BOTH_TAGS: u8 = 1 ^ 2;

/// A program and a query, mostly one that is asked for every answer, so that goals are asked again; sometimes with one goal in both halves of a join.
pub fn asked(dice: &mut Dice) -> Asked {
    let (program, query) = answers::asked(dice);
    let goal = if dice.one_in(3) { goal_bytes(dice, Names::low(2), 1) } else { query[BODY_AT..].to_vec() };
    let goal = match dice.below(4) {
        0 => conjunction(&goal, &goal),
        1 => disjunction(&goal, &goal),
        _ => goal,
    };
    (program, record(&if dice.one_in(5) { goal } else { conjunction(&goal, &FAIL) }))
}

/// The event with something in it changed: the port, the goal, a tag, an ancestor or a bet.
pub fn changed(dice: &mut Dice, event: &[u8], other: &[u8]) -> Vec<u8> {
    let (mut parts, names) = (Parts::of(event), Names::low(4));
    let (ancestors, bets) = (parts.ancestors.len(), parts.bets.len());
    match dice.below(9) {
        0 => parts.port = dice.between(1, 4) as u8,
        1 => parts.goal = Parts::of(other).goal,
        2 => parts.goal = goal_bytes(dice, names, 1),
        3 if ancestors > 0 => _ = parts.ancestors.remove(dice.below(ancestors)),
        4 => parts.ancestors.insert(dice.below(ancestors + 1), ancestor(dice, names)),
        5 if bets > 0 => _ = parts.bets.remove(dice.below(bets)),
        6 => parts.bets.insert(dice.below(bets + 1), bet(dice, names)),
        7 if bets > 0 => parts.bets[dice.below(bets)] = bet(dice, names),
        _ => {
            let half = parts.ancestors.iter_mut().filter(|ancestor| Parts::is_half(ancestor)).nth(dice.below(ancestors));
            half.into_iter().for_each(|ancestor| ancestor[TAG_AT] ^= BOTH_TAGS);
        }
    }
    let record = parts.record();
    if record.len() > layout::RECORD_LIMIT {
        event.to_vec()
    } else {
        record
    }
}

/// An event made up: any one, a nearly full one, one with large values, or an atom's.
pub fn made_up(dice: &mut Dice) -> Vec<u8> {
    match dice.below(12) {
        0 | 1 => nearly_full(dice),
        2 => large_values(dice),
        3 => of_atom(dice),
        _ => event(dice),
    }
}

/// The call or the fail of an atom whose body's one local gets 65,535, or would get more.
pub fn near_the_last(dice: &mut Dice) -> Vec<u8> {
    let (place, number, port) = (*dice.pick(&PLACES), *dice.pick(&[65_534, 65_535]), *dice.pick(&[port::CALL, port::FAIL]));
    called(dice, &[place], number).at(port)
}
