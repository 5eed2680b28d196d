//! Back to the door of an event (SPECIFICATION 8.13): of events that a walk reaches, with limits at and beside what is needed; of events that are
//! changed or made up; with damaged records. As many steps forward lead back to the event, whatever stopped the way.

use super::numbering::definitions;
use crate::compare::{Answer, Checked, Checker, Difference};
use crate::doors::{doors, typed, walked, ways, Way};
use crate::generate::doors::{asked, changed, made_up, near_the_last};
use crate::generate::sized::goal_of;
use crate::generate::{damage, room, Dice};
use layout::{by, byte_at, conjunction, disjunction, event, port, record, FAIL, NO_DEFINITIONS, PORT_AT, RECORD_LIMIT as ROOM, TRUE};

/// The number that says that the limit is spent.
const SPENT: u32 = 32;
/// The steps back within which a way from an event that no walk need reach is known to end.
const KNOWN: u32 = 1_000;

pub fn round(checker: &mut Checker, dice: &mut Dice) -> Checked<()> {
    let (program, query) = asked(dice);
    let events = walked(&program, &query, if dice.one_in(6) { 600 } else { dice.between(20, 200) });
    for _ in 0..dice.between(1, 4).min(events.len()) {
        let here = late(dice, &events);
        reached(checker, dice, &program, &events[..=here])?;
        let other = dice.below(events.len());
        let near = changed(dice, &events[here], &events[other]);
        unreached(checker, dice, &program, &near)?;
    }
    let (program, start) = if dice.one_in(10) { (definitions(dice, 1), near_the_last(dice)) } else { (program, made_up(dice)) };
    let there = checker.run(&program, &start, *dice.pick(&[0, 0, 3, 10, 40]), 0, ROOM)?;
    unreached(checker, dice, &program, &there.bytes)?;
    let (limit, event) = (dice.below(4) as u32, &there.bytes);
    checker.door(&program, event, limit, room(dice))?;
    checker.door(&damage::damaged(dice, &program), event, limit, room(dice))?;
    checker.door(&program, &damage::damaged(dice, event), limit, room(dice))?;
    Ok(())
}

/// The place of an event, mostly a late one that is no call.
fn late(dice: &mut Dice, events: &[Vec<u8>]) -> usize {
    let tries = [0; 4].map(|_| dice.below(events.len()));
    let other = tries.into_iter().filter(|&place| byte_at(&events[place], PORT_AT) != port::CALL).max();
    other.unwrap_or(tries[0])
}

fn broken<T>(words: &str) -> Checked<T> {
    Err(Difference(format!("door: {words}")))
}

/// The door within so many steps; from what is written as many steps forward lead to the event.
fn put(checker: &mut Checker, program: &[u8], event: &[u8], limit: u32) -> Checked<Answer> {
    let answer = checker.door(program, event, limit, ROOM)?;
    let taken = answer.beside[0] as u32;
    if !answer.bytes.is_empty() && checker.run(program, &answer.bytes, taken, 0, ROOM)?.bytes != event {
        return broken("as many steps forward do not lead to the event");
    }
    Ok(answer)
}

/// The last of the events of a walk: its door is the nearest such call among them, and each limit gives it or the event so many steps back.
fn reached(checker: &mut Checker, dice: &mut Dice, program: &[u8], events: &[Vec<u8>]) -> Checked<()> {
    let (here, places) = (events.len() - 1, doors(events));
    let Some(&place) = places.first() else { return broken("a reached event has none") };
    let steps = (here - place) as u32;
    let mut at = |limit: u32, met: Option<Way>| {
        let taken = limit.min(steps);
        let due = (if limit < steps { SPENT } else { 0 }, u64::from(taken), events[here - taken as usize].clone());
        let answer = put(checker, program, &events[here], limit)?;
        met.into_iter().for_each(|way| checker.table.add_door(way));
        if (answer.number, answer.beside[0], answer.bytes) != due || typed(program, &events[here], limit) != Some(due) {
            return broken("it is not the nearest call, or not so many steps back");
        }
        Ok(())
    };
    at(0, Some(if byte_at(&events[here], PORT_AT) == port::CALL { Way::NoStepAtCall } else { Way::NoStepElsewhere }))?;
    at(steps, Some(Way::JustEnough))?;
    at(*dice.pick(&[steps + 1, u32::MAX]), None)?;
    if steps > 0 {
        at(steps - 1, Some(Way::OneTooFew))?;
        at(dice.below(steps as usize) as u32, None)?;
    }
    ways(events, &places).into_iter().for_each(|way| checker.table.add_door(way));
    Ok(())
}

/// An event that no walk need reach: limits at and below the steps that were made, and the greatest where the way is known to end.
fn unreached(checker: &mut Checker, dice: &mut Dice, program: &[u8], event: &[u8]) -> Checked<()> {
    let known = put(checker, program, event, KNOWN)?;
    if known.bytes.is_empty() {
        return Ok(());
    }
    let steps = known.beside[0] as u32;
    if typed(program, event, KNOWN) != Some((known.number, known.beside[0], known.bytes.clone())) {
        return broken("the typed door is another one");
    }
    for limit in [dice.below(steps as usize) as u32, steps.saturating_sub(1)] {
        if put(checker, program, event, limit)?.number != if limit < steps { SPENT } else { known.number } {
            return broken("under a limit below the steps made the number is not 32");
        }
    }
    if known.number != SPENT {
        if checker.door(program, event, steps, ROOM)? != known || checker.door(program, event, u32::MAX, ROOM)? != known {
            return broken("a greater limit on a way that ends gave something else");
        }
        met(checker, known.number, steps);
    }
    Ok(())
}

/// What came of an event that no walk need reach.
fn met(checker: &mut Checker, number: u32, steps: u32) {
    let way = match (number, steps) {
        (0, 0) => return,
        (0, _) => Way::UnreachedDoor,
        (_, 0) => Way::RefusedAtOnce,
        _ => Way::RefusedBehind,
    };
    checker.table.add_door(way);
    if number != 0 {
        // it was asked for within just these steps too
        checker.table.add_door(Way::RefusedAtTheLimit);
    }
}

/// Each event of (A, A), fail and (A ; A), fail, where halves differ in a tag alone, and of three choices one behind the other.
pub fn boundaries(checker: &mut Checker, dice: &mut Dice) -> Checked<()> {
    let choice = disjunction(&TRUE, &TRUE);
    for goal in [conjunction(&TRUE, &TRUE), choice.clone(), conjunction(&choice, &conjunction(&choice, &choice))] {
        let events = walked(&NO_DEFINITIONS, &record(&conjunction(&goal, &FAIL)), usize::MAX);
        for here in 0..events.len() {
            reached(checker, dice, &NO_DEFINITIONS, &events[..=here])?;
        }
    }
    for length in 32_766..=32_769 {
        let full = event(port::EXIT, &TRUE, &[], &[by(&goal_of(length - 10))]);
        for limit in [0, 1, 2] {
            put(checker, &NO_DEFINITIONS, &full, limit)?;
        }
    }
    Ok(())
}
