//! Demand 3 (SPECIFICATION 9.7): two lists of steps under one program, with accepted and refused moves. The events at which they end are equal if and
//! only if the queries are equal and the lists have the same net number.

use crate::compare::{Checked, Checker, Difference};
use crate::generate::{programs, room, Dice};
use twin::rules::Direction::{Back, Forward};
use twin::training::Examiner;

/// Moves of a list beyond those that lead to its aim.
const MOST_MOVES: usize = 12;

pub fn round(checker: &mut Checker, dice: &mut Dice) -> Checked<()> {
    let program = programs::program(dice);
    let one = programs::query(dice);
    let other = if dice.one_in(3) { programs::query(dice) } else { one.clone() };
    let (Some(first), Some(second)) = (started(checker, &one)?, started(checker, &other)?) else { return Ok(()) };
    let ahead = if dice.one_in(20) { dice.below(60) } else { dice.below(10) } as i64;
    let (event, net) = moved(checker, dice, &program, (&one, first), ahead)?;
    // mostly towards the same net number
    let aim = if dice.one_in(4) { dice.below(10) as i64 } else { net };
    let (other_event, other_net) = moved(checker, dice, &program, (&other, second), aim)?;
    let (equal, due) = (event == other_event, one == other && net == other_net);
    checker.table.ends[usize::from(equal)] += 1;
    if equal == due {
        Ok(())
    } else {
        Err(Difference(format!("demand 3: ends equal {equal}, queries equal {}, net {net} and {other_net}", one == other)))
    }
}

fn started(checker: &mut Checker, query: &[u8]) -> Checked<Option<Vec<u8>>> {
    let start = checker.first(query, 32_768)?;
    Ok((start.number == 0).then_some(start.bytes))
}

/// A list of moves from a query's first event that tends to the net number aimed at: where it ends, and the net number it came to. Each event that it
/// comes to is as training material says (SPECIFICATION 9.9), of the events on the way from the first.
fn moved(checker: &mut Checker, dice: &mut Dice, program: &[u8], (query, first): (&[u8], Vec<u8>), aim: i64) -> Checked<(Vec<u8>, i64)> {
    let mut examiner = Examiner::new(query)?;
    examiner.reach(&first)?;
    let (mut event, mut net) = (first, 0);
    for turn in 0..dice.between(1, MOST_MOVES) + aim as usize {
        let towards = if net < aim || (net == aim && turn % 2 == 0) { Forward } else { Back };
        let direction = match (dice.one_in(4), towards) {
            (true, Forward) => Back,
            (true, Back) => Forward,
            (false, towards) => towards,
        };
        let answer = checker.step(direction, program, &event, room(dice))?;
        match (answer.number, direction) {
            (0, Forward) => examiner.reach(&answer.bytes)?,
            (0, Back) => examiner.leave(),
            _ => continue,
        }
        net += if direction == Forward { 1 } else { -1 };
        event = answer.bytes;
    }
    checker.examined(examiner.met);
    Ok((event, net))
}
