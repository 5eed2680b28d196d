//! Where the greatest variable stood when a body was numbered, and how far the locals reached (SPECIFICATION 4, 7.6), for the table.

use layout::{byte_at, port, ATOM, EVENT_GOAL_AT, PORT_AT};
use twin::records::goal::same_goal;
use twin::records::{reader, Ancestor, Bet, Event, GoalRef, GoalShape, Port};
use twin::rules::Direction::{self, Back, Forward};
use twin::terms::body::body;

/// The part of the call event that alone has the greatest variable; the first two are for no part and for several.
pub const PLACES: [&str; 10] = [
    "no part",
    "several parts",
    "the goal",
    "an ancestor",
    "a pair's variable in the top bet",
    "a pair's term in the top bet",
    "BY as the top bet",
    "a pair's variable in a lower bet",
    "a pair's term in a lower bet",
    "BY as a lower bet",
];
const NONE: usize = 0;
const SEVERAL: usize = 1;
const GOAL: usize = 2;
const ANCESTOR: usize = 3;
const VARIABLE: usize = 4;
const TERM: usize = 5;
const BY: usize = 6;
/// From a place in the top bet to that in a lower one.
const LOWER: usize = 3;

/// Where a body is numbered.
pub const WAYS: [&str; 3] = ["call P", "back to call P", "back from fail P"];

/// What came of it. The first three say what number the last local has; the fourth that there is none, and the greatest variable is 65,535; the
/// last that a step back was refused by 7, from the body that goal and ancestors alone would have numbered.
pub const ENDS: [&str; 5] = ["lower", "65535", "65536", "none", "7"];

#[derive(Clone, Copy)]
pub struct Numbered {
    pub place: usize,
    pub way: usize,
    pub end: usize,
}

impl Numbered {
    /// Each that a run has to meet: all ends wherever some part alone has the greatest variable, the first one elsewhere.
    pub fn due() -> impl Iterator<Item = Numbered> {
        let all =
            (0..PLACES.len()).flat_map(|place| (0..WAYS.len()).flat_map(move |way| (0..ENDS.len()).map(move |end| Numbered { place, way, end })));
        all.filter(|met| match met.end {
            0 => true,
            // only of a step back from a body, and only where the bets are what counts
            4 => met.way == 1 && met.place >= VARIABLE,
            _ => met.place >= GOAL,
        })
    }
}

/// The atom that is called, and the number above the greatest variable of its ancestors.
fn called(direction: Direction, event: &Event) -> Option<(usize, &GoalRef, u32)> {
    match (direction, event.port, event.ancestors.top()) {
        (Forward, Port::Call, _) => Some((0, &event.goal, event.ancestors.above())),
        (Back, Port::Call, Some(Ancestor::Atom(p))) => {
            Some((1, p, event.ancestors.top_first().skip(1).map(|ancestor| ancestor.goal().above()).max().unwrap_or(0)))
        }
        (Back, Port::Fail, _) => Some((2, &event.goal, event.ancestors.above())),
        _ => None,
    }
}

/// The place of the greatest variable, and m.
fn place(goal: u32, ancestors: u32, event: &Event) -> (usize, u32) {
    let mut parts = vec![(GOAL, goal), (ANCESTOR, ancestors)];
    for (i, bet) in event.bets.top_first().enumerate() {
        let lower = if i == 0 { 0 } else { LOWER };
        match bet {
            Bet::Unifier(unifier) => {
                parts.extend(unifier.pairs().iter().flat_map(|(v, term)| [(VARIABLE + lower, u32::from(*v) + 1), (TERM + lower, term.above())]));
            }
            Bet::Or(_) => {}
            Bet::By(goal) => parts.push((BY + lower, goal.above())),
        }
    }
    let m = parts.iter().map(|part| part.1).max().unwrap_or(0);
    let mut holders = parts.iter().filter(|part| part.1 == m).map(|part| part.0);
    let first = holders.next().unwrap_or(NONE);
    match (m, holders.all(|other| other == first)) {
        (0, _) => (NONE, m),
        (_, true) => (first, m),
        (_, false) => (SEVERAL, m),
    }
}

/// What the step met that was answered with this number; nothing where no body is numbered.
pub fn numbered(direction: Direction, program: &[u8], event: &[u8], number: u32) -> Option<Numbered> {
    let (port_byte, goal_byte) = (byte_at(event, PORT_AT), byte_at(event, EVENT_GOAL_AT));
    if !(port_byte == port::CALL && (direction == Back || goal_byte == ATOM) || port_byte == port::FAIL && goal_byte == ATOM) {
        return None;
    }
    let (program, event) = (reader::program(program).ok()?, reader::event(event).ok()?);
    let (way, atom, ancestors) = called(direction, &event)?;
    let GoalShape::Atom(predicate, arguments) = atom.shape() else { return None };
    let definition = program.definition(*predicate, arguments.len())?;
    let (place, m) = place(atom.above(), ancestors, &event);
    let locals = u32::from(definition.locals);
    let end = match (number, locals, m + locals) {
        (0, 0, 65_536) => 3,
        (_, 0, _) => return None,
        (0, _, 65_536) => 1,
        (0, _, _) => 0,
        (9, _, 65_537) => 2,
        (7, _, _) if way == 1 => {
            let without = atom.above().max(ancestors);
            let other = body(definition, arguments, without).ok()?;
            if without == m || !same_goal(&other, &event.goal) {
                return None;
            }
            4
        }
        _ => return None,
    };
    Some(Numbered { place, way, end })
}
