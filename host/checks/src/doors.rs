//! Where doors were asked for and what lay on the way to them, for the table; the door of an event by a look at its walk, and the typed door.

use crate::generate::events::Parts;
use fourport::{Event, Program};
use layout::{ancestor_end, byte_at, goal_end, number_at, port, EVENT_GOAL_AT, PORT_AT};
use twin::records::{reader, writer};
use twin::rules::{step, Direction};

/// Where a door is asked for, or what the way to it shows.
#[derive(Clone, Copy)]
pub enum Way {
    Itself,
    OfExit,
    OfFail,
    OfRedo,
    Far,
    NoStepAtCall,
    NoStepElsewhere,
    OneTooFew,
    JustEnough,
    PastAsMany,
    PastOtherTag,
    PastDeeper,
    OneFurther,
    RefusedAtOnce,
    RefusedBehind,
    RefusedAtTheLimit,
    UnreachedDoor,
}

pub const DOORS: [&str; 17] = [
    "at a call, its own door",
    "at an exit",
    "at a fail",
    "at a redo",
    "over 100 steps back",
    "limit 0 at a call",
    "limit 0 elsewhere",
    "one step too few",
    "just enough steps",
    "past a call under as many ancestors",
    "past a call that differs in a tag alone",
    "past a call of the goal deeper down",
    "another such call further back",
    "refused by 7 to 10 before a step",
    "refused by 7 to 10 behind steps",
    "refused by 7 to 10 where the limit is spent",
    "behind steps from an event made up",
];

/// More steps back than this are many.
const MANY: usize = 100;

/// The first events of a query's walk, so many at most; none where a record is refused.
pub fn walked(program: &[u8], query: &[u8], most: usize) -> Vec<Vec<u8>> {
    let start = twin::services::first(query, layout::RECORD_LIMIT);
    let (Ok(program), Ok(mut event)) = (reader::program(program), reader::event(&start.bytes)) else { return Vec::new() };
    let mut events = vec![start.bytes];
    while events.len() < most && step(Direction::Forward, &program, &mut event).is_ok() {
        events.push(writer::event(&event));
    }
    events
}

/// The bytes of the goal and of the ancestors with their count: what an event and its door have in common.
pub fn asked(event: &[u8]) -> &[u8] {
    let at = goal_end(event, EVENT_GOAL_AT, |_| ());
    let end = (0..number_at(event, at)).fold(at + 2, |at, _| ancestor_end(event, at));
    &event[EVENT_GOAL_AT..end]
}

fn is_call(event: &[u8]) -> bool {
    byte_at(event, PORT_AT) == port::CALL
}

/// The places of the calls among the events that are doors of the last one, the nearest first.
pub fn doors(events: &[Vec<u8>]) -> Vec<usize> {
    let due = events.last().map(|event| asked(event));
    (0..events.len()).rev().filter(|&place| is_call(&events[place]) && Some(asked(&events[place])) == due).collect()
}

/// The ancestors without their tags.
fn untagged(ancestors: &[Vec<u8>]) -> Vec<Vec<u8>> {
    let bare = |ancestor: &Vec<u8>| if Parts::is_half(ancestor) { [&ancestor[..1], &ancestor[2..]].concat() } else { ancestor.clone() };
    ancestors.iter().map(bare).collect()
}

/// What the way from the last of the events back to its door shows.
pub fn ways(events: &[Vec<u8>], doors: &[usize]) -> Vec<Way> {
    let (here, Some(&place)) = (events.len() - 1, doors.first()) else { return Vec::new() };
    let given = Parts::of(&events[here]);
    let passed: Vec<Parts> = events[place + 1..].iter().filter(|event| is_call(event)).map(|event| Parts::of(event)).collect();
    let calls = |holds: &dyn Fn(&Parts) -> bool| place < here && passed.iter().any(holds);
    let same = |call: &Parts| call.goal == given.goal;
    let shows = [
        (Way::Itself, place == here),
        (Way::OfExit, given.port == port::EXIT),
        (Way::OfFail, given.port == port::FAIL),
        (Way::OfRedo, given.port == port::REDO),
        (Way::Far, here - place > MANY),
        (Way::PastAsMany, calls(&|call| call.ancestors.len() == given.ancestors.len())),
        (Way::PastOtherTag, calls(&|call| same(call) && untagged(&call.ancestors) == untagged(&given.ancestors))),
        (Way::PastDeeper, calls(&|call| same(call) && call.ancestors.len() > given.ancestors.len())),
        (Way::OneFurther, doors.len() > 1),
    ];
    shows.into_iter().filter(|(_, shows)| *shows).map(|(way, _)| way).collect()
}

/// What the typed door gives: the number, the steps taken and the event; nothing of records that are refused.
pub fn typed(program: &[u8], event: &[u8], limit: u32) -> Option<(u32, u64, Vec<u8>)> {
    let door = Program::from_bytes(program).ok()?.door(&Event::from_bytes(event).ok()?, limit).ok()?;
    Some((door.stopped.map_or(0, |refusal| refusal.number()), door.taken.into(), door.event.as_bytes().to_vec()))
}
