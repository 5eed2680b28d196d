//! The door of an event: the limit on both sides, the tag, what is kept, and what is left untouched.

use fourport::{raw, Direction, Event, Port, Program, Query, Refusal, RECORD_LIMIT};
use layout::{
    atom, by, conjunction, definition, disjunction, event, goal_end, port, program, record, record_at, split_record, unifier, variable,
    EVENT_GOAL_AT, FAIL, NO_DEFINITIONS, TRUE,
};

const P: u16 = 5;

/// A byte that no service writes of its own.
const FILL: u8 = 0xAB;

/// The events of a walk to its end.
fn walked(program: &Program, query: &[u8]) -> Vec<Event> {
    let first = Event::first(&Query::from_bytes(query).expect("a query")).expect("a first event");
    std::iter::once(first.clone()).chain(program.walk(first).forwards()).collect()
}

fn none() -> Program {
    Program::from_bytes(NO_DEFINITIONS).expect("no definitions")
}

/// The goal and the number of ancestors behind it.
fn goal(event: &Event) -> &[u8] {
    let bytes = event.as_bytes();
    &bytes[EVENT_GOAL_AT..goal_end(bytes, EVENT_GOAL_AT, |_| ()) + 2]
}

/// Every event of the garage: its door calls the same goal, and as many steps forward lead to the event again.
#[test]
fn there_and_back() {
    let (program, query) = split_record(include_bytes!("../../../examples/three-bays.in"));
    let program = Program::from_bytes(program).expect("a program");
    let events = walked(&program, query);
    for (here, event) in events.iter().enumerate() {
        let door = program.door(event, u32::MAX).expect("a door");
        assert_eq!((&door.event, door.stopped), (&events[here - door.taken as usize], None), "event {here}");
        assert_eq!((door.event.port(), goal(&door.event)), (Port::Call, goal(event)));
        assert_eq!(door.taken == 0, event.port() == Port::Call);
        let again = program.run(&door.event, door.taken, Direction::Forward).expect("a run");
        assert_eq!((&again.event, again.stopped), (event, None));
    }
}

/// A call is its own door, even with no step allowed; one step less than enough keeps the last event, and enough is enough.
#[test]
fn limits() {
    let events = walked(&none(), &record(&conjunction(&disjunction(&TRUE, &TRUE), &FAIL)));
    let call = none().door(&events[1], 0).expect("a door");
    assert_eq!((&call.event, call.taken, call.stopped), (&events[1], 0, None));
    // fail of the disjunction that was called at event 1
    let here = 18;
    for (limit, stopped) in [(0, true), (1, true), (15, true), (16, true), (17, false), (18, false), (u32::MAX, false)] {
        let taken = limit.min(17);
        let door = none().door(&events[here], limit).expect("an event");
        assert_eq!((&door.event, door.taken), (&events[here - taken as usize], taken), "limit {limit}");
        assert_eq!(door.stopped, stopped.then_some(Refusal::Limit), "limit {limit}");
    }
}

/// A, A and A ; A: both halves have one goal under ancestors that differ in the tag alone.
#[test]
fn the_tag_counts() {
    let halves = |join: fn(&[u8], &[u8]) -> Vec<u8>, pairs: &[(usize, usize)]| {
        let events = walked(&none(), &record(&conjunction(&join(&TRUE, &TRUE), &FAIL)));
        for &(here, place) in pairs {
            assert_eq!(none().door(&events[here], u32::MAX).map(|door| door.event).as_ref(), Ok(&events[place]), "event {here}");
        }
    };
    // the first half is called at event 2, and asked again at 12 behind the call of the second one at 4
    halves(conjunction, &[(3, 2), (5, 4), (10, 4), (11, 4), (12, 2), (13, 2)]);
    halves(disjunction, &[(3, 2), (8, 2), (9, 2), (11, 10), (16, 10), (17, 10)]);
}

/// exit p with BY true, which is no body of p: no walk reaches it, and two steps back there is nothing before it.
#[test]
fn no_door() {
    let program = Program::from_bytes(program(&[definition(P, 0, 0, &FAIL)])).expect("a program");
    let exit = Event::from_bytes(event(port::EXIT, &atom(P, &[]), &[], &[by(&TRUE)])).expect("an event");
    for (limit, taken, stopped) in [(0, 0, Refusal::Limit), (1, 1, Refusal::Limit), (2, 2, Refusal::Match), (u32::MAX, 2, Refusal::Match)] {
        let door = program.door(&exit, limit).expect("an event");
        assert_eq!((door.taken, door.stopped), (taken, Some(stopped)), "limit {limit}");
        assert_eq!(program.run(&door.event, taken, Direction::Forward).map(|run| run.event), Ok(exit.clone()));
    }
}

/// A walk goes to the door, or as far as it is let.
#[test]
fn a_walk() {
    let (program, query) = (none(), record(&conjunction(&disjunction(&TRUE, &TRUE), &FAIL)));
    let events = walked(&program, &query);
    let mut walk = program.walk(events[0].clone());
    assert_eq!(walk.forwards().take(18).count(), 18);
    assert_eq!(walk.door(1), Err(Refusal::Limit));
    assert_eq!((walk.net(), walk.event(), walk.stopped()), (17, &events[17], Some(Refusal::Limit)));
    // it is the fail of the second half now, which is called at event 10
    assert_eq!(walk.door(u32::MAX), Ok(&events[10]));
    assert_eq!((walk.net(), walk.stopped()), (10, None));
    assert_eq!(walk.door(0), Ok(&events[10]));
    assert_eq!(walk.forwards().last().as_ref(), events.last());
}

/// What refuses a record or the output writes nothing; whatever else is answered, the bytes behind the record stay.
#[test]
fn untouched_bytes() {
    let (call, redo) = (event(port::CALL, &TRUE, &[], &[]), event(port::REDO, &TRUE, &[], &[]));
    let broken = event(port::CALL, &TRUE, &[], &[unifier(&[(1, variable(1))])]);
    let asked = |program: &[u8], event: &[u8], room: usize| {
        let (mut out, mut taken) = (vec![FILL; room], 99);
        let number = raw::door(program, event, 9, &mut out, &mut taken);
        (number, taken, out)
    };
    let refused = [
        (1, &[][..], &call[..], RECORD_LIMIT),
        (3, &[0, 3, 1, 0, 1], &call, RECORD_LIMIT),
        (11, &NO_DEFINITIONS, &call[1..], RECORD_LIMIT),
        (14, &NO_DEFINITIONS, &broken, RECORD_LIMIT),
        (5, &NO_DEFINITIONS, &call, RECORD_LIMIT - 1),
        (5, &NO_DEFINITIONS, &redo, 0),
    ];
    for (number, program, event, room) in refused {
        assert_eq!(asked(program, event, room), (number, 0, vec![FILL; room]));
    }
    for (number, event) in [(0, &call), (7, &redo)] {
        let (answer, taken, out) = asked(&NO_DEFINITIONS, event, RECORD_LIMIT + 1);
        assert_eq!((answer, taken, record_at(&out)), (number, 0, &event[..]));
        assert!(out[event.len()..].iter().all(|&byte| byte == FILL));
    }
}
