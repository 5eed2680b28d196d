//! Ways of many steps: runs, ways to an event that is looked for, the way back to where a variable was bound.

use fourport::{Clauses, Direction, Event, GoalKind, Port, Program, Query, Refusal, Walk};
use std::thread;

const RULES: &str = include_str!("../../../examples/three-bays.pl");
const QUERY: &str = include_str!("../../../examples/three-bays.query");

fn garage() -> (Program, Event) {
    let program = Clauses::from_text(RULES).expect("clauses").0.canonical().expect("a program");
    let query = Query::from_text(RULES, QUERY).expect("a query").0.then_fail().expect("a query with fail");
    (program, Event::first(&query).expect("a first event"))
}

/// The whole walk past every answer, to its fail.
fn events() -> (Program, Vec<Event>) {
    let (program, first) = garage();
    let events: Vec<Event> = std::iter::once(first.clone()).chain(program.walk(first).forwards()).collect();
    assert_eq!(events.last().map(Event::port), Some(Port::Fail));
    (program, events)
}

/// A walk that stands at the event with that number, counted from the first.
fn standing<'p>(program: &'p Program, events: &[Event], here: usize) -> Walk<'p> {
    let mut walk = program.walk(events[0].clone());
    assert_eq!(walk.run(here as u32, Direction::Forward), Ok(here as u32));
    assert_eq!((walk.event(), walk.net()), (&events[here], here as i64));
    walk
}

/// Every bound variable of every event: the way leads to the exit of an equality, with the variable bound there and ever since, and unbound before.
#[test]
fn back_to_where_a_variable_was_bound() {
    let (program, events) = events();
    let mut found = 0;
    for (here, event) in events.iter().enumerate() {
        for v in 0..=event.greatest().map_or(0, |(_, greatest)| greatest) {
            let mut walk = standing(&program, &events, here);
            let told = walk.back_to_binding(v);
            let place = usize::try_from(walk.net()).expect("an event of the walk");
            assert_eq!((told, walk.event()), (Ok(event.is_bound(v)), &events[place]), "V{v} of event {here}");
            if !event.is_bound(v) {
                assert_eq!(place, here, "V{v} is not bound in event {here}");
                continue;
            }
            assert!(walk.event().port() == Port::Exit && matches!(walk.event().goal().kind(), GoalKind::Equality(..)), "{}", walk.event());
            assert!(events[place..=here].iter().all(|event| event.is_bound(v)), "V{v} of event {here}, bound at {place}");
            assert!(!program.back(walk.event()).expect("a step back").is_bound(v), "V{v} of event {here}, bound at {place}");
            found += 1;
        }
    }
    assert!(found > 1_000, "{found}");
}

/// An event with a unifier that no walk reaches: there is nothing before it.
#[test]
fn bound_from_the_start() {
    let none = Program::from_bytes(layout::NO_DEFINITIONS).expect("no definitions");
    let call = layout::event(layout::port::CALL, &layout::TRUE, &[], &[layout::unifier(&[(3, layout::constant(1))])]);
    let mut walk = none.walk(Event::from_bytes(call).expect("an event"));
    let before = walk.event().clone();
    assert_eq!(walk.back_to_binding(3), Err(Refusal::Match));
    assert_eq!((walk.event(), walk.net(), walk.stopped()), (&before, 0, Some(Refusal::Match)));
    assert_eq!(walk.back_to_binding(4), Ok(false));
}

#[test]
fn ways_to_an_event() {
    let (program, events) = events();
    let is_redo = |event: &Event| event.port() == Port::Redo;
    for here in 0..events.len() {
        let mut walk = standing(&program, &events, here);
        let ahead = (here + 1..events.len()).find(|&i| is_redo(&events[i]));
        assert_eq!(walk.forward_until(u64::MAX, is_redo), ahead.map(|_| true).ok_or(Refusal::Walk));
        assert_eq!(walk.event(), &events[ahead.unwrap_or(events.len() - 1)]);
        let mut walk = standing(&program, &events, here);
        let behind = (0..here).rev().find(|&i| is_redo(&events[i]));
        assert_eq!(walk.back_until(u64::MAX, is_redo), behind.map(|_| true).ok_or(Refusal::Walk));
        assert_eq!((walk.event(), walk.net()), (&events[behind.unwrap_or(0)], behind.unwrap_or(0) as i64));
    }
}

/// The limit on both sides of what is needed; the event where one stands is not looked at, and no event twice.
#[test]
fn limits_of_a_way() {
    let (program, events) = events();
    let next = (1..).find(|&i| events[i].port() == Port::Exit).expect("an exit");
    for (limit, found) in [(0, false), (1, false), (next - 1, false), (next, true), (next + 1, true)] {
        let (mut walk, mut looked) = (program.walk(events[0].clone()), Vec::new());
        let met = |event: &Event| {
            looked.push(event.clone());
            event.port() == Port::Exit
        };
        assert_eq!(walk.forward_until(limit as u64, met), Ok(found), "limit {limit}");
        assert_eq!((walk.net(), walk.stopped(), &looked[..]), (limit.min(next) as i64, None, &events[1..=limit.min(next)]));
    }
    // back from there, event 0 is the only one without ancestors
    for (limit, found) in [(0, false), (next - 1, false), (next, true), (next + 1, true)] {
        let mut walk = standing(&program, &events, next);
        assert_eq!(walk.back_until(limit as u64, |event| event.ancestor_count() == 0), Ok(found), "limit {limit}");
        assert_eq!((walk.net(), walk.stopped()), ((next - limit.min(next)) as i64, None));
    }
}

#[test]
fn runs_of_a_walk() {
    let (program, events) = events();
    let last = events.len() - 1;
    let mut walk = program.walk(events[0].clone());
    assert_eq!(walk.run(u32::MAX, Direction::Forward), Ok(last as u32));
    assert_eq!((walk.event(), walk.net(), walk.stopped()), (&events[last], last as i64, Some(Refusal::Walk)));
    assert_eq!((walk.run(0, Direction::Back), walk.stopped()), (Ok(0), None));
    assert_eq!((walk.run(40, Direction::Back), walk.event()), (Ok(40), &events[last - 40]));
    assert_eq!((walk.run(7, Direction::Forward), walk.event(), walk.net()), (Ok(7), &events[last - 33], last as i64 - 33));
    assert_eq!((walk.run(u32::MAX, Direction::Back), walk.event(), walk.net()), (Ok(last as u32 - 33), &events[0], 0));
}

/// A walk of its own goes where the borrowed one goes, on another thread too.
#[test]
fn an_owned_walk() {
    let (program, first) = garage();
    let due: Vec<Event> = program.walk(first.clone()).forwards().collect();
    let mut walk: Walk<'static> = program.into_walk(first);
    let mut other = walk.clone();
    assert_eq!(thread::spawn(move || other.forwards().collect::<Vec<_>>()).join().expect("no failure"), due);
    assert_eq!((walk.net(), walk.forwards().last().as_ref()), (0, due.last()));
}

/// A walk that is told where to stand goes on from there as one that is made there, and counts from there.
#[test]
fn standing_elsewhere() {
    let (program, events) = events();
    let mut walk = program.clone().into_walk(events[0].clone());
    assert_eq!(walk.program(), &program);
    for (here, event) in events.iter().enumerate().rev() {
        let left = walk.event().clone();
        assert_eq!(walk.stand_at(event.clone()), left);
        assert_eq!((walk.event(), walk.net(), walk.stopped()), (event, 0, None));
        let ahead = (events.len() - 1 - here) as u32;
        assert_eq!(walk.run(u32::MAX, Direction::Forward), Ok(ahead), "event {here}");
        assert_eq!((walk.event(), walk.net(), walk.stopped()), (&events[events.len() - 1], ahead.into(), Some(Refusal::Walk)));
    }
}
