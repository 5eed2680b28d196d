//! Back to the door of an event (SPECIFICATION 8.13): walks counted by hand, each number, and both sides of the limit.

use layout::*;
use port::{CALL, EXIT, FAIL as FAILED, REDO};
use twin::door::door;
use twin::gate::RECORD_LIMIT as ROOM;
use twin::services::{first, forward, RunReply};

const P: u16 = 5;

fn gives(number: u8, steps: u32, event: &[u8]) -> RunReply {
    RunReply { number, steps, bytes: event.to_vec() }
}

fn asked(program: &[u8], event: &[u8], limit: u32) -> RunReply {
    door(program, event, limit, ROOM)
}

/// The events of a query's walk, so many at most.
fn walk(program: &[u8], goal: &[u8], most: usize) -> Vec<Vec<u8>> {
    let next = |event: &Vec<u8>| Some(forward(program, event, ROOM)).filter(|reply| reply.number == 0).map(|reply| reply.bytes);
    std::iter::successors(Some(first(&record(goal), ROOM).bytes), next).take(most).collect()
}

/// Each event of the walk has its door at that place: no step less is enough, and none more is made.
fn doors(program: &[u8], goal: &[u8], places: &[usize]) {
    let events = walk(program, goal, places.len() + 1);
    assert_eq!(events.len(), places.len());
    for (here, (event, &place)) in events.iter().zip(places).enumerate() {
        let steps = (here - place) as u32;
        for limit in [steps, steps + 1, u32::MAX] {
            assert_eq!(asked(program, event, limit), gives(0, steps, &events[place]), "event {here}, limit {limit}");
        }
        for limit in 0..steps {
            assert_eq!(asked(program, event, limit), gives(32, limit, &events[here - limit as usize]), "event {here}, limit {limit}");
        }
    }
}

/// p(V) :- V=a ; V=b. The query is p(V), fail: exits and redos of p(V) have its one call, each half its own, and fail is called twice.
#[test]
fn two_answers() {
    let half = |n| equality(&variable(0), &constant(n));
    let program = program(&[definition(P, 1, 0, &disjunction(&half(2), &half(3)))]);
    let places = [0, 1, 2, 3, 3, 2, 1, 7, 7, 1, 2, 3, 3, 13, 13, 2, 1, 17, 17, 1, 2, 13, 13, 2, 1, 0];
    doors(&program, &conjunction(&atom(P, &[variable(0)]), &FAIL), &places);
}

/// (A, A), fail and (A ; A), fail with true for A: both calls of A have one goal and, but for the tag, one ancestor.
#[test]
fn the_tag_counts() {
    let both = conjunction(&TRUE, &TRUE);
    // events 12 and 13 are redo and fail of the first half, and the second is called at 4
    doors(&NO_DEFINITIONS, &conjunction(&both, &FAIL), &[0, 1, 2, 2, 4, 4, 1, 7, 7, 1, 4, 4, 2, 2, 1, 0]);
    let either = disjunction(&TRUE, &TRUE);
    doors(&NO_DEFINITIONS, &conjunction(&either, &FAIL), &[0, 1, 2, 2, 1, 5, 5, 1, 2, 2, 10, 10, 1, 13, 13, 1, 10, 10, 1, 0]);
}

/// p :- true ; p. A call of p deeper down is no door of one further up.
#[test]
fn the_goal_again_deeper_down() {
    let body = disjunction(&TRUE, &atom(P, &[]));
    let program = program(&[definition(P, 0, 0, &body)]);
    let events = walk(&program, &conjunction(&atom(P, &[]), &FAIL), 21);
    // p exits at 6; asked again it calls p at 13, which exits at 18; p itself exits at 20
    for (here, place) in [(6, 1), (18, 13), (20, 1)] {
        assert_eq!(asked(&program, &events[here], u32::MAX), gives(0, (here - place) as u32, &events[place]));
    }
}

/// Events that no walk reaches, whatever the limit: each question of the step back comes before 32.
#[test]
fn no_door() {
    let body = equality(&variable(0), &variable(1));
    let program = program(&[definition(P, 1, 1, &body)]);
    let p = |v| atom(P, &[variable(v)]);
    // with it fail p(V0) fills a record, and fail of the body under p(V0) would have seven bytes more
    let filling = by(&equality(&variable(0), &nested(8_186, &constant(2))));
    let long = equality(&variable(0), &nested(2_048, &constant(2)));
    let refused = [
        (7, event(REDO, &TRUE, &[], &[])),
        (7, event(EXIT, &p(0), &[], &[or(1)])),
        (8, event(FAILED, &long, &[], &[])),
        (8, event(EXIT, &long, &[], &[unifier(&[])])),
        (9, event(FAILED, &p(65_535), &[], &[])),
        (10, event(FAILED, &p(0), &[], &[filling])),
    ];
    for (number, event) in refused {
        for limit in [0, 1, u32::MAX] {
            assert_eq!(asked(&program, &event, limit), gives(number, 0, &event));
        }
    }
}

/// exit p with BY true, which is no body of p: two steps back the call of true under p has no event before it.
#[test]
fn no_door_behind_steps() {
    let program = program(&[definition(P, 0, 0, &FAIL)]);
    let p = atom(P, &[]);
    let below = event(CALL, &TRUE, std::slice::from_ref(&p), &[]);
    let exits = [event(EXIT, &p, &[], &[by(&TRUE)]), event(EXIT, &TRUE, std::slice::from_ref(&p), &[]), below.clone()];
    for (limit, number) in [(0, 32), (1, 32), (2, 7), (3, 7), (u32::MAX, 7)] {
        let steps = limit.min(2);
        assert_eq!(asked(&program, &exits[0], limit), gives(number, steps, &exits[steps as usize]), "limit {limit}");
    }
    // the call itself, with whatever it is under, is its own door
    assert_eq!(asked(&program, &below, 0), gives(0, 0, &below));
}

/// Each question of the records and the output, and their order; nothing is written.
#[test]
fn refusals() {
    let (good, call) = (program(&[]), event(CALL, &TRUE, &[], &[]));
    let programs = [vec![], vec![0, 3, 2, 0, 0], vec![0, 3, 1, 0, 1], program(&[definition(P, 0, 0, &atom(P, &[variable(0)]))])];
    let events = [vec![0], vec![0, 2, 2, CALL], vec![0, 2, 1, CALL], event(CALL, &TRUE, &[], &[unifier(&[(1, variable(1))])])];
    for (number, refused) in programs.iter().enumerate() {
        assert_eq!(door(refused, &[], 9, 0), gives(number as u8 + 1, 0, &[]));
    }
    for (number, refused) in events.iter().enumerate() {
        assert_eq!(door(&good, refused, 9, 0), gives(number as u8 + 11, 0, &[]));
    }
    assert_eq!(door(&good, &call, 9, ROOM - 1), gives(5, 0, &[]));
    assert_eq!(door(&good, &event(REDO, &TRUE, &[], &[]), 9, ROOM - 1), gives(5, 0, &[]));
    assert_eq!(door(&good, &call, 0, ROOM), gives(0, 0, &call));
}
