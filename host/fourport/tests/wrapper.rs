//! The typed layer: it says what the raw layer says, it holds only records that passed, and it never panics.

use fourport::{raw, Clauses, Counts, Direction, Event, Part, Port, Program, Query, Refusal, Walk, Which, RECORD_LIMIT, STACK};
use layout::{
    atom, by, clause, clauses, equality, event, nested, record, split_record, symbol, variable, CALL_TRUE, CONJUNCTION, NO_DEFINITIONS, TRUE, TRUTH,
};
use std::thread;

const THREE_BAYS: &[u8] = include_bytes!("../../../examples/three-bays.in");

fn three_bays() -> (Program, Event) {
    let (program, query) = split_record(THREE_BAYS);
    let query = Query::from_bytes(query).expect("a query");
    (Program::from_bytes(program).expect("a program"), Event::first(&query).expect("a first event"))
}

/// The query V0 = f(f(..f(V1)..)), that many times.
fn deep_query(times: usize) -> Query {
    Query::from_bytes(record(&equality(&variable(0), &nested(times, &variable(1))))).expect("a query")
}

/// The garage of examples/three-bays.md: the sheet stands at event 119, and a planner steps back across the failed clause.
#[test]
fn a_planner_steps_back() {
    let (program, start) = three_bays();
    let mut walk = program.walk(start.clone());
    assert_eq!(walk.forwards().count(), 119);
    assert_eq!((walk.stopped(), walk.event().port()), (Some(Refusal::Walk), Port::Exit));
    let sheet = walk.event().clone();
    assert_eq!(walk.backs().take(93).count(), 93);
    assert_eq!((walk.net(), walk.stopped()), (26, None));
    assert_eq!(walk.forwards().count(), 93);
    assert_eq!(walk.event(), &sheet);
    assert_eq!(walk.backs().last(), Some(start));
    assert_eq!((walk.net(), walk.stopped()), (0, Some(Refusal::Walk)));
    assert_eq!(walk.backs().next(), None);
}

#[test]
fn steps_runs_and_walks_agree() {
    let (program, start) = three_bays();
    let events: Vec<Event> = program.walk(start.clone()).forwards().collect();
    let mut counts = Counts::default();
    for (i, event) in events.iter().enumerate() {
        let before = if i == 0 { &start } else { &events[i - 1] };
        assert_eq!(program.forward(before).as_ref(), Ok(event));
        assert_eq!(program.back(event).as_ref(), Ok(before));
        let run = program.run(&start, i as u32 + 1, Direction::Forward).expect("a run");
        assert_eq!((&run.event, run.taken, run.stopped), (event, i as u32 + 1, None));
        let run = program.run(event, u32::MAX, Direction::Back).expect("a run");
        assert_eq!((&run.event, run.taken, run.stopped), (&start, i as u32 + 1, Some(Refusal::Walk)));
        counts.add(event).expect("an event that passed");
    }
    assert_eq!(counts.call + counts.exit + counts.fail + counts.redo, 119);
}

#[test]
fn a_definition_is_a_part_of_the_program() {
    let (program, start) = three_bays();
    let definition = program.definition(&start).expect("sheet has one");
    assert_eq!(definition.predicate(), 4);
    assert_eq!(program.as_bytes()[definition.place()].as_ptr(), definition.as_bytes().as_ptr());
    assert_eq!(definition.as_bytes().len(), 4 + definition.goal().as_bytes().len());
    let none = Program::from_bytes(NO_DEFINITIONS).expect("no definitions");
    assert_eq!(none.definition(&start), None);
    let called = program.forward(&start).expect("the body");
    assert_eq!(program.definition(&called), None);
}

/// A record that does not pass is no `Program`, `Event`, `Query` or `Clauses`, and the refusal is the desk's own.
#[test]
fn only_records_that_pass() {
    for length in 0..8 {
        for fill in [0, 1, 0x10, 0x15, 255] {
            for framed in [vec![fill; length], record(&vec![fill; length])] {
                let mut out = vec![0; RECORD_LIMIT];
                let put = |number| Refusal::from_number(number).filter(|refusal| refusal.record().is_some());
                assert_eq!(Clauses::from_bytes(&framed[..]).err(), put(raw::canonical(&framed, &mut out)));
                assert_eq!(Query::from_bytes(&framed[..]).err(), put(raw::first(&framed, &mut out)));
                assert_eq!(Event::from_bytes(&framed[..]).err(), put(raw::forward(&NO_DEFINITIONS, &framed, &mut out)));
                assert_eq!(Program::from_bytes(&framed[..]).err(), put(raw::forward(&framed, &CALL_TRUE, &mut out)));
            }
        }
    }
}

#[test]
fn what_passes_as_a_record_may_still_not_fit() {
    let query = Query::from_bytes(record(&[&[CONJUNCTION, TRUTH].repeat(16_381)[..], &TRUE].concat())).expect("a query of 32,766 bytes");
    assert_eq!(Event::first(&query), Err(Refusal::Fit));
    let head: Vec<Vec<u8>> = (0..16).map(|i| symbol(1, &[i, i + 16, i + 32, i + 48].map(variable))).collect();
    let facts = vec![clause(5, 64, &head, &TRUE); 4];
    let clauses = Clauses::from_bytes(clauses(&facts)).expect("four facts of 64 variables");
    assert_eq!(clauses.canonical(), Err(Refusal::Locals));
}

#[test]
fn numbers_and_words() {
    for number in (1..=14).chain([32]) {
        let refusal = Refusal::from_number(number).expect("a refusal");
        assert_eq!(refusal.number(), number);
        assert!(refusal.to_string().starts_with(&format!("no to question {number}")), "{refusal}");
        assert_eq!(refusal.record(), if number < 5 { Some(Which::Program) } else { (11..=14).contains(&number).then_some(Which::Event) });
    }
    assert_eq!(Refusal::from_number(15).map(Refusal::number), Some(15));
    let error: Box<dyn std::error::Error> = Box::new(Refusal::Fit);
    assert_eq!(error.to_string(), "no to question 10: has the result at most 32,768 bytes, or an answer room in the output?");
}

/// The part of the greatest variable, where each holds it alone, where all do, and where there is none.
#[test]
fn the_part_of_the_greatest_variable() {
    let (held, none) = (atom(6, &[variable(65_535)]), atom(6, &[]));
    let parts = |goal: &[u8], ancestor: &[u8], bet: &[u8]| {
        let record = event(4, goal, &[ancestor.to_vec()], &[by(&TRUE), by(bet)]);
        Event::from_bytes(record).expect("an event").greatest()
    };
    assert_eq!(parts(&none, &none, &none), None);
    assert_eq!(parts(&none, &none, &held), Some((Part::Bets, 65_535)));
    assert_eq!(parts(&held, &none, &none), Some((Part::Goal, 65_535)));
    assert_eq!(parts(&none, &held, &none), Some((Part::Ancestors, 65_535)));
    assert_eq!(parts(&held, &held, &none), Some((Part::Goal, 65_535)));
    assert_eq!(parts(&held, &held, &held), Some((Part::Bets, 65_535)));
}

/// The deepest terms that records and values hold, on a thread of `STACK` bytes.
#[test]
fn deep_terms() {
    let deep = || {
        let program = Program::from_bytes(NO_DEFINITIONS).expect("no definitions");
        let start = Event::first(&deep_query(8_188)).expect("a first event");
        assert_eq!(program.forward(&start), Err(Refusal::Value));
        let start = Event::first(&deep_query(2_047)).expect("a first event");
        let next = program.forward(&start).expect("the exit");
        assert_eq!(next.value(0).expect("a value").as_bytes(), &start.as_bytes()[8..8 + 8_191]);
        assert_eq!(program.back(&next), Ok(start));
    };
    thread::Builder::new().stack_size(STACK).spawn(deep).expect("a thread").join().expect("no failure");
}

/// Everything may be sent to another thread and used there.
#[test]
fn other_threads() {
    fn sent<T: Send + Sync>() {}
    sent::<(Clauses, Program, Query, Event, Counts, Refusal, Walk<'static>)>();
    let (program, start) = three_bays();
    thread::scope(|scope| {
        for _ in 0..4 {
            scope.spawn(|| assert_eq!(program.walk(start.clone()).forwards().count(), 119));
        }
    });
}
