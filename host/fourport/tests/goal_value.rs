//! The goal of an event with its values: part by part it is what the desk says of each variable, and its limits are kept.

use fourport::{without_comments, Clauses, Event, GoalKind, GoalView, Query, Refusal, TermKind, TermView, RECORD_LIMIT};
use layout::{atom, conjunction, constant, disjunction, equality, symbol, unifier, variable, FAIL, TRUE};

const GARAGES: [(&str, &str); 3] = [
    (include_str!("../../../examples/three-bays.pl"), include_str!("../../../examples/three-bays.query")),
    (include_str!("../../../examples/riverside.pl"), "light(Bay, Light) ; Bay = f(Light, X), X = Y, Y = Z"),
    ("pair(f(A, B), A, B). twin(T) :- pair(T, X, X).", "twin(T), pair(T, Left, Right), (Left = a ; Right = g(b, Left)), T = T"),
];

const NAME: u16 = 6;

fn events(rules: &str, query: &str) -> Vec<Event> {
    let rules = without_comments(rules.as_bytes());
    let program = Clauses::from_text(&rules).expect("clauses").0.canonical().expect("a program");
    let query = Query::from_text(&rules, query).expect("a query").0.then_fail().expect("a query with fail");
    let first = Event::first(&query).expect("a first event");
    std::iter::once(first.clone()).chain(program.walk(first).forwards().take(2_000)).collect()
}

fn term_of(event: &Event, term: TermView<'_>) -> Vec<u8> {
    match term.kind() {
        TermKind::Variable(v) => event.value(v).expect("a value").into_bytes(),
        TermKind::Symbol(name, arguments) => symbol(name, &arguments.map(|term| term_of(event, term)).collect::<Vec<_>>()),
    }
}

fn goal_of(event: &Event, goal: GoalView<'_>) -> Vec<u8> {
    match goal.kind() {
        GoalKind::True => TRUE.to_vec(),
        GoalKind::Fail => FAIL.to_vec(),
        GoalKind::Equality(left, right) => equality(&term_of(event, left), &term_of(event, right)),
        GoalKind::Conjunction(left, right) => conjunction(&goal_of(event, left), &goal_of(event, right)),
        GoalKind::Disjunction(left, right) => disjunction(&goal_of(event, left), &goal_of(event, right)),
        GoalKind::Atom(predicate, arguments) => atom(predicate, &arguments.map(|term| term_of(event, term)).collect::<Vec<_>>()),
    }
}

#[test]
fn values_part_by_part() {
    for (rules, query) in GARAGES {
        let (mut changed, mut same) = (0, 0);
        for event in events(rules, query) {
            let value = event.goal_value().expect("a goal");
            assert_eq!(value.as_bytes(), goal_of(&event, event.goal()), "{event}");
            *(if value.view() == event.goal() { &mut same } else { &mut changed }) += 1;
        }
        assert!(changed > 20 && same > 5, "{query}: {changed} changed, {same} the same");
    }
}

/// The goal calls p(V0, .., V0, c..), with V0 bound to a term of so many bytes.
fn call(length: usize, places: usize, constants: usize) -> Event {
    let term = [&[layout::SYMBOL, 0, 6, 1].repeat((length - 4) / 4), &constant(NAME)[..]].concat();
    assert_eq!(term.len(), length);
    let arguments = [vec![variable(0); places], vec![constant(NAME); constants]].concat();
    let event = layout::event(layout::port::CALL, &atom(NAME, &arguments), &[], &[unifier(&[(0, term)])]);
    Event::from_bytes(event).expect("an event")
}

/// On both sides of the limit, to the next length that there is.
#[test]
fn the_longest_goal() {
    let longest = call(8_188, 4, 3).goal_value().expect("a goal");
    assert_eq!(longest.as_bytes().len(), RECORD_LIMIT);
    assert_eq!(call(8_188, 4, 4).goal_value(), Err(Refusal::Fit));
    assert_eq!(call(8_192, 16, 0).goal_value(), Err(Refusal::Fit));
    assert_eq!(call(8_192, 3, 0).goal_value().map(|goal| goal.as_bytes().len()), Ok(4 + 3 * 8_192));
    assert_eq!(call(8_196, 1, 0).goal_value(), Err(Refusal::Value));
}

/// Each variable has a term with the next one twice: the last value that is short enough, and the first that is not. Nothing is written out before it
/// is refused.
#[test]
fn values_that_double() {
    let text = (0..60).map(|n| format!("X{n} = f(X{}, X{})", n + 1, n + 1)).collect::<Vec<_>>().join(", ");
    let lengths = |asked: u16| {
        let query = Query::from_text("", format!("{text}, p(X{asked})")).expect("a query").0;
        let program = Clauses::from_text("").expect("no clauses").0.canonical().expect("a program");
        let mut walk = program.walk(Event::first(&query).expect("a first event"));
        assert_eq!(walk.forward_until(10_000, |event| matches!(event.goal().kind(), GoalKind::Atom(..))), Ok(true));
        walk.event().goal_value().map(|goal| goal.as_bytes().len())
    };
    // a value that doubles ten times has 2^10 variables and 2^10 - 1 symbols
    assert_eq!(lengths(50), Ok(4 + 1_024 * 3 + 1_023 * 4));
    assert_eq!(lengths(49), Err(Refusal::Value));
    assert_eq!(lengths(0), Err(Refusal::Value));
}
