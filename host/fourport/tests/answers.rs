//! The answers of a query: their order, what gave them, and each way in which the list ends.

use fourport::{Answer, Answers, Event, Goal, Half, Program, Query, Refusal, Stop, Used, RECORD_LIMIT};
use layout::{
    atom, conjunction, constant, definition, disjunction, equality, nested, program, record, symbol, variable, CONJUNCTION, NO_DEFINITIONS, TRUE,
    TRUTH,
};

const LIGHT: u16 = 5;
const COLOURS: u16 = 10;

fn light(v: u16) -> Vec<u8> {
    atom(LIGHT, &[variable(v)])
}

/// light(V) :- V = 0 ; .. ; V = 9.
fn colours() -> Vec<u8> {
    (0..COLOURS - 1).rev().fold(of(COLOURS - 1), |rest, colour| disjunction(&of(colour), &rest))
}

fn of(colour: u16) -> Vec<u8> {
    equality(&variable(0), &constant(colour))
}

fn garage() -> Program {
    Program::from_bytes(program(&[definition(LIGHT, 1, 0, &colours())])).expect("a program")
}

fn query(goal: &[u8]) -> Query {
    Query::from_bytes(record(goal)).expect("a query")
}

fn values(answer: &Answer) -> Vec<(u16, &[u8])> {
    answer.values.iter().map(|(v, term)| (*v, term.as_bytes())).collect()
}

/// The answers, and the stop behind them.
fn ended(answers: Answers<'_>) -> (Vec<Answer>, Option<Stop>) {
    let (found, stops): (Vec<_>, Vec<_>) = answers.partition(Result::is_ok);
    assert!(stops.len() < 2);
    (found.into_iter().flatten().collect(), stops.into_iter().find_map(Result::err))
}

/// A thousand answers, some 300 KB of them: steps and room have to grow.
#[test]
fn every_answer_in_order() {
    let (garage, asked) = (garage(), query(&conjunction(&light(7), &conjunction(&light(3), &light(4)))));
    let mut answers = garage.answers(&asked);
    for (number, answer) in answers.by_ref().enumerate() {
        let digits = [number / 100, number / 10 % 10, number % 10].map(|digit| constant(digit as u16));
        let [first, second, third] = &digits;
        assert_eq!(values(&answer.expect("an answer")), [(3, &second[..]), (4, third), (7, first)], "answer {number}");
    }
    assert!(answers.is_whole());
    assert_eq!(answers.next(), None);
    let again: Result<Vec<_>, Stop> = garage.answers(&asked).collect();
    assert_eq!(again.map(|all| all.len()), Ok(1_000));
}

/// light(V0) exits by its body, in which the third colour is the first half of the second half of a second half.
#[test]
fn what_gave_an_answer() {
    let (garage, asked) = (garage(), query(&light(0)));
    let third = garage.answers(&asked).nth(2).expect("a third").expect("an answer");
    let branches = [Half::First, Half::Second, Half::Second].map(Used::Branch);
    assert_eq!(third.used[..3], branches);
    let [Used::Body(body)] = &third.used[3..] else { panic!("{:?}", third.used) };
    assert_eq!(body.as_bytes(), colours());
    assert_eq!(<Goal as AsRef<[u8]>>::as_ref(body), body.as_bytes());
    assert_eq!((third.value(0).map(|term| term.as_bytes()), third.value(1)), (Some(&constant(2)[..]), None));
}

/// No variable, one that stays unbound, and two equal answers.
#[test]
fn plain_answers() {
    let none = Program::from_bytes(NO_DEFINITIONS).expect("no definitions");
    let twice = query(&disjunction(&TRUE, &TRUE));
    let (found, stop) = ended(none.answers(&twice));
    assert_eq!((found.len(), stop), (2, None));
    assert_eq!((&found[0].values, &found[0].used), (&vec![], &vec![Used::Branch(Half::First)]));
    assert_eq!((&found[1].values, &found[1].used), (&vec![], &vec![Used::Branch(Half::Second)]));
    let open = query(&equality(&variable(9), &variable(2)));
    let (found, _) = ended(none.answers(&open));
    assert_eq!(found.iter().map(values).collect::<Vec<_>>(), [[(2, &variable(2)[..]), (9, &variable(2))]]);
    let failing = query(&equality(&constant(0), &constant(1)));
    assert_eq!(ended(none.answers(&failing)), (vec![], None));
}

/// The count that ends on an exit gives its answer; the one that ends on the final fail does not know that it is the end.
#[test]
fn steps() {
    let (garage, asked) = (garage(), query(&light(0)));
    let mut whole = garage.answers(&asked);
    assert_eq!(whole.by_ref().count(), 10);
    for (steps, found, stop) in [(0, 0, true), (5, 0, true), (6, 1, true), (whole.taken(), 10, true), (whole.taken() + 1, 10, false)] {
        let mut answers = garage.answers(&asked).with_steps(steps);
        let items: Vec<_> = answers.by_ref().collect();
        assert_eq!(items.iter().filter(|item| item.is_ok()).count(), found, "{steps} steps");
        assert_eq!(items.last() == Some(&Err(Stop::Steps)), stop, "{steps} steps");
        assert_eq!((answers.taken(), answers.is_whole(), answers.next()), (steps.min(whole.taken()), !stop, None));
    }
    let long = query(&(1..8).fold(light(0), |goal, v| conjunction(&light(v), &goal)));
    let mut answers = garage.answers(&long).with_steps(5_000);
    assert_eq!(answers.by_ref().last(), Some(Err(Stop::Steps)));
    assert_eq!(answers.taken(), 5_000);
}

/// nat(0). nat(s(N)) :- nat(N): there is always one more, until no event holds it.
#[test]
fn an_endless_list() {
    let (left, right) = (equality(&variable(0), &constant(0)), equality(&variable(0), &symbol(1, &[variable(1)])));
    let body = disjunction(&left, &conjunction(&right, &atom(LIGHT, &[variable(1)])));
    let numbers = Program::from_bytes(program(&[definition(LIGHT, 1, 1, &body)])).expect("a program");
    let asked = query(&light(0));
    let (found, stop) = ended(numbers.answers(&asked));
    for (n, answer) in found.iter().enumerate() {
        let number = [[2, 0, 1, 1].repeat(n), constant(0)].concat();
        assert_eq!(answer.value(0).map(|term| term.as_bytes()), Some(&number[..]), "number {n}");
    }
    assert_eq!(stop, Some(Stop::Refused(Refusal::Fit)));
    assert!(found.len() > 100 && numbers.answers(&asked).take(100).eq(found.into_iter().take(100).map(Ok)));
}

/// The walk, or an answer, is refused behind the first answer.
#[test]
fn refused_behind_an_answer() {
    let none = Program::from_bytes(NO_DEFINITIONS).expect("no definitions");
    // V1 = f(V2, V2), .., V12 = f(V13, V13): V1 is too long, though no unifier is
    let doubled =
        (1..13).rev().fold(TRUE.to_vec(), |goal, v| conjunction(&equality(&variable(v), &symbol(6, &[variable(v + 1), variable(v + 1)])), &goal));
    let long = disjunction(&TRUE, &doubled);
    let (found, stop) = ended(none.answers(&query(&long)));
    assert_eq!((found.len(), stop), (1, Some(Stop::Refused(Refusal::Value))));
    let one_local = Program::from_bytes(program(&[definition(LIGHT, 1, 1, &equality(&variable(0), &variable(1)))])).expect("a program");
    let (found, stop) = ended(one_local.answers(&query(&disjunction(&TRUE, &light(65_535)))));
    assert_eq!((found.len(), stop), (1, Some(Stop::Refused(Refusal::Locals))));
}

/// Queries that have a first event, and none with fail behind them, or a first event and no next one.
#[test]
fn no_step_fits() {
    let none = Program::from_bytes(NO_DEFINITIONS).expect("no definitions");
    for joins in [16_378, 16_379] {
        let asked = query(&[&[CONJUNCTION, TRUTH].repeat(joins)[..], &TRUE].concat());
        assert!(Event::first(&asked).is_ok());
        let mut answers = none.answers(&asked);
        assert_eq!(answers.next(), Some(Err(Stop::Refused(Refusal::Fit))));
        assert_eq!((answers.taken(), answers.is_whole(), answers.next()), (0, false, None));
    }
}

/// One answer of 68 KB: 17 variables that are one, which then gets a value of 4 KB.
#[test]
fn an_answer_longer_than_a_record() {
    let none = Program::from_bytes(NO_DEFINITIONS).expect("no definitions");
    let value = nested(1_000, &constant(1));
    let rows = [symbol(6, &(1..17).map(variable).collect::<Vec<_>>()), symbol(6, &vec![variable(0); 16])];
    let asked = query(&disjunction(&TRUE, &conjunction(&equality(&rows[0], &rows[1]), &equality(&variable(0), &value))));
    let (found, stop) = ended(none.answers(&asked));
    assert_eq!((found.len(), stop), (2, None));
    assert!(found[1].values.iter().all(|(_, term)| term.as_bytes() == value) && found[1].values.len() == 17);
    for room in [0, RECORD_LIMIT, 60_000, 65_536] {
        assert_eq!(ended(none.answers(&asked).with_room(room)), (found[..1].to_vec(), Some(Stop::Room)), "room {room}");
    }
}

/// Less room gives a front of the list.
#[test]
fn room() {
    let (garage, asked) = (garage(), query(&conjunction(&light(0), &conjunction(&light(1), &light(2)))));
    let (all, stop) = ended(garage.answers(&asked));
    assert_eq!((all.len(), stop), (1_000, None));
    for (room, least) in [(RECORD_LIMIT, 50), (100_000, 200)] {
        let (found, stop) = ended(garage.answers(&asked).with_room(room));
        assert!(stop == Some(Stop::Room) && all.starts_with(&found) && found.len() > least, "room {room}: {stop:?} behind {}", found.len());
    }
}

#[test]
fn other_threads() {
    fn sent<T: Send + Sync>() {}
    sent::<(Answer, Answers<'static>, Stop, Used)>();
}
