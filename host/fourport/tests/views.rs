//! Views: put together again they are the record, and they say what the desk says.

use fourport::{
    split_record, Ancestor, Bet, Clauses, Event, Goal, GoalKind, GoalView, Half, Names, Naming, Port, Program, Query, Refusal, Term, TermKind,
    TermView, Which,
};
use layout::{
    atom, clause, conjunction, definition, disjunction, equality, event, half, record, symbol, unifier, variable, CONJUNCTION, FAIL, IN_CONJUNCTION,
    IN_DISJUNCTION, TRUE, TRUTH,
};
use std::borrow::Cow;
use std::fs;
use std::path::PathBuf;

struct Garage {
    clauses: Clauses,
    program: Program,
    query: Query,
    names: Names,
}

impl Garage {
    fn read(rules: &[u8], query: &[u8]) -> Garage {
        let clauses = Clauses::from_text(rules).expect("clauses").0;
        let program = clauses.canonical().expect("a program");
        let (query, names) = Query::from_text(rules, query).expect("a query");
        Garage { clauses, program, query, names }
    }

    /// The events of the walk past every answer.
    fn events(&self) -> Vec<Event> {
        let first = Event::first(&self.query.then_fail().expect("a query")).expect("a first event");
        std::iter::once(first.clone()).chain(self.program.walk(first).forwards().take(3_000)).collect()
    }
}

/// The examples, and a garage with an answer of each sort.
fn garages() -> Vec<Garage> {
    let folder = PathBuf::from(env!("CARGO_MANIFEST_DIR")).join("../../examples");
    let file = |name: &str, ending: &str| fs::read(folder.join(format!("{name}.{ending}"))).expect("a file of the examples");
    let examples = ["door-sign", "one-bay", "one-light", "open-bay", "sensor-line", "three-bays"];
    let mut garages: Vec<Garage> = examples.iter().map(|name| Garage::read(&file(name, "pl"), &file(name, "query"))).collect();
    let rules = "p(f(X, Y), Y) :- X = a, (q(Y) ; true, fail ; Y = X). p(_, g(7)) :- (q(_), q(b)) ; q(Z), Z = c. q(a). q(b).";
    garages.push(Garage::read(rules.as_bytes(), b"(p(A, B) ; A = B, q(A)), true"));
    garages
}

fn term_again(term: TermView<'_>) -> Vec<u8> {
    match term.kind() {
        TermKind::Variable(number) => variable(number),
        TermKind::Symbol(number, arguments) => symbol(number, &arguments.map(term_again).collect::<Vec<_>>()),
    }
}

fn goal_again(goal: GoalView<'_>) -> Vec<u8> {
    match goal.kind() {
        GoalKind::True => TRUE.to_vec(),
        GoalKind::Fail => FAIL.to_vec(),
        GoalKind::Equality(left, right) => equality(&term_again(left), &term_again(right)),
        GoalKind::Conjunction(left, right) => conjunction(&goal_again(left), &goal_again(right)),
        GoalKind::Disjunction(left, right) => disjunction(&goal_again(left), &goal_again(right)),
        GoalKind::Atom(predicate, arguments) => atom(predicate, &arguments.map(term_again).collect::<Vec<_>>()),
    }
}

fn ancestor_again(ancestor: Ancestor<'_>) -> Vec<u8> {
    let tag = ancestor.half().map_or(0, |half| if half == Half::First { 1 } else { 2 });
    match ancestor {
        Ancestor::Atom(atom) => goal_again(atom),
        Ancestor::Conjunction { left, right, .. } => half(IN_CONJUNCTION, tag, &goal_again(left), &goal_again(right)),
        Ancestor::Disjunction { left, right, .. } => half(IN_DISJUNCTION, tag, &goal_again(left), &goal_again(right)),
    }
}

fn bet_again(bet: Bet<'_>) -> Vec<u8> {
    match bet {
        Bet::Unifier(pairs) => unifier(&pairs.map(|(bound, term)| (bound, term_again(term))).collect::<Vec<_>>()),
        Bet::Or(half) => layout::or(half as u8),
        Bet::By(goal) => layout::by(&goal_again(goal)),
    }
}

fn port_byte(port: Port) -> u8 {
    match port {
        Port::Call => layout::port::CALL,
        Port::Exit => layout::port::EXIT,
        Port::Fail => layout::port::FAIL,
        Port::Redo => layout::port::REDO,
    }
}

#[test]
fn events_put_together_again() {
    let mut met = [0; 4];
    for here in garages().iter().flat_map(Garage::events) {
        let ancestors: Vec<Vec<u8>> = here.ancestors().map(ancestor_again).collect();
        let bets: Vec<Vec<u8>> = here.bets().map(bet_again).collect();
        assert_eq!(event(port_byte(here.port()), &goal_again(here.goal()), &ancestors, &bets), here.as_bytes(), "{here}");
        assert_eq!((here.ancestors().len(), here.bets().len()), (here.ancestor_count().into(), here.bet_count().into()));
        met[usize::from(port_byte(here.port())) - 1] += 1;
    }
    assert!(met.iter().all(|&count| count > 50), "{met:?}");
}

#[test]
fn rules_put_together_again() {
    for Garage { clauses, program, query, .. } in garages() {
        let again: Vec<Vec<u8>> = clauses
            .iter()
            .map(|one| clause(one.predicate(), one.variable_count(), &one.head().map(term_again).collect::<Vec<_>>(), &goal_again(one.body())))
            .collect();
        assert_eq!(layout::clauses(&again), clauses.as_bytes());
        let again: Vec<Vec<u8>> =
            program.definitions().map(|one| definition(one.predicate(), one.arity(), one.locals(), &goal_again(one.goal()))).collect();
        assert_eq!(layout::program(&again), program.as_bytes());
        assert_eq!(record(&goal_again(query.goal())), query.as_bytes());
    }
}

/// The desk's lookup finds what the views list, and nothing else.
#[test]
fn definitions_by_predicate() {
    for Garage { program, names, .. } in garages() {
        let listed: Vec<_> = program.definitions().collect();
        for number in 0..=names.len() as u16 {
            for arity in (0..=17).chain([255]) {
                let due = listed.iter().find(|one| (one.predicate(), one.arity()) == (number, arity));
                assert_eq!(program.defined(number, arity).as_ref(), due, "{number}/{arity}");
            }
        }
        assert!(listed.iter().all(|one| program.as_bytes()[one.place()] == *one.as_bytes()));
    }
}

/// In an event that a walk reaches, a variable is bound exactly where its value is not itself.
#[test]
fn bound_variables_have_values() {
    let (mut bound, mut free) = (0, 0);
    for here in garages().iter().flat_map(Garage::events) {
        for v in 0..=here.greatest().map_or(0, |(_, greatest)| greatest) {
            let value = here.value(v).expect("a value");
            assert_eq!(here.is_bound(v), value.as_bytes() != variable(v), "V{v} of {here:#}");
            *(if here.is_bound(v) { &mut bound } else { &mut free }) += 1;
        }
    }
    assert!(bound > 1_000 && free > 1_000, "{bound} bound, {free} free");
}

#[test]
fn variables_as_they_occur() {
    let (query, _) = Query::from_text("", "p(X, f(Y, X)), (Y = g(Z) ; true ; q(_)), Z = X").expect("a query");
    assert_eq!(query.goal().variables().collect::<Vec<_>>(), [0, 1, 0, 1, 2, 3, 2, 0]);
    let GoalKind::Conjunction(first, _) = query.goal().kind() else { panic!("{query}") };
    let GoalKind::Atom(_, arguments) = first.kind() else { panic!("{first}") };
    assert_eq!(arguments.map(|term| term.variables().collect()).collect::<Vec<Vec<_>>>(), [vec![0], vec![1, 0]]);
}

/// The exits of Q in the walk of 'Q, fail' are the answers.
#[test]
fn past_every_answer() {
    let mut count = 0;
    for garage in garages() {
        let is_answer = |event: &&Event| event.port() == Port::Exit && event.goal() == garage.query.goal() && event.ancestor_count() == 1;
        let events = garage.events();
        for (answer, exit) in garage.program.answers(&garage.query).with_steps(3_000).filter_map(Result::ok).zip(events.iter().filter(is_answer)) {
            assert!(answer.values.iter().all(|(v, term)| exit.value(*v).as_ref() == Ok(term)), "{answer}");
            count += 1;
        }
    }
    assert!(count > 10, "{count}");
}

/// A query that is as long as 'Q, fail' lets it be, and one that is longer: the desk's list of answers says 10 as well.
#[test]
fn the_longest_query_with_fail() {
    let none = Program::from_bytes(layout::NO_DEFINITIONS).expect("no definitions");
    for (joins, fits) in [(16_381, true), (16_382, false)] {
        let query = Query::from_bytes(record(&[&[CONJUNCTION, TRUTH].repeat(joins)[..], &TRUE].concat())).expect("a query");
        let length = query.as_bytes().len();
        assert_eq!(query.then_fail().map(|query| query.as_bytes().len()), if fits { Ok(length + 2) } else { Err(Refusal::Fit) });
        assert_eq!(none.answers(&query).next(), Some(Err(fourport::Stop::Refused(Refusal::Fit))));
    }
}

/// Left and right, as deep as a record is: nothing recurses.
#[test]
fn deep_goals_and_terms() {
    let right = Query::from_bytes(record(&[&[CONJUNCTION, TRUTH].repeat(16_000)[..], &TRUE].concat())).expect("a query");
    let left = Query::from_bytes(record(&[&[CONJUNCTION].repeat(16_000)[..], &[TRUTH].repeat(16_001)].concat())).expect("a query");
    let depth = |query: &Query, side: fn([GoalView<'static>; 2]) -> GoalView<'static>| {
        let bytes: &'static Goal = Box::leak(Box::new(query.goal().to_goal()));
        let (mut goal, mut depth) = (bytes.view(), 0);
        while let GoalKind::Conjunction(one, other) = goal.kind() {
            goal = side([one, other]);
            depth += 1;
        }
        depth
    };
    assert_eq!((depth(&right, |[_, right]| right), depth(&left, |[left, _]| left)), (16_000, 16_000));
    let term = Term::try_from(layout::nested(8_000, &variable(3))).expect("a term");
    assert_eq!(term.view().variables().collect::<Vec<_>>(), [3]);
    assert_eq!(term.to_string().len(), 8_000 * "n6()".len() + "V3".len());
}

/// Names of one's own, and values in the place of variables.
struct Valued(Term);

impl Naming for Valued {
    fn name(&self, number: u16) -> Cow<'_, str> {
        format!("name{number}").into()
    }

    fn variable(&self, number: u16) -> Cow<'_, str> {
        format!("Var{number}").into()
    }

    fn value(&self, variable: u16) -> Option<&Term> {
        (variable == 0).then_some(&self.0)
    }
}

#[test]
fn shown_with_values() {
    let naming = Valued(Term::try_from(symbol(9, &[variable(0), variable(1)])).expect("a term"));
    let query = Query::from_bytes(record(&equality(&variable(0), &symbol(2, &[variable(1), variable(0)])))).expect("a query");
    assert_eq!(query.shown(&naming).to_string(), "name9(Var0, Var1) = name2(Var1, name9(Var0, Var1))");
    let exit = event(2, &TRUE, &[half(IN_DISJUNCTION, 2, &atom(1, &[variable(0)]), &TRUE)], &[unifier(&[(0, variable(5)), (7, variable(6))])]);
    let exit = Event::from_bytes(exit).expect("an event");
    let text = format!("{:#}", exit.shown(&naming));
    assert_eq!(text, "exit true\n  under 2 of name1(name9(Var0, Var1)) ; true\n  bet Var0 = Var5, Var7 = Var6");
    assert_eq!(format!("{exit:#}"), "exit true\n  under 2 of n1(V0) ; true\n  bet V0 = V5, V7 = V6");
    // variables of clauses are no variables of a walk
    let fact = Clauses::from_bytes(layout::clauses(&[clause(4, 1, &[variable(0)], &TRUE)])).expect("a clause");
    assert_eq!(fact.shown(&naming).to_string(), "name4(V0).");
}

/// The bytes of goals and terms come back as they are, and nothing else passes: not cut short, not with a byte behind them.
#[test]
fn goals_and_terms_from_bytes() {
    let garage = garages().pop().expect("a garage");
    for here in garage.events().iter().step_by(7) {
        let bytes = here.goal().as_bytes();
        assert_eq!(Goal::try_from(bytes).map(Goal::into_bytes), Ok(bytes.to_vec()));
        assert!((0..bytes.len()).all(|length| Goal::try_from(&bytes[..length]).is_err()), "{here}");
        assert!([0, 1, TRUTH, 255].iter().all(|&byte| Goal::try_from([bytes, &[byte]].concat()).is_err()), "{here}");
        for (_, term) in here.bets().filter_map(|bet| if let Bet::Unifier(pairs) = bet { Some(pairs) } else { None }).flatten() {
            let bytes = term.as_bytes();
            assert_eq!(Term::try_from(bytes), Ok(term.to_term()));
            assert!((0..bytes.len()).all(|length| Term::try_from(&bytes[..length]).is_err()), "{term}");
            assert!(Term::try_from([bytes, bytes].concat()).is_err() && Term::try_from([bytes, &[0]].concat()).is_err(), "{term}");
        }
    }
    // V0 and f( behind it: with a constant behind that there would be two terms
    assert_eq!(Term::try_from(vec![1, 0, 0, 2, 0, 6, 1]), Err(Refusal::Grammar(Which::Event)));
    assert_eq!(Term::try_from(vec![0; 40_000]), Err(Refusal::Frame(Which::Event)));
    assert_eq!(Goal::try_from(vec![TRUTH; 65_540]), Err(Refusal::Frame(Which::Event)));
}

#[test]
fn records_by_try_from() {
    let Garage { clauses, program, query, .. } = garages().pop().expect("a garage");
    assert_eq!(Clauses::try_from(clauses.as_bytes()).as_ref(), Ok(&clauses));
    assert_eq!(Program::try_from(program.clone().into_bytes()).as_ref(), Ok(&program));
    assert_eq!(Query::try_from(query.as_bytes()), Ok(query));
    assert_eq!(Event::try_from(program.as_bytes()), Err(Refusal::Grammar(Which::Event)));
}

/// A stream of records, cut at every byte.
#[test]
fn records_of_a_buffer() {
    let Garage { program, query, .. } = garages().pop().expect("a garage");
    let stream = [program.as_bytes(), query.as_bytes(), &[0, 0], &[255, 255]].concat();
    for end in 0..stream.len() {
        let whole = end >= program.as_bytes().len();
        assert_eq!(split_record(&stream[..end]).map(|(first, _)| first), whole.then_some(program.as_bytes()), "{end} bytes");
    }
    let (mut records, mut rest) = (Vec::new(), &stream[..]);
    while let Some((record, behind)) = split_record(rest) {
        records.push(record);
        rest = behind;
    }
    assert_eq!((records, rest), (vec![program.as_bytes(), query.as_bytes(), &[0, 0]], &[255, 255][..]));
}
