//! `desk walk`: each line against the library's own walk of 'Q, fail'.

mod common;
#[path = "common/dice.rs"]
mod dice;
#[path = "common/examples.rs"]
mod examples;
#[path = "common/generated.rs"]
mod generated;
#[path = "common/library.rs"]
mod library;
#[path = "common/told_walk.rs"]
mod told_walk;

use common::{desk, written};
use dice::Dice;
use examples::examples;
use fourport::{Port, Refusal};
use generated::Generated;
use library::answers;
use std::fs;
use told_walk::{Expected, ToldWalk};

const GENERATED: usize = 200;
const MOST_EVENTS: usize = 1_000;
/// The deepest rule for which a line stands further to the right.
const MOST_DEPTH: usize = 20;

/// A line about an event: number, depth, port, and what stands behind.
#[derive(Clone, Debug, PartialEq)]
struct Line {
    number: usize,
    depth: usize,
    port: String,
    rest: String,
}

fn line(text: &str) -> Line {
    let (number, rest) = text.trim_start().split_once(' ').expect("a number");
    let goal = rest.trim_start_matches(' ');
    let (port, behind) = goal.split_at(4);
    Line {
        number: number.parse().expect("a number"),
        depth: (rest.len() - goal.len()) / 2,
        port: port.into(),
        rest: behind.strip_prefix(' ').expect("a goal").into(),
    }
}

/// The lines about events, and the last line.
fn lines(out: &str) -> (Vec<Line>, String) {
    let mut all: Vec<&str> = out.lines().collect();
    let last = all.pop().expect("a last line").into();
    (all.into_iter().map(line).collect(), last)
}

fn hold(line: &Line, number: usize, expected: &Expected) {
    let Expected { port, depth, goal, place, binds, .. } = expected;
    assert_eq!((line.number, line.port.as_str(), line.depth), (number, port.to_string().as_str(), (*depth).min(MOST_DEPTH)), "{line:?}");
    let behind = line.rest.strip_prefix(goal.as_str()).unwrap_or_else(|| panic!("{goal} is not in {line:?}"));
    if let Some(place) = place {
        let behind = behind.trim_start().strip_prefix(place.as_str()).unwrap_or_else(|| panic!("{place} is not in {line:?}"));
        assert!(behind.is_empty() || behind.starts_with("  "), "{line:?}");
        assert_eq!(binds.as_deref().unwrap_or_default(), if behind.contains("binds") { behind.trim_start() } else { "" }, "{line:?}");
        assert_eq!(behind.contains("an answer"), expected.is_answer, "{line:?}");
    }
}

/// The walk of a query to its end, or to an event, is printed as the library walks it; gives the events.
fn held(path: &str, rules: &str, query: &str, argument: &str, asked: &str) -> Vec<Expected> {
    let file = path.rsplit('/').next().expect("a name");
    let walk = ToldWalk::new(rules, query, file, asked);
    let (events, refusal) = walk.events(MOST_EVENTS);
    let told = desk(&["walk", path, argument, "--all", "--to", &MOST_EVENTS.to_string()]);
    assert!(!told.err.contains("error: "), "{}", told.err);
    let (found, last) = lines(&told.out);
    assert_eq!(found.len(), events.len(), "{query} in {rules}");
    found.iter().zip(0..).zip(&events).for_each(|((line, number), expected)| hold(line, number, expected));
    if refusal == Some(Refusal::Walk) {
        let words = if events.iter().any(|event| event.is_answer) { "there is no other answer" } else { "there is no answer" };
        assert!(last.contains("(number 6)") && last.ends_with(words), "{last}");
    }
    // up to the first answer the numbers are those of the query's own walk
    let own = walk.own_ports(MOST_EVENTS);
    assert_eq!(own, events.iter().take(own.len()).map(|event| event.port).collect::<Vec<Port>>());
    if own.len() < MOST_EVENTS && own.last() == Some(&Port::Exit) {
        assert!(events[own.len() - 1].is_answer);
        let (first, last) = lines(&desk(&["walk", path, argument]).out);
        assert_eq!(first, found[..own.len()]);
        assert!(last.contains(&format!("an answer at event {}", own.len() - 1)), "{last}");
    }
    events
}

#[test]
fn the_examples() {
    for (rules, query) in examples() {
        let (text, goal) = (fs::read_to_string(&rules).expect("rules"), fs::read_to_string(&query).expect("a query"));
        let asked = query.rsplit('/').next().expect("a name");
        let events = held(&rules, &text, goal.trim(), &format!("@{query}"), asked);
        let found = events.iter().filter(|event| event.is_answer).count();
        assert_eq!(found, answers(&text, goal.trim(), 10_000).answers.len());
    }
}

#[test]
fn generated_garages() {
    let (mut dice, mut answered) = (Dice::new(21), 0);
    for i in 0..GENERATED {
        let garage = Generated::new(&mut dice);
        let rules = garage.clauses.join("\n") + "\n";
        let path = written(&format!("walk/generated-{}.pl", i % 8), &rules);
        let events = held(&path, &rules, &garage.query, &garage.query, "query");
        answered += usize::from(events.iter().any(|event| event.is_answer));
    }
    assert!(answered > GENERATED / 3, "{answered}");
}

const WAYS: &str = "next(a, b).\nnext(b, c).\nway(X, X).\nway(X, Y) :- next(X, Z), way(Z, Y).\nready.\n";

/// The lines of the whole walk that pass, and what the program prints when asked for these alone.
fn shown_alone(arguments: &[&str], passes: impl Fn(&Line, &Expected) -> bool) {
    let (path, query) = (written("walk/ways.pl", WAYS), "ready, way(a, Where)");
    let (events, _) = ToldWalk::new(WAYS, query, "ways.pl", "query").events(MOST_EVENTS);
    let (all, _) = lines(&desk(&["walk", &path, query, "--all"]).out);
    let wanted: Vec<Line> = all.into_iter().zip(&events).filter(|(line, event)| passes(line, event)).map(|(line, _)| line).collect();
    let told = desk(&[&["walk", &path, query, "--all"], arguments].concat());
    assert_eq!(lines(&told.out).0, wanted, "{arguments:?}");
    assert_eq!((told.status, wanted.is_empty()), (0, false), "{arguments:?}");
}

#[test]
fn parts_of_a_walk() {
    shown_alone(&["--from", "30"], |line, _| line.number >= 30);
    shown_alone(&["--to", "17"], |line, _| line.number <= 17);
    shown_alone(&["--from", "17", "--to", "17"], |line, _| line.number == 17);
    shown_alone(&["--ports", "exit"], |line, _| line.port == "exit");
    shown_alone(&["--ports", "redo,call", "--to", "99"], |line, _| (line.port == "redo" || line.port == "call") && line.number <= 99);
    shown_alone(&["--spy", "way/2"], |_, event| event.predicate.as_deref() == Some("way/2"));
    shown_alone(&["--spy", "way"], |_, event| event.predicate.as_deref() == Some("way/2"));
    shown_alone(&["--spy", "next/2", "--spy", "ready/0"], |_, event| event.predicate.as_deref().is_some_and(|name| name != "way/2"));
    shown_alone(&["--spy", "next/2", "--ports", "fail", "--from", "20"], |line, event| {
        event.predicate.as_deref() == Some("next/2") && line.port == "fail" && line.number >= 20
    });
}

/// What is typed is an atom or an equality of the text; of WAYS all bodies are made of atoms.
#[test]
fn goals_alone() {
    shown_alone(&["--goals"], |_, event| event.predicate.is_some());
    let path = written("walk/goals.pl", "p(X) :- (X = a ; q), true.\nq.\n");
    let told = desk(&["walk", &path, "p(X), fail", "--all", "--goals"]);
    let goals: Vec<String> =
        lines(&told.out).0.iter().map(|line| format!("{} {}", line.port, line.rest.split("  ").next().expect("a goal"))).collect();
    let once = |goal: &str| goals.iter().filter(|shown| *shown == goal).count();
    assert_eq!((once("call X = a"), once("call q"), once("call true"), once("call p(X)"), once("fail p(X)"), once("call fail")), (1, 1, 2, 1, 1, 2));
    assert!(goals.iter().all(|goal| !goal.contains("clause") && !goal.contains("argument") && !goal.contains(';') && !goal.contains(", ")));
}

/// A predicate that nothing names is refused, and one that a goal alone names is not.
#[test]
fn predicates_to_spy_on() {
    let path = written("walk/spied.pl", "p(X) :- missing(X).\n");
    let told = |spied: &str| desk(&["walk", &path, "p(a)", "--spy", spied]);
    assert_eq!((told("missing/1").status, told("missing").status), (1, 1));
    assert_eq!((told("p/2").status, told("a").status, told("nowhere/1").status, told("p/x").status), (2, 2, 2, 2));
    assert!(told("p/2").err.contains("there is p/1") && told("mising/1").err.contains("error: "), "{}", told("p/2").err);
}

#[test]
fn last_lines_and_statuses() {
    let path = written("walk/endings.pl", format!("{WAYS}ring :- ring.\n"));
    let ended = |arguments: &[&str]| {
        let told = desk(&[&["walk", &path], arguments].concat());
        (lines(&told.out).1, told.status)
    };
    let (last, status) = ended(&["way(a, b)"]);
    assert!(last.starts_with("an answer at event ") && last.contains("--all"), "{last}");
    assert_eq!(status, 0);
    assert_eq!(ended(&["way(a, b)", "--ports", "call"]).0, last);
    assert_eq!(ended(&["way(a, b)", "--from", "5000"]).0, format!("nothing is shown of event 5,000 and on: {last}"));

    let (last, status) = ended(&["way(a, b)", "--all"]);
    assert!(last.contains("(number 6)") && last.contains("no other answer"), "{last}");
    assert_eq!(status, 0);
    // without any answer the status is 1, whatever is shown
    for arguments in [&["way(c, a)"][..], &["way(c, a)", "--all"], &["way(c, a)", "--ports", "exit"], &["way(c, a)", "--all", "--from", "5000"]] {
        let (last, status) = ended(arguments);
        assert!(last.contains("(number 6)"), "{last}");
        assert_eq!(status, 1, "{arguments:?}");
    }
    // an answer counts that comes before the first event shown
    assert_eq!(ended(&["way(a, b)", "--all", "--from", "5000"]).1, 0);
    let (last, status) = ended(&["way(a, b)", "--to", "4"]);
    assert!(last.contains("event 4") && last.contains("--to"), "{last}");
    assert_eq!(status, 0);

    let (last, status) = ended(&["ring"]);
    assert!(last.contains("(number 10)"), "{last}");
    assert_eq!(status, 3);
    let beyond = (format!("nothing is shown of event 100,000 and on: {last}"), status);
    assert_eq!(ended(&["ring", "--from", "100000"]), beyond);
    assert_eq!(ended(&["ring", "--all", "--from", "100000", "--to", "200000"]), beyond);
}

/// A clause over several lines, a query in a file with lines of its own: each goal has its own line.
#[test]
fn goals_over_several_lines() {
    let rules = written("walk/lines.pl", "% lights\np(X,\n  Y) :-\n  q(X) , % first\n\n  (Y = a\n  ;\n  Y = b).\nq(c).\n");
    let query = written("walk/lines.query", "true,\n\n p(A, B) % asked\n");
    let (found, _) = lines(&desk(&["walk", &rules, &format!("@{query}")]).out);
    let place = |port: &str, goal: &str| {
        let line =
            found.iter().find(|line| line.port == port && line.rest.starts_with(goal)).unwrap_or_else(|| panic!("no {port} {goal} in {found:?}"));
        line.rest.split_whitespace().find(|word| word.starts_with("lines.")).expect("a place").to_string()
    };
    assert_eq!(place("call", "true"), "lines.query:1");
    assert_eq!(place("call", "p(A, B)"), "lines.query:3");
    assert_eq!(place("call", "clause 1 of p/2"), "lines.pl:2");
    assert_eq!(place("call", "argument 1: A = X_"), "lines.pl:2");
    assert_eq!(place("call", "argument 2: B = Y_"), "lines.pl:3");
    assert_eq!(place("call", "q(A)"), "lines.pl:4");
    assert_eq!(place("call", "argument 1: A = c"), "lines.pl:9");
    assert_eq!(place("call", "B = a ; B = b"), "lines.pl:6");
    assert_eq!(place("call", "B = a "), "lines.pl:6");
}

/// Where a variable of the query looks like a local's name, both can still be told apart.
#[test]
fn names_that_clash() {
    let rules = written("walk/clash.pl", "p(X) :- X = f(Y), q(Y).\nq(_).\n");
    let told = desk(&["walk", &rules, "p(X_2)"]);
    let (found, _) = lines(&told.out);
    let bound = found.iter().find(|line| line.rest.contains("= f(")).expect("the equality");
    assert!(bound.rest.contains("X_2 = f(Y__2)"), "{bound:?}");
}

/// An answer whose value is too long to be told is an answer all the same; and what is asked of the command line alone is asked first.
#[test]
fn answers_without_values_and_orders_without_events() {
    let deep = format!("{}a{}", "f(".repeat(1_500), ")".repeat(1_500));
    let rules = written("walk/long_value.pl", format!("big({deep}).\nbig(b).\n"));
    let told = desk(&["walk", &rules, "A = f(B, B), big(B)", "--all"]);
    assert_eq!((told.status, told.out.matches("an answer").count()), (0, 2));
    assert!(told.out.trim_end().ends_with("there is no other answer"), "{}", told.out);
    for arguments in [&["--from", "9", "--to", "3"][..], &["--from", "6000000", "--to", "1", "--all"]] {
        let told = desk(&[&["walk", &rules, "big(X)"], arguments].concat());
        assert_eq!((told.status, told.out.as_str()), (2, "nothing is shown: --to stands before --from\n"));
    }
    // the usual limit of events is a limit, and one that was asked for is not
    let rules = written("walk/many.pl", "b(o). b(l).\nall :- b(_), b(_), b(_), b(_), b(_), b(_), b(_), b(_), b(_), b(_), b(_), b(_), fail.\n");
    assert_eq!((desk(&["walk", &rules, "all", "--ports", "redo"]).status, desk(&["walk", &rules, "all", "--to", "9"]).status), (3, 0));
}

/// Terms that are nested deep, in heads and in values.
#[test]
fn nested_terms() {
    let nested = format!("{}X{}", "f(".repeat(2_000), ")".repeat(2_000));
    let rules = written("walk/nested.pl", format!("big({nested}) :- s(X), r.\ns(a).\nr :- t, t, t, t, fail.\nt. t. t.\n"));
    let told = desk(&["walk", &rules, "big(_)"]);
    assert_eq!((told.status, told.out.lines().count()), (1, 1_632));
}

#[test]
fn long_values_are_cut() {
    let deep = format!("{}a{}", "f(".repeat(500), ")".repeat(500));
    let rules = written("walk/long.pl", format!("p({deep}).\n"));
    let (found, _) = lines(&desk(&["walk", &rules, "p(X)"]).out);
    let longest = found.iter().map(|line| line.rest.len()).max().expect("a line");
    assert!((300..800).contains(&longest), "{longest}");
    assert!(found.iter().any(|line| line.rest.contains("f(f(f(..") || line.rest.contains("f(..") || line.rest.contains("f.. ")));
}
