//! `desk answers` as lines: the values are the library's, and the clauses named are those that gave them.

mod common;
#[path = "common/dice.rs"]
mod dice;
#[path = "common/examples.rs"]
mod examples;
#[path = "common/generated.rs"]
mod generated;
#[path = "common/library.rs"]
mod library;
#[path = "common/locals.rs"]
mod locals;
#[path = "common/printed.rs"]
mod printed;

use common::{desk, written};
use dice::Dice;
use examples::examples;
use generated::Generated;
use library::{answers, Values};
use locals::without_local_names;
use printed::printed;
use std::collections::BTreeSet;
use std::fs;

/// The steps after which a generated garage is given up.
const MOST_STEPS: u32 = 20_000;
const GENERATED: usize = 400;

/// An answer as it is printed: the values, and predicate and line of each clause.
#[derive(Debug)]
struct Derived {
    values: String,
    clauses: Vec<(String, usize)>,
}

/// `light/2 rules.pl:14`.
fn named_clause(text: &str, file: &str) -> (String, usize) {
    let (predicate, place) = text.split_once(' ').unwrap_or_else(|| panic!("a clause: {text}"));
    let (named, line) = place.rsplit_once(':').expect("a line");
    assert_eq!(named, file.rsplit('/').next().expect("a file"));
    (predicate.into(), line.parse().expect("a number"))
}

fn shown(values: &Values) -> String {
    let pairs: Vec<String> = values.iter().map(|(name, value)| format!("{name} = {value}")).collect();
    if pairs.is_empty() {
        "true".into()
    } else {
        pairs.join(", ")
    }
}

/// A clause in a text: its predicate, the line of its head, and its bytes.
#[derive(Clone, Debug)]
struct Laid {
    predicate: String,
    line: usize,
    text: String,
}

fn predicate(clause: &str) -> String {
    let head = clause.split(":-").next().expect("a head").trim().trim_end_matches('.');
    let (mut depth, mut commas) = (0, 0);
    for byte in head.bytes() {
        match byte {
            b'(' => depth += 1,
            b')' => depth -= 1,
            b',' if depth == 1 => commas += 1,
            _ => (),
        }
    }
    match head.split_once('(') {
        Some((name, _)) => format!("{name}/{}", commas + 1),
        None => format!("{head}/0"),
    }
}

/// A text of the clauses: some share a line, some go over several lines, some stand behind comments.
fn laid_out(clauses: &[String], dice: &mut Dice) -> (String, Vec<Laid>) {
    let (mut text, mut laid) = (String::from("% a garage, p(X).\n"), Vec::new());
    for clause in clauses {
        let clause = if dice.one_in(3) { clause.replace(", ", ",\n   ").replace(" :- ", "\n  :- % if (\n") } else { clause.clone() };
        laid.push(Laid {
            predicate: predicate(&clause.replace("% if (", "")),
            line: 1 + text.matches('\n').count(),
            text: clause.replace("% if (", ""),
        });
        text += &clause;
        text += *dice.pick(&["\n", "\n", "\n\n", " ", " % so. much(\n", "\r\n", "\t\n\t"]);
    }
    (text, laid)
}

/// Without the clauses of one predicate in one line, the answers left are those that do not name them, in their order; and the clauses that an answer
/// names give it alone. So no clause is named too much, and none is missing.
fn hold_clauses(told: &[Derived], laid: &[Laid], query: &str) {
    let texts = |kept: &dyn Fn(&(String, usize)) -> bool| {
        let kept = laid.iter().filter(|clause| kept(&(clause.predicate.clone(), clause.line)));
        kept.map(|clause| clause.text.as_str()).collect::<Vec<&str>>().join("\n")
    };
    let list = |rules: &str| answers(rules, query, MOST_STEPS).answers.iter().map(shown).collect::<Vec<String>>();
    let places: BTreeSet<(String, usize)> = laid.iter().map(|clause| (clause.predicate.clone(), clause.line)).collect();
    // locals have other numbers where clauses are missing
    let blurred =
        |values: &str| values.split('V').map(|part| part.trim_start_matches(|letter: char| letter.is_ascii_digit())).collect::<Vec<&str>>().join("V");
    for place in &places {
        let left: Vec<String> = told.iter().filter(|answer| !answer.clauses.contains(place)).map(|answer| blurred(&answer.values)).collect();
        let without: Vec<String> = list(&texts(&|other| other != place)).iter().map(|values| blurred(values)).collect();
        assert_eq!(without, left, "{query} without {place:?} in\n{}", texts(&|_| true));
    }
    for answer in told {
        assert!(answer.clauses.iter().all(|clause| places.contains(clause)), "{answer:?}");
        let alone: Vec<String> = list(&texts(&|place| answer.clauses.contains(place))).iter().map(|values| blurred(values)).collect();
        assert!(alone.contains(&blurred(&answer.values)), "{answer:?} of {query} in\n{}", texts(&|_| true));
    }
}

/// The answers that are printed, which are the library's; nothing where the list is not whole.
fn held(path: &str, rules: &str, query: &str) -> Option<Vec<Derived>> {
    let list = answers(rules, query, MOST_STEPS);
    let told = desk(&["answers", path, query, "--steps", &MOST_STEPS.to_string()]);
    assert!(!told.err.contains("error: "), "{}", told.err);
    let (found, last) = printed(&told.out);
    let clauses = |listed: &str| listed.split(", ").filter(|clause| !clause.is_empty()).map(|clause| named_clause(clause, path)).collect();
    let found: Vec<Derived> =
        found.iter().map(|one| Derived { values: without_local_names(&one.values, query), clauses: clauses(&one.clauses) }).collect();
    let values: Vec<&str> = found.iter().map(|answer| answer.values.as_str()).collect();
    assert_eq!(values, list.answers.iter().map(shown).collect::<Vec<String>>(), "{query} in {rules}");
    let (number, status) = if list.is_whole { (6, i32::from(values.is_empty())) } else { (0, 3) };
    assert!(last.contains(&format!("(number {number})")), "{last}");
    assert_eq!(last.contains("the list is whole"), list.is_whole, "{last}");
    assert_eq!(told.status, status, "{last}");
    list.is_whole.then_some(found)
}

#[test]
fn the_examples() {
    let all = examples();
    assert!(all.len() >= 6);
    for (rules, query) in &all {
        let (text, goal) = (fs::read_to_string(rules).expect("rules"), fs::read_to_string(query).expect("a query"));
        let found = held(rules, &text, goal.trim()).expect("a whole list");
        let laid: Vec<Laid> = text.lines().zip(1..).map(|(clause, line)| Laid { predicate: predicate(clause), line, text: clause.into() }).collect();
        hold_clauses(&found, &laid, goal.trim());
        assert_eq!(desk(&["answers", rules, &format!("@{query}")]).out, desk(&["answers", rules, goal.trim()]).out);
    }
}

#[test]
fn generated_garages() {
    let (mut dice, mut whole, mut most) = (Dice::new(20), 0, 0);
    for i in 0..GENERATED {
        let garage = Generated::new(&mut dice);
        let (text, laid) = laid_out(&garage.clauses, &mut dice);
        let path = written(&format!("answers/generated-{}.pl", i % 8), &text);
        let plain = laid.iter().map(|clause| clause.text.as_str()).collect::<Vec<&str>>().join("\n");
        let Some(found) = held(&path, &plain, &garage.query) else { continue };
        hold_clauses(&found, &laid, &garage.query);
        (whole, most) = (whole + usize::from(!found.is_empty()), most.max(found.len()));
    }
    println!("{whole} of {GENERATED} garages have a whole list with answers, of at most {most}");
    assert!(whole > GENERATED / 3 && most > 20);
}

/// Clauses stand in the order of their first calls, each once.
#[test]
fn the_order_of_clauses() {
    let path = written("answers/order.pl", "p(X) :- q(X), (fail ; r), q(X).\nq(b) :- s.\nq(a) :- r, s.\nr.\ns :- r.\n");
    let (found, _) = printed(&desk(&["answers", &path, "r, p(a)"]).out);
    let clauses: Vec<&str> = found.iter().map(|answer| answer.clauses.as_str()).collect();
    assert_eq!(clauses, ["r/0 order.pl:4, p/1 order.pl:1, q/1 order.pl:3, s/0 order.pl:5"]);
}
