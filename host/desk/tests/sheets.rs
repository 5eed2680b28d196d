//! The forms of a list for the planning sheet, read back by strict readers, and the limits of a list.

mod common;
#[path = "common/csv.rs"]
mod csv;
#[path = "common/examples.rs"]
mod examples;
#[path = "common/json.rs"]
mod json;
#[path = "common/library.rs"]
mod library;
#[path = "common/locals.rs"]
mod locals;
#[path = "common/printed.rs"]
mod printed;

use common::{desk, written, Told};
use json::Json;
use library::{answers, Values};
use locals::without_local_names;
use printed::printed;
use std::fs;

const MOST_STEPS: u32 = 10_000_000;

/// Values that hold commas and brackets, a free variable, variables with one value, variables of a clause, and a predicate without arguments.
const TERMS: &str = "pair(at(a, deck(b)), c).\npair(X, at(X, Y, Y)) :-\n    ready.\npair(_, d).\nready.\nready :- true ; fail.\n";
const QUERY: &str = "pair(First, Second), Third = Fourth, _Fifth = _";

struct Case {
    path: String,
    rules: String,
    query: String,
}

fn cases() -> Vec<Case> {
    let of = |path: String, query: String| Case { rules: fs::read_to_string(&path).expect("rules"), path, query };
    let terms = written("sheets/terms.pl", TERMS);
    let examples = examples::examples().into_iter().map(|(rules, query)| of(rules, fs::read_to_string(query).expect("a query").trim().into()));
    examples.chain([QUERY, "ready", "pair(_, _Second)", "pair(c, a)"].map(|query| of(terms.clone(), query.into()))).collect()
}

fn normal(case: &Case, values: impl IntoIterator<Item = (String, String)>) -> Values {
    values.into_iter().map(|(name, value)| (name, without_local_names(&value, &case.query))).collect()
}

/// The clauses in the lines form, one row for each answer.
fn clauses(case: &Case) -> Vec<String> {
    printed(&desk(&["answers", &case.path, &case.query]).out).0.into_iter().map(|answer| answer.clauses).collect()
}

#[test]
fn comma_separated_values() {
    for case in cases() {
        let list = answers(&case.rules, &case.query, MOST_STEPS);
        let told = desk(&["answers", &case.path, &case.query, "--csv"]);
        let mut rows = csv::rows(&told.out).expect("RFC 4180").into_iter();
        let mut head = rows.next().expect("a header");
        assert_eq!(head.pop().as_deref(), Some("clauses"));
        let mut given = Vec::new();
        let found: Vec<Values> = rows
            .map(|mut cells| {
                given.push(cells.pop().expect("clauses"));
                normal(&case, head.iter().cloned().zip(cells))
            })
            .collect();
        assert_eq!(found, list.answers, "{}", case.query);
        assert_eq!(given, clauses(&case).iter().map(|clauses| clauses.replace(", ", "; ")).collect::<Vec<String>>());
        let last = desk(&["answers", &case.path, &case.query]).out.lines().last().expect("a last line").to_string();
        assert_eq!(told.err.lines().last(), Some(last.as_str()));
        assert_eq!(told.status, i32::from(list.answers.is_empty()));
    }
}

fn number(value: &Json) -> u64 {
    let Json::Number(digits) = value else { panic!("no number: {value:?}") };
    digits.parse().expect("a whole number")
}

fn members(object: &Json) -> Vec<(String, String)> {
    let Json::Object(members) = object else { panic!("no object: {object:?}") };
    members.iter().map(|(name, value)| (name.clone(), value.text().to_string())).collect()
}

#[test]
fn json_objects() {
    for case in cases() {
        let list = answers(&case.rules, &case.query, MOST_STEPS);
        let told = desk(&["answers", &case.path, &case.query, "--json"]);
        let object = Json::read(&told.out).expect("RFC 8259");
        let found: Vec<Values> = object.at("answers").items().iter().map(|answer| normal(&case, members(answer.at("values")))).collect();
        assert_eq!(found, list.answers, "{}", case.query);
        assert_eq!((number(object.at("count")), object.at("whole")), (list.answers.len() as u64, &Json::Bool(true)));
        assert_eq!((number(object.at("number")), number(object.at("steps"))), (6, u64::from(list.taken)));
        let short = case.path.rsplit('/').next().expect("a name");
        let clause = |clause: &Json| {
            assert_eq!(clause.at("file").text(), case.path);
            format!("{} {short}:{}", clause.at("predicate").text(), number(clause.at("line")))
        };
        let given: Vec<String> = object
            .at("answers")
            .items()
            .iter()
            .map(|answer| answer.at("clauses").items().iter().map(clause).collect::<Vec<_>>().join(", "))
            .collect();
        assert_eq!(given, clauses(&case));
        let last = desk(&["answers", &case.path, &case.query]).out.lines().last().expect("a last line").to_string();
        assert_eq!((object.at("words").text(), told.status), (last.as_str(), i32::from(list.answers.is_empty())));
    }
}

#[test]
fn a_file_name_that_has_to_be_quoted() {
    let path = written("sheets/deck \"2\", \\ no%rth.pl", "p(a).\n");
    let told = desk(&["answers", &path, "p(X)", "--csv"]);
    assert_eq!(csv::rows(&told.out).expect("RFC 4180")[1], ["a", "p/1 deck \"2\", \\ no%rth.pl:1"]);
    let object = Json::read(&desk(&["answers", &path, "p(X)", "--json"]).out).expect("RFC 8259");
    assert_eq!(object.at("answers").items()[0].at("clauses").items()[0].at("file").text(), path);
}

#[test]
fn values_of_variables() {
    let path = written("sheets/values.pl", TERMS);
    let first = |query: &str| desk(&["answers", &path, query]).out.lines().next().expect("a line").to_string();
    assert_eq!(first("pair(A, B)"), "A = at(a, deck(b)), B = c");
    assert_eq!(first("ready"), "true");
    assert_eq!(first("pair(_, _B)"), "true");
    assert_eq!(first("A = A"), "A = _");
    assert_eq!(first("A = f(B)"), "A = f(B), B = _");
    assert_eq!(first("true"), "true");
    // of two variables with one value, one is shown by the other
    assert!(["A = B, B = _", "A = _, B = A"].contains(&first("A = B").as_str()));
    // a variable of a clause is shown by its name there
    let third = desk(&["answers", &path, "pair(c, B)"]);
    assert!(third.out.starts_with("B = at(c, Y_"), "{}", third.out);
}

const RING: &str = "next(a, b).\nnext(b, a).\nway(X, X).\nway(X, Y) :- next(X, Z), way(Z, Y).\n";

fn ended(path: &str, arguments: &[&str]) -> (Vec<String>, String, i32) {
    let Told { out, status, .. } = desk(&[&["answers", path, "way(a, Where)"], arguments].concat());
    let (found, last) = printed(&out);
    (found.into_iter().map(|answer| answer.values).collect(), last, status)
}

#[test]
fn limits() {
    let path = written("sheets/ring.pl", RING);
    let (found, last, status) = ended(&path, &["--limit", "3"]);
    assert_eq!((found.len(), status), (3, 3));
    assert!(last.starts_with("3 answers") && last.contains("--limit") && last.contains("may be more"), "{last}");
    assert_eq!(found, ["Where = a", "Where = b", "Where = a"]);
    assert_eq!(ended(&path, &["--limit", "0"]).0.len(), 0);
    assert_eq!(ended(&path, &["--limit", "0"]).2, 3);

    let (found, last, status) = ended(&path, &["--steps", "500"]);
    let listed = answers(RING, "way(a, Where)", 500);
    assert_eq!((found.len(), status, listed.taken), (listed.answers.len(), 3, 500));
    assert!(last.contains("--steps") && last.contains("at event 499 ") && last.contains("(number 0)"), "{last}");

    // a ring without end is ended by question 10
    let (found, last, status) = ended(&path, &[]);
    assert!(found.len() > 50 && last.contains("(number 10)") && last.contains("there may be more"), "{last}");
    assert_eq!(status, 3);
    let object = Json::read(&desk(&["answers", &path, "way(a, Where)", "--json", "--steps", "500"]).out).expect("RFC 8259");
    assert_eq!((object.at("whole"), number(object.at("number"))), (&Json::Bool(false), 0));
    let object = Json::read(&desk(&["answers", &path, "way(a, Where)", "--json", "--limit", "1"]).out).expect("RFC 8259");
    assert_eq!((object.at("whole"), object.at("number"), number(object.at("count"))), (&Json::Bool(false), &Json::Null, 1));
}

#[test]
fn a_limit_of_just_the_answers_leaves_the_list_whole() {
    let path = written("sheets/three.pl", "p(a).\np(b).\np(c).\n");
    for (limit, whole, status) in [("2", false, 3), ("3", true, 0), ("4", true, 0)] {
        let told = desk(&["answers", &path, "p(X)", "--limit", limit]);
        assert_eq!((told.out.contains("the list is whole"), told.status), (whole, status), "{}", told.out);
    }
    // with no answers at all
    let told = desk(&["answers", &path, "p(d)", "--limit", "1"]);
    assert_eq!((told.status, told.out.lines().count()), (1, 1));
    assert!(told.out.starts_with("no answer; the list is whole"), "{}", told.out);
}
