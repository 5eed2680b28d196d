//! What the program warns of, where, and of what it does not.

mod common;
#[path = "common/marks.rs"]
mod marks;

use common::{desk, written};
use marks::{marked, Marked};

/// The warnings; what is printed and the status are as without them.
fn warned(name: &str, rules: &str, query: &str) -> Vec<Marked> {
    let path = written(&format!("warnings/{name}.pl"), rules);
    let told = ["answers", "walk"].map(|command| desk(&[command, &path, query]));
    assert_eq!(told[0].err, told[1].err);
    assert!(told.iter().all(|one| one.status < 2 && !one.out.contains("warning")), "{}", told[0].err);
    let found = marked(&told[0].err);
    assert!(found.iter().all(|warning| warning.level == "warning" && (warning.file == path || warning.file == "query")));
    found
}

/// File, line, column, and what is marked.
fn places(found: &[Marked]) -> Vec<(&str, usize, usize, &str)> {
    let place = |warning: &Marked| warning.place.expect("a place");
    let file = |warning: &Marked| if warning.file == "query" { "query" } else { "rules" };
    found.iter().map(|warning| (file(warning), place(warning).0, place(warning).1, warning.under.as_deref().expect("a mark"))).collect()
}

#[test]
fn atoms_that_no_clause_defines() {
    let rules = "% l\u{e9}gende\ntaken(bay1).\nlight(Bay, red) :- % if\n\ttakn(Bay), (fail ; true ; (taken(Bay, Bay))),\n\tBay = free(takn).\n";
    let found = warned("undefined", rules, "light(B, red) ; lihgt(B, L) ; free");
    assert_eq!(places(&found), [("rules", 4, 2, "takn"), ("rules", 4, 29, "taken"), ("query", 1, 17, "lihgt"), ("query", 1, 31, "free")]);
    assert!(found[0].words.contains("takn/1") && found[0].notes.iter().any(|note| note.contains("taken/1")), "{found:?}");
    assert!(found[1].words.contains("taken/2") && found[1].notes.iter().any(|note| note.contains("taken/1")), "{found:?}");
    assert!(found[2].notes.iter().any(|note| note.contains("light/2")), "{found:?}");
    assert!(found[3].words.contains("free/0") && found[3].notes.is_empty(), "{found:?}");
}

#[test]
fn variables_that_stand_once() {
    let rules = "p(X, Y) :- q(X).\nq(_).\nq(_Free).\nq(f(A,\n  B, A)) :- true ; % B\n    C = D, D = _.\nq(X) :- X = Y ; X = Y.\n";
    let found = warned("once", rules, "p(Once, _)");
    assert_eq!(places(&found), [("rules", 1, 6, "Y"), ("rules", 5, 3, "B"), ("rules", 6, 5, "C")]);
    assert!(found.iter().all(|warning| warning.words.contains("once")));
    assert!(found[0].words.contains('Y') && found[0].notes.iter().any(|note| note.contains("_Y")), "{found:?}");
}

#[test]
fn clauses_that_are_not_together() {
    let rules = "p(a).\nq(b).\np(c). p(d).\nq(e). p.\np(a, b).\nq(f).\n";
    let found = warned("apart", rules, "p(X)");
    assert_eq!(places(&found), [("rules", 3, 1, "p"), ("rules", 4, 1, "q"), ("rules", 6, 1, "q")]);
    assert!(found[0].words.contains("p/1") && found[0].words.contains("not together"), "{found:?}");
    assert!(found[0].notes.iter().any(|note| note.contains("line 1")), "{found:?}");
    assert!(found[2].notes.iter().any(|note| note.contains("line 4")), "{found:?}");
}

#[test]
fn warnings_stand_in_the_order_of_the_text() {
    let found = warned("order", "p(X) :- q(a).\nr.\np(Y) :- r.\n", "s");
    assert_eq!(places(&found), [("rules", 1, 3, "X"), ("rules", 1, 9, "q"), ("rules", 3, 1, "p"), ("rules", 3, 3, "Y"), ("query", 1, 1, "s")]);
}

#[test]
fn a_warning_in_a_query_file_names_it() {
    let (rules, query) = (written("warnings/query.pl", "p(a).\n"), written("warnings/lines.query", "p(X),\r\n  % who?\n  q(X)\n"));
    let found = marked(&desk(&["answers", &rules, &format!("@{query}")]).err);
    assert_eq!((found.len(), found[0].file.as_str(), found[0].place), (1, query.as_str(), Some((3, 3))));
}

#[test]
fn nothing_to_warn_of() {
    assert_eq!(warned("clean", "% p(X) q.\np(X) :- q(X, _Y), (true ; fail ; X = a), q(_, p).\np(_Z).\nq(a, p).\n", "p(X), q(_, Once)"), []);
    assert_eq!(warned("empty", "", "true"), []);
    assert_eq!(warned("comments", "% nothing\n%\n", "X = f(Y)"), []);
}

#[test]
fn many_warnings_of_long_rules() {
    let rules: String = (0..2_000).map(|number| format!("p{} :- q{}.\n", number % 7, number % 1_000)).collect();
    let found = warned("many", &rules, "true");
    // one for each goal, one for each clause that stands apart, and one for each predicate, of which no walk gets to the last clause
    assert_eq!(found.len(), 2_000 + (2_000 - 7) + 7);
}

/// A long list of facts: the clause named is not called within 32,768 bytes, and the one before it is.
#[test]
fn clauses_that_no_walk_gets_to() {
    for count in [57, 60, 80, 200, 600] {
        let rules: String = (1..=count).map(|i| format!("lamp(m{i}, l{i}).\n")).collect();
        let path = written(&format!("warnings/long{count}.pl"), &rules);
        let told = desk(&["walk", &path, "lamp(A, B), fail", "--all", "--ports", "call"]);
        let found = marked(&told.err);
        assert_eq!(found.len(), 1, "{}", told.err);
        let line = found[0].place.expect("a place").0;
        assert!(found[0].words.contains(&format!("clause {line} of the {count} of lamp/2")), "{}", found[0].words);
        let called = |clause: usize| told.out.contains(&format!("call clause {clause} of lamp/2 "));
        assert_eq!((called(line - 1), called(line), told.status), (true, false, 3), "{count}: {line}");
    }
    let rules: String = (1..=55).map(|i| format!("lamp(m{i}, l{i}).\n")).collect();
    assert_eq!(warned("short", &rules, "lamp(m55, L)").len(), 0);
}

/// Names that Prolog systems have built in are told from others.
#[test]
fn names_that_are_built_in_elsewhere() {
    let found = warned("built_in", "free(B) :- bay(B), not(taken(B)), member(B, B), other(B).\nbay(a).\n", "free(B)");
    assert_eq!(found.iter().map(|warning| warning.notes.len()).collect::<Vec<_>>(), [1, 1, 0]);
    assert!(found[0].notes[0].contains("no negation") && found[1].notes[0].contains("not built in"), "{found:?}");
}
