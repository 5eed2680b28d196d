//! Refused texts: the question's number, file, line and column, and a mark under what is refused.

mod common;
#[path = "common/marks.rs"]
mod marks;

use common::{desk, written};
use marks::{marked, Marked};

/// The error about rules and a query, or a query's file. It has the status 2, and nothing is printed but the error.
fn refused(name: &str, rules: &[u8], query: &str) -> Marked {
    let path = written(&format!("errors/{name}.pl"), rules);
    let told = ["answers", "walk", "step"].map(|command| desk(&[command, &path, query]));
    for one in &told {
        assert_eq!((one.status, one.out.as_str()), (2, ""), "{}", one.err);
        assert_eq!(one.err, told[0].err);
    }
    assert!(!told[0].err.contains(['\r', '\u{1b}']));
    let mut all = marked(&told[0].err);
    assert_eq!(all.len(), 1, "{}", told[0].err);
    let found = all.remove(0);
    assert_eq!(found.level, "error");
    assert!(if found.file.ends_with(".pl") { found.file == path } else { true });
    found
}

/// Question, line, column and what is marked.
fn hold(found: &Marked, question: u32, line: usize, column: usize, under: &str) {
    assert!(found.words.ends_with(&format!("(question {question})")), "{found:?}");
    assert_eq!((found.place, found.under.as_deref()), (Some((line, column)), Some(under)), "{found:?}");
}

#[test]
fn bytes_that_stand_in_no_text() {
    hold(&refused("quote", b"p(a).\nq('b').\n", "p(X)"), 20, 2, 3, "'");
    hold(&refused("cut", b"p(a) :- !.\n", "p(X)"), 20, 1, 9, "!");
    hold(&refused("list", b"p(a).\n\n\np([]).", "p(X)"), 20, 4, 3, "[");
    hold(&refused("letter", "% \u{e9}t\u{e9}: 100 %\np(\u{e9}t).\n".as_bytes(), "p(X)"), 20, 2, 3, "\u{e9}");
    hold(&refused("byte", b"p(a). % \xff\xfe\n\xffp(b).\n", "p(X)"), 20, 2, 1, "?");
    hold(&refused("control", b"p(a).\n  \x1b[31mp(b).\n", "p(X)"), 20, 2, 3, "?");
    hold(&refused("nothing", b"p(a).\np(\0).\n", "p(X)"), 20, 2, 3, "?");
}

#[test]
fn tokens_at_which_no_clause_goes_on() {
    hold(&refused("two", b"p(a).\nq b.\n", "p(X)"), 21, 2, 3, "b");
    hold(&refused("tabs", b"p(a).\n\tq\tb\t.\n", "p(X)"), 21, 2, 4, "b");
    hold(&refused("returns", b"p(a).\r\n% so\r\nq b.\r\n", "p(X)"), 21, 3, 3, "b");
    hold(&refused("blank", b"p (a).\n", "p(X)"), 21, 1, 3, "(");
    hold(&refused("variable", b"X = a.\n", "p(X)"), 21, 1, 1, "X");
    let found = refused("expected", b"p(a) q.\n", "p(X)");
    assert!(found.notes.iter().any(|note| note.contains("expected") && note.contains("`:-`") && note.contains("`.`")), "{found:?}");
}

/// What is typed as in another Prolog: words that say what there is instead, at the place.
#[test]
fn what_other_prologs_have() {
    let told = [
        ("lamp(m1, l1)..\n", ".", "one full stop too many"),
        ("/* a block */\n", "/*", "a comment goes from % to the end of the line"),
        (":- dynamic taken/1.\n", "/", "there are no directives"),
        (":- dynamic(taken).\n", ":-", "there are no directives"),
        ("p :- (a -> b ; c).\n", ">", "there is no if-then-else"),
        ("p :- a | b.\n", "|", "\"or\" is written `;`"),
        ("p(A, B) :- A \\= B.\n", "\\=", "write facts of what differs"),
        ("p :- \\+ q.\n", "\\+", "there is no negation"),
        ("p(X) :- X is 3.\n", "is", "equality is `=`"),
        ("p(X) :- X == l1.\n", "=", "equality is one `=`"),
        ("Lamp(m1, l1).\n", "Lamp", "a predicate starts with a small letter"),
        ("\u{feff}lamp(m1, l1).\n", "?", "a byte order mark (U+FEFF)"),
        ("lamp(m1,\u{a0}l1).\n", "\u{a0}", "a no-break space (U+00A0)"),
        ("lamp(\u{201c}m1\u{201d}, l1).\n", "\u{201c}", "(U+201C)"),
    ];
    for (rules, under, words) in told {
        let found = refused("other", rules.as_bytes(), "lamp(m1, L)");
        assert_eq!((found.under.as_deref(), found.words.contains(words)), (Some(under), true), "{found:?}");
    }
}

#[test]
fn texts_that_end_too_early() {
    let found = refused("ends", b"p(a).\nq(", "p(X)");
    hold(&found, 21, 2, 3, "");
    assert!(found.words.contains("ends"), "{found:?}");
    let found = refused("ends-query", b"p(a).\n", "p(X),");
    hold(&found, 21, 1, 6, "");
    assert_eq!(found.file, "query");
    hold(&refused("ends-empty", b"p(a).\n", ""), 21, 1, 1, "");
}

/// The mark stands where the full stop would, and not at the clause behind it.
#[test]
fn full_stops_that_are_missing() {
    let found = refused("stop", b"p(a)\nq(b).\n", "p(X)");
    hold(&found, 21, 1, 5, "");
    assert_eq!((found.words.as_str(), found.line.as_deref()), ("a full stop is missing here (question 21)", Some("p(a)")));
    hold(&refused("comment", b"p(a) % . no stop\n% nor here .\n  q.\n", "p(X)"), 21, 1, 5, " ");
    hold(&refused("ends-behind", b"p(a).\nq(b)\n", "p(X)"), 21, 2, 5, "");
    hold(&refused("ends-comment", b"p(a) % .", "p(X)"), 21, 1, 5, " ");
    // a goal more, for which a comma is missing
    hold(&refused("comma", b"p(a) :- q\n  r.\n", "p(X)"), 21, 2, 3, "r");
}

#[test]
fn queries() {
    let found = refused("query", b"p(a).\n", "p(X).");
    hold(&found, 21, 1, 5, ".");
    assert_eq!((found.file.as_str(), found.line.as_deref()), ("query", Some("p(X).")));
    assert!(found.words.contains("full stop"));
    hold(&refused("query-byte", b"p(a).\n", "p(\u{fc})"), 20, 1, 3, "\u{fc}");
    let query = written("errors/two-lines.query", b"p(X), % first\r\n\tp(X) p(Y)\n");
    let found = refused("query-file", b"p(a).\n", &format!("@{query}"));
    hold(&found, 21, 2, 7, "p(");
    assert_eq!((found.file, found.line.as_deref()), (query, Some("\tp(X) p(Y)")));
    // the rules are asked first
    assert!(refused("both", b"p(a)\n", "p(X).").file.ends_with("both.pl"));
}

#[test]
fn long_lines_are_cut_around_the_mark() {
    let line = format!("p :- {}?, {}true.", "true, ".repeat(1_000), "true, ".repeat(1_000));
    let found = refused("long", format!("q.\n{line}\n").as_bytes(), "p");
    hold(&found, 20, 2, 6_006, "?");
    let shown = found.line.expect("a line");
    assert!(shown.len() < 80 && shown.contains("true, ?, true"), "{shown}");
    let name = format!("n{}", "a".repeat(1_000));
    let found = refused("long-token", format!("p {name}.\n").as_bytes(), "p");
    assert_eq!(found.place, Some((1, 3)));
    assert!(found.under.expect("a mark").starts_with("naaaa") && found.words.len() < 100);
}

#[test]
fn too_many_arguments_and_variables() {
    let arguments = |count: usize| vec!["a"; count].join(", ");
    hold(&refused("arguments", format!("q.\np({}).\n", arguments(17)).as_bytes(), "q"), 3, 2, 51, "a");
    let told = desk(&["answers", &written("errors/sixteen.pl", format!("p({}).\n", arguments(16))), "true"]);
    assert_eq!((told.status, told.err.as_str()), (0, ""));
    let variables = |count: usize| (0..count).map(|number| format!("f(V{number}) = f(V{number})")).collect::<Vec<String>>().join(", ");
    let found = refused("variables", format!("q.\np :- {}.\n", variables(65)).as_bytes(), "q");
    assert_eq!((found.under.as_deref(), found.words.ends_with("(question 3)")), (Some("V64"), true), "{found:?}");
    let told = desk(&["answers", &written("errors/sixty-four.pl", format!("p :- {}.\n", variables(64))), "true"]);
    assert_eq!((told.status, told.err.as_str()), (0, ""));
    let found = refused("query-variables", b"q.\n", &variables(65));
    assert_eq!((found.file.as_str(), found.under.as_deref(), found.words.ends_with("(question 3)")), ("query", Some("V64"), true), "{found:?}");
}

#[test]
fn too_many_locals() {
    let clause = |names: usize| {
        let listed: Vec<String> = (0..names).map(|number| format!("_V{number}")).collect();
        format!("p({}).\n", listed.chunks(16).map(|part| format!("f({})", part.join(", "))).collect::<Vec<String>>().join(", "))
    };
    let rules = |last: usize| format!("% a\nq.\n{}{}", clause(64).repeat(3), clause(last));
    // the arities differ where there are fewer variables, so that all clauses are of p/4
    let last = |fewer: bool| if fewer { rules(64).replacen("_V63", "a", 1) } else { rules(64) };
    let found = refused("locals", last(false).as_bytes(), "q");
    hold(&found, 9, 3, 1, "p");
    assert!(found.words.contains("255"), "{found:?}");
    let told = desk(&["answers", &written("errors/locals-fewer.pl", last(true)), "q"]);
    assert_eq!((told.status, told.err.as_str()), (0, ""));
}

/// About the whole there is no place.
fn hold_whole(found: &Marked, question: u32) {
    assert!(found.words.contains(&format!("(question {question})")), "{found:?}");
    assert_eq!((found.place, &found.line), (None, &None), "{found:?}");
}

#[test]
fn texts_and_records_that_are_too_long() {
    let filled = |bytes: usize| [b"p(a).".to_vec(), b"\n".repeat(bytes - 5)].concat();
    let found = refused("bytes", &filled(100_017), "p(X)");
    hold_whole(&found, 22);
    assert!(found.file.ends_with("bytes.pl") && found.words.starts_with("100,017 bytes are too many"), "{found:?}");
    let found = refused("bytes-together", &filled(65_532), "p(X)");
    hold_whole(&found, 22);
    assert!(found.file == "query" && found.words.contains("65,536 bytes together"), "{found:?}");
    let told = desk(&["answers", &written("errors/bytes-enough.pl", filled(65_531)), "p(X)"]);
    assert_eq!((told.status, told.out.starts_with("X = a\n")), (0, true));
    let comments = [b"% ".to_vec(), b"c".repeat(65_529)].concat();
    assert_eq!(desk(&["answers", &written("errors/comments-enough.pl", &comments), "true"]).status, 0);
    hold_whole(&refused("comments", &[&comments[..], b"c"].concat(), "true"), 22);

    let fact = format!("p({}).\n", vec!["a"; 16].join(","));
    hold_whole(&refused("record", fact.repeat(500).as_bytes(), "true"), 10);
    let found = refused("canonical", fact.repeat(300).as_bytes(), "true");
    hold_whole(&found, 10);
    assert!(found.words.contains("canonical"), "{found:?}");
    let found = refused("first-event", b"p.\n", &vec!["p"; 6_553].join(","));
    hold_whole(&found, 10);
    assert_eq!(found.file, "query");
}

/// A query that stands twice in an event of its walk, and once in its record.
#[test]
fn a_query_that_has_no_walk() {
    let rules = written("errors/none.pl", "");
    let query = format!("X = {}a{}", "f(".repeat(5_000), ")".repeat(5_000));
    let told = desk(&["answers", &rules, &query]);
    assert_eq!(told.status, 2);
    assert!(told.err.contains("the query is too long (question 10)"), "{}", told.err);
}
