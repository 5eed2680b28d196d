//! Rules and queries as text: names, what is shown of records, and refusals with their places.

use fourport::{Clauses, Event, Names, Place, Query, Refusal, TextRefusal, WhichText};

fn clauses(text: &str) -> (Clauses, Names) {
    Clauses::from_text(text).unwrap_or_else(|refused| panic!("{text}: {refused}"))
}

/// What is shown of a text's clauses is read back as the same record and the same names.
fn shown(text: &str) -> String {
    let (read, names) = clauses(text);
    let shown = read.shown(&names).to_string();
    assert_eq!(clauses(&shown), (read, names), "{text}");
    shown
}

/// Likewise of a query.
fn shown_query(rules: &str, query: &str) -> String {
    let (read, names) = Query::from_text(rules, query).unwrap_or_else(|refused| panic!("{query}: {refused}"));
    let shown = read.shown(&names).to_string();
    let (again, others) = Query::from_text(rules, &shown).expect("a query");
    assert_eq!((again, others.iter().collect::<Vec<_>>()), (read, names.iter().collect()), "{query}");
    shown
}

#[test]
fn clauses_are_shown_as_they_are_read() {
    assert_eq!(shown(""), "");
    assert_eq!(shown("p:-true.q(X,Y,_,X):-fail;p."), "p.\nq(V0, V1, V2, V0) :- fail ; p.");
    assert_eq!(shown("a:-((b,c),d;(e)),true=X."), "a :- ((b, c), d ; e), true = V0.");
    assert_eq!(shown("a:-b;(c;d),e;(f,g)."), "a :- b ; (c ; d), e ; f, g.");
    assert_eq!(shown("a:-(b;c);d."), "a :- (b ; c) ; d.");
    assert_eq!(shown("true(fail,7,07):-fail(true),f(g(X))=_."), "true(fail, 7, 07) :- fail(true), f(g(V0)) = V1.");
}

#[test]
fn variables_of_a_query_keep_their_names() {
    assert_eq!(shown_query("p.", "p ,q( Bay , _,_x,Bay)"), "p, q(Bay, V1, _x, Bay)");
    // V2 is the query's own, so that other variables get another form
    assert_eq!(shown_query("", "_ = V2, _ = V"), "V_0 = V2, V_2 = V");
    assert_eq!(shown_query("", "V_1=_,V9=V__"), "V_1 = V__1, V9 = V__");
}

#[test]
fn a_walk_with_names() {
    let rules = "p(X) :- X = f(Y), q(Y) ; X = n1. q(V1).";
    let program = clauses(rules).0.canonical().expect("a program");
    let (query, names) = Query::from_text(rules, "p(V0), true").expect("a query");
    let mut walk = program.walk(Event::first(&query).expect("a first event"));
    let seen: Vec<String> = walk.forwards().take(6).map(|event| event.shown(&names).to_string()).collect();
    assert_eq!(seen[1], "call V0 = V_1, (V_1 = f(V_2), q(V_2) ; V_1 = n1)");
    // symbols without a name are shown by their number
    let nameless = Names::default();
    assert_eq!(query.shown(&nameless).to_string(), "n0(V0), true");
    assert_eq!(program.shown(&nameless).to_string(), "n0(V0) :- V0 = V1, (V1 = n1(V2), n2(V2) ; V1 = n3).\nn2(V0) :- V0 = V1, true.");
}

/// As deep as a record is: nothing recurses.
#[test]
fn deep_things_are_shown() {
    let term = |depth: usize| format!("p({}a{}).", "f(".repeat(depth), ")".repeat(depth));
    assert_eq!(shown(&term(8_188)).len(), term(8_188).len());
    let left = |depth: usize| format!("p :- {}a{}.", "(".repeat(depth), ", a)".repeat(depth));
    assert_eq!(shown(&left(6_500)).len(), left(6_500).len() - 2);
}

fn place(text: &str, offset: usize, line: usize, column: usize) {
    let refused = Clauses::from_text(text).expect_err("a refusal");
    assert_eq!((refused.text, refused.place), (WhichText::Rules, Some(Place { offset, line, column })), "{text}: {refused}");
}

#[test]
fn places_of_refusals() {
    place("a.\r\n% b", 4, 2, 1);
    place("p(a). p(b", 9, 1, 10);
    place("p (x).", 2, 1, 3);
    place("a :-\n  b,\n  c) .", 13, 3, 4);
    place("a. true.", 3, 1, 4);
    place("a. true :- b.", 3, 1, 4);
    place("p :- X.", 6, 1, 7);
    place("p :- X = a = b.", 11, 1, 12);
    place("p :- (a) = b.", 9, 1, 10);
    place("p :- 7, a.", 6, 1, 7);
    place("p :- q(1a).", 7, 1, 8);
    place("p :- a : b.", 7, 1, 8);
    place("(p) :- q.", 0, 1, 1);
    place("p().", 2, 1, 3);
    place("p(a)(b).", 4, 1, 5);
    place("a :- b :- c.", 7, 1, 8);
    place("p :- (a.", 7, 1, 8);
    place(&format!("a.\np({}c).", "b,".repeat(16)), 37, 2, 35);
    place(&format!("a(_,X).\np({}).", "f(_,_,_,_),".repeat(16) + "X"), 186, 2, 179);
}

fn words(refused: Result<(Clauses, Names), TextRefusal>) -> String {
    refused.expect_err("a refusal").to_string()
}

#[test]
fn refusals_in_words() {
    assert_eq!(
        words(Clauses::from_text("p(\"a\").")),
        "the rules, line 1, column 3: `\"` cannot be used here: there are no quoted names (question 20)"
    );
    assert_eq!(words(Clauses::from_text(b"p.\x80")), "the rules, line 1, column 3: byte 128 cannot be used here (question 20)");
    assert_eq!(words(Clauses::from_text("p :- ")), "the rules, line 1, column 6: the text ends within a clause (question 21)");
    assert_eq!(
        words(Clauses::from_text(" ".repeat(65_536))),
        "the rules: 65,536 bytes are too many: rules and query have at most 65,535 together (question 22)"
    );
    assert_eq!(words(Clauses::from_text("a.".repeat(7_000))), "the rules: the record has over 32,768 bytes (question 10)");
    let long = format!("a {}.", "b".repeat(100));
    assert_eq!(words(Clauses::from_text(&long)), format!("the rules, line 1, column 3: unexpected `{}..` (question 21)", "b".repeat(40)));
    let many = format!("p({}a).", "a,".repeat(16));
    assert_eq!(words(Clauses::from_text(&many)), "the rules, line 1, column 35: this is a 17th argument (question 3)");
}

#[test]
fn refusals_of_queries() {
    let refused = |rules: &str, query: &str| Query::from_text(rules, query).expect_err("a refusal");
    let told =
        |rules: &str, query: &str| (refused(rules, query).refusal, refused(rules, query).text, refused(rules, query).place.map(|place| place.offset));
    assert_eq!(told("p. %", "%"), (Refusal::Byte, WhichText::Rules, Some(3)));
    assert_eq!(told("p :-", "% a"), (Refusal::Byte, WhichText::Query, Some(0)));
    assert_eq!(told("p :-", "a b"), (Refusal::Text, WhichText::Rules, Some(4)));
    assert_eq!(told("p.", "a b"), (Refusal::Text, WhichText::Query, Some(2)));
    assert_eq!(told("p.", ""), (Refusal::Text, WhichText::Query, Some(0)));
    assert_eq!(told("p.", "(a"), (Refusal::Text, WhichText::Query, Some(2)));
    assert_eq!(told("", &" ".repeat(65_535).replace("  ", "a,").replace(", ", ",a")), (Refusal::Fit, WhichText::Query, None));
    assert_eq!(told("p.", &format!("a{}", " ".repeat(65_533))), (Refusal::Length, WhichText::Query, None));
    // the rules are too long by themselves, or by a byte of the query
    let long = |bytes: usize| refused(&format!("p.{}", " ".repeat(bytes - 2)), "a").to_string();
    assert_eq!(long(65_535), "the query: rules and query have 65,536 bytes together, and may have 65,535 (question 22)");
    assert_eq!(long(65_536), "the rules: 65,536 bytes are too many: rules and query have at most 65,535 together (question 22)");
    assert_eq!(long(1_000_000), "the rules: 1,000,000 bytes are too many: rules and query have at most 65,535 together (question 22)");
    // the rules' own arities are not asked here
    let wide = format!("q({}a)", "a,".repeat(16));
    assert_eq!(told(&format!("{wide}."), &wide), (Refusal::Grammar(fourport::Which::Program), WhichText::Query, Some(34)));
    assert!(Query::from_text(format!("{wide}."), "q").is_ok());
}

/// Names as many and as long as a text can hold: the buffer that is lent is enough.
#[test]
fn room_for_names() {
    let letters: Vec<char> = ('a'..='z').chain('A'..='Z').chain('0'..='9').chain(['_']).collect();
    let short: String = letters.iter().flat_map(|&one| letters.iter().map(move |&two| format!("a{one}{two}."))).collect();
    assert_eq!(clauses(&short).1.len(), 63 * 63);
    assert_eq!(clauses("a.b.c.").1.len(), 3);
    assert_eq!(Query::from_text("", "z").expect("a query").1.len(), 1);
    assert_eq!(clauses(&format!("{}.", "x".repeat(65_534))).1.name(0).map(str::len), Some(65_534));
}
