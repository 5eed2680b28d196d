//! Rules as text (M-103): the texts that the request and its readings name, worked out by hand, each number, and both sides of each limit.

use layout::*;
use twin::text::{read, read_query, ReadReply};

const ROOM: usize = RECORD_LIMIT;
/// More than any list of names here needs.
const NAMES: usize = 70_000;

fn list(names: &[&str]) -> Vec<u8> {
    names.iter().flat_map(|name| [&(name.len() as u16).to_be_bytes()[..], name.as_bytes()].concat()).collect()
}

fn gives(text: &str, names: &[&str], rules: &[Vec<u8>]) {
    assert_eq!(read(text.as_bytes(), NAMES, ROOM), ReadReply { number: 0, names: list(names), bytes: clauses(rules) }, "{text}");
}

fn asks(rules: &str, query: &str, names: &[&str], goal: &[u8]) {
    assert_eq!(
        read_query(rules.as_bytes(), query.as_bytes(), NAMES, ROOM),
        ReadReply { number: 0, names: list(names), bytes: record(goal) },
        "{query}"
    );
}

fn number(text: &[u8]) -> u8 {
    let reply = read(text, NAMES, ROOM);
    assert!(reply.number == 0 || reply.names.is_empty() && reply.bytes.is_empty());
    reply.number
}

fn refused(number_due: u8, texts: &[&str]) {
    texts.iter().for_each(|text| assert_eq!(number(text.as_bytes()), number_due, "{text}"));
}

/// A clause of arity 0 without variables.
fn plain(predicate: u16, goal: &[u8]) -> Vec<u8> {
    clause(predicate, 0, &[], goal)
}

#[test]
fn no_clauses() {
    for text in ["", " ", "\t\n\r \r\n"] {
        gives(text, &[], &[]);
        assert_eq!(read(text.as_bytes(), 0, ROOM).bytes, [0, 3, 1, 0, 0]);
    }
}

#[test]
fn names_and_variables_by_first_appearance() {
    gives(
        "q(a). q(f(Z)) :- q(Z).",
        &["q", "a", "f"],
        &[clause(0, 0, &[constant(1)], &TRUE), clause(0, 1, &[symbol(2, &[variable(0)])], &atom(0, &[variable(0)]))],
    );
    gives(
        "p(X,_,Y,_,X):-Y=_1,a.a:-p.",
        &["p", "a"],
        &[clause(0, 5, &[0, 1, 2, 3, 0].map(variable), &conjunction(&equality(&variable(2), &variable(4)), &atom(1, &[]))), plain(1, &atom(0, &[]))],
    );
    gives("p(7, 07, x7).", &["p", "7", "07", "x7"], &[clause(0, 0, &[1, 2, 3].map(constant), &TRUE)]);
}

#[test]
fn the_names_true_and_fail() {
    gives("a :- true, X = true.", &["a", "true"], &[clause(0, 1, &[], &conjunction(&TRUE, &equality(&variable(0), &constant(1))))]);
    gives(
        "a :- true = X ; (fail), ((true)).",
        &["a", "true"],
        &[clause(0, 1, &[], &disjunction(&equality(&constant(1), &variable(0)), &conjunction(&FAIL, &TRUE)))],
    );
    gives("true(fail) :- fail(true), fail.", &["true", "fail"], &[clause(0, 0, &[constant(1)], &conjunction(&atom(1, &[constant(0)]), &FAIL))]);
    refused(21, &["true.", "fail.", "true :- a.", " fail\n:- true.", "a.true.", "true (x).", "a :- true(.", "a :- (true) = b."]);
}

#[test]
fn operators() {
    let [a, b, c, d] = [1, 2, 3, 4].map(|predicate| atom(predicate, &[]));
    let due = |goal: &[u8]| [plain(0, goal)];
    let names = ["p", "a", "b", "c", "d"];
    gives("p:-a,b,c;d.", &names, &due(&disjunction(&conjunction(&a, &conjunction(&b, &c)), &d)));
    gives("p:-a;b;c,d.", &names, &due(&disjunction(&a, &disjunction(&b, &conjunction(&c, &d)))));
    gives("p:-(a,b),(c;d).", &names, &due(&conjunction(&conjunction(&a, &b), &disjunction(&c, &d))));
    gives("p :- ((a;b));((c)),d.", &names, &due(&disjunction(&disjunction(&a, &b), &conjunction(&c, &d))));
    gives(
        "p:-a=b,f(X)=X;c.",
        &["p", "a", "b", "f", "c"],
        &[clause(
            0,
            1,
            &[],
            &disjunction(&conjunction(&equality(&constant(1), &constant(2)), &equality(&symbol(3, &[variable(0)]), &variable(0))), &atom(4, &[])),
        )],
    );
}

#[test]
fn blanks() {
    let due = [clause(0, 1, &[variable(0), constant(1)], &conjunction(&equality(&variable(0), &constant(1)), &atom(2, &[])))];
    gives("p(X,b):-X=b,(c).", &["p", "b", "c"], &due);
    gives("\r\n p( X\t,\nb ) :-\rX  =b , ( c ) . \t", &["p", "b", "c"], &due);
    refused(21, &["p (x).", "p(x) : - a.", "p(x):\n-a.", "a b.", "X Y = a.", "p :- a b.", "a :- 1 2 = b."]);
}

#[test]
fn a_byte_of_no_token() {
    for byte in 0..=255u8 {
        let allowed = byte.is_ascii_alphanumeric() || b"_:-=;,().\t\n\r ".contains(&byte);
        assert_eq!(number(&[b'p', b'(', b'a', b')', b'.', byte]) == 20, !allowed, "{byte}");
        assert_eq!(number(&[byte]) == 20, !allowed, "{byte}");
    }
    refused(20, &["a :- b))). %", "p('A').", "[a].", "a\u{e9}.", "a+b.", "p(\"x\").", "a. \u{b} b.", "!."]);
}

#[test]
fn outside_the_grammar() {
    refused(
        21,
        &[
            "a",
            "a:-",
            "a:-.",
            ".",
            "a..",
            ":- a.",
            "a :- .",
            "(p) :- q.",
            "a :- (b :- c).",
            "a :- b :- c.",
            "a = b.",
            "X.",
            "X :- a.",
            "1.",
            "1 :- a.",
        ],
    );
    refused(
        21,
        &[
            "p(X) :- X.",
            "p :- 1.",
            "p :- _.",
            "p :- (X).",
            "p :- a, X.",
            "p :- a = b = c.",
            "p :- (a) = b.",
            "p :- X = (a).",
            "p((a)).",
            "p(a = b).",
            "p(:-).",
        ],
    );
    refused(
        21,
        &[
            "p().",
            "p( ).",
            "p :- q().",
            "p :- q().",
            "p(a,).",
            "p(,a).",
            "p(a",
            "p(a)).",
            "p :- (a.",
            "p :- a).",
            "p :- ().",
            "p :- (a,).",
            "p :- ;a.",
            "p :- a;.",
        ],
    );
    refused(
        21,
        &[
            "1a.",
            "p(1a).",
            "p(1_).",
            "p :- 1a = b.",
            "p(1(a)).",
            "p :- X(a).",
            "X(a).",
            "_(a).",
            "1(a).",
            "p(a)(b).",
            "a : b.",
            "a - b.",
            ":",
            "-",
            "a:-:-b.",
            "a:--b.",
            "p(a;b).",
        ],
    );
    refused(0, &["a.b.", "p:-1=2.", "p(aB_1,_a,B,_).", "a:-b.c:-d.", "p :- ((((a)))).", "p:-a=b,b=c.", "x_:-x_."]);
}

fn several(count: usize, of: impl Fn(usize) -> String) -> String {
    (0..count).map(of).collect::<Vec<_>>().join(",")
}

#[test]
fn question_3() {
    for (count, due) in [(16, 0), (17, 3), (300, 3)] {
        let arguments = several(count, |_| "a".into());
        for text in [format!("p({arguments})."), format!("p:-q({arguments})."), format!("p:-X=f({arguments})."), format!("p(f(g({arguments})),b).")] {
            assert_eq!(number(text.as_bytes()), due, "{text}");
        }
    }
    let rows = |count: usize, of: &dyn Fn(usize) -> String| several(count, |i| format!("X=f({})", of(i)));
    for (count, due) in [(63, 0), (64, 3), (65_536, 3)] {
        let text = format!("a. p:-{}.b.", rows(count, &|i| format!("V{i}")));
        assert_eq!(read(text.as_bytes(), NAMES, ROOM).number, if text.len() > 65_535 { 22 } else { due });
        let lone = format!("a. p:-{}.b.", rows(count, &|_| "_".into()));
        assert_eq!(read(lone.as_bytes(), NAMES, ROOM).number, if lone.len() > 65_535 { 22 } else { due });
    }
    // each clause has variables of its own
    assert_eq!(number(format!("p:-{}.", rows(63, &|i| format!("V{i}"))).repeat(2).as_bytes()), 0);
}

#[test]
fn question_22() {
    let text = b"abc(d,abc):-ef. ef.";
    let due = list(&["abc", "d", "ef"]);
    assert_eq!(due.len(), 12);
    assert_eq!((read(text, 12, ROOM).names, read(text, 12, ROOM).number), (due, 0));
    assert_eq!(read(text, 11, ROOM).number, 22);
    assert_eq!([0, 1].map(|room| read(b"", room, ROOM).number), [0, 0]);
    assert_eq!([65_534, 65_535, 65_536].map(|length| number(&vec![b' '; length])), [0, 0, 22]);
    let long_name = |length: usize| [&vec![b'x'; length][..], b"."].concat();
    assert_eq!([65_534, 65_535].map(|length| number(&long_name(length))), [0, 22]);
    assert_eq!([65_536, 65_535].map(|room| read(&long_name(65_534), room, ROOM).number), [0, 22]);
}

#[test]
fn the_order_of_the_questions() {
    let (long, wide) = (" ".repeat(65_536), format!("p({}).", several(17, |_| "a".into())));
    assert_eq!(number(format!("a b{long}%").as_bytes()), 20);
    assert_eq!(number(format!("{long}a b").as_bytes()), 21);
    assert_eq!(number(format!("{wide}{long}").as_bytes()), 22);
    assert_eq!(read(wide.as_bytes(), 5, 0).number, 22);
    assert_eq!(read(wide.as_bytes(), 6, 0).number, 3);
    let large = "p(x).".repeat(9_000);
    assert_eq!([ROOM - 1, ROOM].map(|room| read(large.as_bytes(), NAMES, room).number), [5, 10]);
    assert_eq!(read(format!("{large}{wide}").as_bytes(), NAMES, 0).number, 3);
}

#[test]
fn question_10() {
    // 5 bytes, and 5 for each fact
    let facts = |count: usize| "a.".repeat(count);
    assert_eq!([6_552, 6_553].map(|count| number(facts(count).as_bytes())), [0, 10]);
    // 8 bytes behind 6,551 facts are the last that fit
    for (tail, due) in [("a:-a.", 0), ("a(a).", 10), ("a:-true,true,true,fail.", 10), ("a:-true,fail.", 0)] {
        let reply = read(format!("{}{tail}", facts(6_551)).as_bytes(), NAMES, ROOM);
        assert_eq!(reply.number, due, "{tail}");
    }
    assert_eq!(read(format!("{}a:-a.", facts(6_551)).as_bytes(), NAMES, ROOM).bytes.len(), ROOM);
}

#[test]
fn deep_and_long() {
    let brackets = 32_700;
    let text = format!("p:-{}a{}.", "(".repeat(brackets), ")".repeat(brackets));
    gives(&text, &["p", "a"], &[plain(0, &atom(1, &[]))]);
    assert_eq!(number(format!("p:-{}a{}.", "(".repeat(brackets), ")".repeat(brackets - 1)).as_bytes()), 21);
    assert_eq!(number(format!("p({}a{}).", "f(".repeat(21_800), ")".repeat(21_800)).as_bytes()), 10);
    assert_eq!(number(format!("p({}a{}).", "f(".repeat(8_188), ")".repeat(8_188)).as_bytes()), 0);
    assert_eq!(number(format!("p({}a{}).", "f(".repeat(21_800), ")".repeat(21_801)).as_bytes()), 21);
    assert_eq!(number(format!("p:-a{}.", ",a".repeat(32_700)).as_bytes()), 10);
    assert_eq!(number(format!("p:-a{}.", ";a".repeat(32_700)).as_bytes()), 10);
    assert_eq!(number(format!("p:-{}a{}.", "(a,".repeat(6_000), ")".repeat(6_000)).as_bytes()), 0);
}

#[test]
fn queries() {
    asks("", "true", &[], &TRUE);
    asks(
        "p(a). p(X) :- X = b.",
        "p(Y), q(X, Y, b)",
        &["p", "a", "b", "q"],
        &conjunction(&atom(0, &[variable(0)]), &atom(3, &[variable(1), variable(0), constant(2)])),
    );
    asks("p(A,B,C).", " ( _ = _ ; fail ) \n", &["p"], &disjunction(&equality(&variable(0), &variable(1)), &FAIL));
    asks("p.", "true = p", &["p", "true"], &equality(&constant(1), &constant(0)));
    let number = |rules: &str, query: &str| read_query(rules.as_bytes(), query.as_bytes(), NAMES, ROOM).number;
    for query in ["", " ", "a.", "a :- b", ":- a", "X", "7", "a,", "(a", "a)", "(a) = b", "a b", ".", "a. b"] {
        assert_eq!(number("p.", query), 21, "{query}");
    }
    assert_eq!(number("p. %", "("), 20);
    assert_eq!(number("p :-", "a%"), 20);
    assert_eq!(number("p :-", "a"), 21);
    assert_eq!(number("p", "a"), 21);
}

#[test]
fn limits_of_queries() {
    let number = |rules: &str, query: &str| read_query(rules.as_bytes(), query.as_bytes(), NAMES, ROOM).number;
    let wide = format!("p({})", several(17, |_| "_".into()));
    let many = |count: usize| several(count, |_| "a=_".into());
    assert_eq!(number(&format!("{wide}."), &many(64)), 0);
    assert_eq!(number(&format!("p:-{}.", many(65)), "a"), 0);
    assert_eq!(number("", &wide), 3);
    assert_eq!([64, 65].map(|count| number("p.", &many(count))), [0, 3]);
    assert_eq!(number(&"a.".repeat(30_000), "a"), 0);
    // rules and query count together
    let long = |count: usize| " ".repeat(count);
    assert_eq!([65_532, 65_533].map(|count| number(&format!("p.{}", long(count)), "a")), [0, 22]);
    assert_eq!([65_532, 65_533].map(|count| number("p.", &format!("a{}", long(count)))), [0, 22]);
    assert_eq!([32_766, 32_767].map(|count| number(&format!("p.{}", long(32_766)), &format!("a{}", long(count)))), [0, 22]);
    assert_eq!(number(&format!("p.{}", long(65_535)), "a b"), 21);
    let named = |names: usize, out: usize| read_query(b"abc.", format!("abc, de, {wide}").as_bytes(), names, out).number;
    assert_eq!([11, 12].map(|room| named(room, 0)), [22, 3]);
    let exact = |room: usize| read_query(b"abc.", b"abc, de", room, ROOM).number;
    assert_eq!([8, 9].map(exact), [22, 0]);
    // 3 bytes, and 5 for each conjunct but the last, which has 4
    let conjuncts = |count: usize| several(count, |_| "a".into());
    assert_eq!(read_query(b"", conjuncts(6_553).as_bytes(), 3, ROOM).bytes.len(), 32_767);
    assert_eq!(number("", &format!("true,{}", conjuncts(6_553))), 10);
    assert_eq!(read_query(b"", format!("{},X=X", conjuncts(6_552)).as_bytes(), 3, ROOM).number, 10);
    assert_eq!(read_query(b"", conjuncts(6_554).as_bytes(), 3, ROOM - 1).number, 5);
}
