//! What a refusal of a text says beside its number: how many bytes, what could stand there, and words.

use fourport::{Clauses, Query, Refusal, TextRefusal, WhichText};

fn refused(which: WhichText, text: &[u8]) -> Option<TextRefusal> {
    match which {
        WhichText::Rules => Clauses::from_text(text).err(),
        WhichText::Query => Query::from_text("p.", text).err(),
    }
}

/// Words for what can stand at a place, and tokens that are of that sort.
const SORTS: [(&str, &[&str]); 10] = [
    ("`=`", &["= "]),
    ("`,`", &[", "]),
    ("`;`", &["; "]),
    ("`)`", &[") "]),
    ("`.`", &[". "]),
    ("`:-`", &[":- "]),
    ("a goal", &["a ", "true ", "X ", "7 ", "f(", "( "]),
    ("a term", &["a ", "true ", "X ", "7 ", "f("]),
    ("the head of a clause", &["a ", "f("]),
    ("the query's end", &[]),
];

const TOKENS: [&str; 13] = ["a ", "true ", "X ", "7 ", "f(", "( ", ") ", ", ", "; ", "= ", ":- ", ". ", "7a "];

/// Texts that stop being of the grammar somewhere: each front of them with a wrong word behind it.
fn wrong_texts() -> Vec<(WhichText, String)> {
    let rules = "p(f(X, 7), a) :- q, (X = f(a) ; true, 7 = X ; r(b)), (s). t. u(V) :- fail.";
    let query = "p(f(X, 7)), (X = a ; q, true = X), X = f(a)";
    let fronts = |which, text: &'static str| (0..=text.len()).filter_map(move |end| Some((which, format!("{} 7a", text.get(..end)?))));
    fronts(WhichText::Rules, rules).chain(fronts(WhichText::Query, query)).collect()
}

/// A token can stand at the place exactly where it is of a sort that is expected there.
#[test]
fn what_is_expected_can_stand_there() {
    let mut met = [0; SORTS.len()];
    for (which, text) in wrong_texts() {
        let Some(refusal) = refused(which, text.as_bytes()).filter(|refusal| refusal.refusal == Refusal::Text) else { panic!("{text}") };
        let place = refusal.place.expect("a place").offset;
        let front = &text[..place];
        let expected: Vec<&str> =
            SORTS.iter().filter(|(words, _)| refusal.expected.contains(words)).flat_map(|(_, tokens)| *tokens).copied().collect();
        assert!(["7a", ":"].contains(&&text[place..place + refusal.length]), "{text}");
        for token in TOKENS {
            let again = refused(which, format!("{front} {token}").as_bytes());
            let goes_on = again.map_or(true, |again| again.place.is_some_and(|there| there.offset > place + 1));
            assert_eq!(goes_on, expected.contains(&token), "{front}<here>, {token}: {}", refusal.expected);
        }
        assert_eq!(refusal.expected.contains("the query's end"), which == WhichText::Query && refused(which, front.as_bytes()).is_none(), "{text}");
        SORTS.iter().zip(&mut met).for_each(|((words, _), count)| *count += usize::from(refusal.expected.contains(words)));
    }
    assert!(met.iter().all(|&count| count > 0), "{met:?}");
}

fn told(which: WhichText, text: &[u8]) -> (String, usize, String) {
    let refusal = refused(which, text).unwrap_or_else(|| panic!("{}", String::from_utf8_lossy(text)));
    (refusal.words().into(), refusal.length, refusal.expected)
}

fn rules(text: &str, words: &str, length: usize, expected: &str) {
    assert_eq!(told(WhichText::Rules, text.as_bytes()), (words.into(), length, expected.into()), "{text}");
}

fn query(text: &str, words: &str, length: usize, expected: &str) {
    assert_eq!(told(WhichText::Query, text.as_bytes()), (words.into(), length, expected.into()), "{text}");
}

#[test]
fn words_for_wrong_places() {
    rules("red bay2.", "unexpected `bay2`", 4, "`:-` or `.`");
    rules("red(bay2) green.", "unexpected `green`", 5, "`:-` or `.`");
    rules("red(a) :- b c.", "unexpected `c`", 1, "`=`, `,`, `;` or `.`");
    rules("red(a) :- (X = b c).", "unexpected `c`", 1, "`,`, `;` or `)`");
    rules("red(a) :- (b.", "unexpected `.`", 1, "`=`, `,`, `;` or `)`");
    rules("red(a) :- .", "unexpected `.`", 1, "a goal");
    rules("red(a) :- X.", "unexpected `.`", 1, "`=`");
    rules("red(a b).", "unexpected `b`", 1, "`,` or `)`");
    rules("red(a,).", "unexpected `)`", 1, "a term");
    rules("red (a).", "unexpected `(`: between a name and its `(` there is no blank", 1, "`:-` or `.`");
    rules("red(a) :-", "the text ends within a clause", 0, "a goal");
    rules("red(a)", "the text ends within a clause: its full stop is missing", 0, "`:-` or `.`");
    query("red(X).", "a query has no full stop", 1, "`=`, `,`, `;` or the query's end");
    query("X = a . ", "a query has no full stop", 1, "`,`, `;` or the query's end");
    query("(red(X).", "unexpected `.`", 1, "`=`, `,`, `;` or `)`");
    query("red(X", "the text ends within a goal", 0, "`,` or `)`");
    query(" \n", "the query has no goal", 0, "a goal");
}

/// What people type who know another Prolog.
#[test]
fn words_for_what_is_not_there() {
    let head = "the head of a clause";
    rules("red(a)..", "one full stop too many", 1, head);
    rules(". red(a).", "one full stop too many", 1, head);
    rules(":- dynamic(red).", "unexpected `:-`: there are no directives", 2, head);
    rules("red(a).\n:- red(b).", "unexpected `:-`: there are no directives", 2, head);
    query(":- red(a)", "unexpected `:-`", 2, "a goal");
    rules("Red(a).", "unexpected `Red`: a predicate starts with a small letter", 3, head);
    rules("_red(a) :- b.", "unexpected `_red`: a predicate starts with a small letter", 4, head);
    query("Red(a)", "unexpected `(`: a name with arguments starts with a small letter", 1, "`=`");
    rules("red(Bay(a)).", "unexpected `(`: a name with arguments starts with a small letter", 1, "`,` or `)`");
    query("X is 3", "unexpected `is`: there is no arithmetic; equality is `=`", 2, "`=`");
    query("3 is X", "unexpected `is`: there is no arithmetic; equality is `=`", 2, "`=`");
    query("red is", "unexpected `is`", 2, "`=`, `,`, `;` or the query's end");
    query("X == a", "unexpected `=`: equality is one `=`", 1, "a term");
    query("X =:= a", "unexpected `:`: there is no arithmetic; equality is `=`", 1, "a term");
    rules("red(bay-7).", "unexpected `-`: names have letters, digits and _, and there is no arithmetic", 1, "`,` or `)`");
    rules("7a(b).", "unexpected `7a`: a name starts with a small letter", 2, head);
}

#[test]
fn words_for_wrong_signs() {
    let differ = "there is no inequality; write facts of what differs, such as differ(red, green)";
    let signs = [
        ("p. % red", "%", "comments are blanked before a text is read"),
        ("p. /* red */", "/*", "a comment goes from % to the end of the line"),
        ("p./* red */", "/*", "a comment goes from % to the end of the line"),
        ("p('Red').", "'", "there are no quoted names"),
        ("p(\"red\").", "\"", "there are no quoted names"),
        ("p([a, b]).", "[", "there are no lists"),
        ("p :- a | b.", "|", "\"or\" is written `;`"),
        ("p :- !.", "!", "there is no cut"),
        ("p :- \\+ q.", "\\+", "there is no negation"),
        ("p:-\\+q.", "\\+", "there is no negation"),
        ("p(A, B) :- A \\= B.", "\\=", differ),
        ("p(A, B) :- A \\== B.", "\\==", differ),
        ("p(X) :- X < 3.", "<", "there is no arithmetic"),
        ("p(X) :- X>=3.", ">=", "there is no arithmetic"),
        ("p :- X is 1 + 2.", "+", "there is no arithmetic"),
        ("p(taken/1).", "/", "there are no operators but `,` `;` `=` `:-`"),
        ("p. :- dynamic taken/1.", "/", "there are no directives"),
        (":- [p].", "[", "there are no directives"),
        (":- p. /* red */", "/*", "a comment goes from % to the end of the line"),
        (":- p. p(a/b).", "/", "there are no operators but `,` `;` `=` `:-`"),
        ("?- p.", "?-", "there are no directives"),
    ];
    signs.iter().for_each(|(text, sign, hint)| rules(text, &format!("`{sign}` cannot be used here: {hint}"), sign.len(), ""));
    rules("p(#).", "`#` cannot be used here", 1, "");
    query("?- p", "`?-` cannot be used here: a query is a goal alone", 2, "");
}

/// The place of an operator is its first byte that no text holds, and the words have all of it.
#[test]
fn words_for_operators_that_start_as_a_text_may() {
    rules("p :- (a -> b ; c).", "`->` cannot be used here: there is no if-then-else", 1, "");
    rules("p --> q.", "`-->` cannot be used here: there are no grammar rules", 1, "");
    rules("p(X) :- X =< 3.", "`=<` cannot be used here: there is no arithmetic", 1, "");
    rules("p :->q.", "`>` cannot be used here: there is no arithmetic", 1, "");
    let refusal = refused(WhichText::Rules, b"p :- (a -> b ; c).").expect("a refusal");
    assert_eq!(refusal.place.map(|place| place.offset), Some(9));
}

#[test]
fn words_for_wrong_letters() {
    let names = ": names have the letters a to z and A to Z, digits and _";
    let letters = [
        ("\u{e9}", "`\u{e9}` (U+00E9)", names),
        ("\u{301}", "an accent (U+0301)", names),
        ("\u{20ac}", "`\u{20ac}` (U+20AC)", ""),
        ("\u{201c}", "`\u{201c}` (U+201C)", ": there are no quoted names"),
        ("\u{2019}", "`\u{2019}` (U+2019)", ": there are no quoted names"),
        ("\u{2013}", "`\u{2013}` (U+2013)", ": the second sign of `:-` is a hyphen"),
        ("\u{feff}", "a byte order mark (U+FEFF)", ": save the text as UTF-8 without it"),
        ("\u{a0}", "a no-break space (U+00A0)", ": write a space"),
        ("\u{2003}", "a blank (U+2003)", ": write a space"),
        ("\u{200b}", "an invisible letter (U+200B)", ""),
        ("\u{e0041}", "an invisible letter (U+E0041)", ""),
        ("\u{ad}", "a soft hyphen (U+00AD)", ""),
        ("\u{7}", "a control character (U+0007)", ""),
        ("\u{0}", "a control character (U+0000)", ""),
        ("\u{9b}", "a control character (U+009B)", ""),
    ];
    for (letter, shown, hint) in letters {
        let words = format!("{shown} cannot be used here{hint}");
        [format!("p{letter}."), format!("{letter}p."), format!("p.{letter}")].iter().for_each(|text| rules(text, &words, letter.len(), ""));
    }
    // a byte that is no letter by itself, at the end too
    for (text, byte) in [(&b"p(\xe9)."[..], 0xe9), (b"p(\xf0\x9f\x98", 0xf0), (b"p.\x80", 0x80), (b"p\xff\xfe", 0xff)] {
        assert_eq!(told(WhichText::Rules, text), (format!("byte {byte} cannot be used here"), 1, String::new()));
    }
    assert_eq!(told(WhichText::Rules, b"\xff\xfep\0.\0").0, "byte 255 cannot be used here: save the text as UTF-8");
}

/// Clauses of which each has a line of its own, or more than one.
const CLAUSES: [&str; 7] = ["p(a).", "  r.", "p(X) :- q(X).", "q(b) :-\n  p(a),\n  (r ; X = f(X)).", "r :- true.  ", "p :- X = s.\n\n", "s."];

/// Where the full stop of one clause is taken away, the place of it is told, and with it there the text is read.
#[test]
fn full_stops_that_are_missing() {
    let whole = CLAUSES.join("\n");
    let stops: Vec<usize> = whole.bytes().enumerate().filter(|(_, byte)| *byte == b'.').map(|(at, _)| at).collect();
    for &stop in &stops {
        for end in ["\n", "\r\n", " \n \n"] {
            let text = [&whole[..stop], &whole[stop + 1..].replacen('\n', end, 1)].concat();
            let refusal = refused(WhichText::Rules, text.as_bytes()).unwrap_or_else(|| panic!("{text}"));
            assert_eq!(refusal.missing_stop.map(|place| place.offset), Some(stop), "{text}: {refusal}");
            assert!(
                refusal.place.is_some_and(|place| place.offset > stop || text.len() == stop) && refusal.words().contains("full stop"),
                "{refusal}"
            );
            assert_eq!(refused(WhichText::Rules, [&text[..stop], ".", &text[stop..]].concat().as_bytes()), None);
        }
    }
    assert_eq!(stops.len(), CLAUSES.len());
    let refusal = refused(WhichText::Rules, b"p(a)\np(b).").expect("a refusal");
    assert_eq!(refusal.words(), "unexpected `p(`: the clause before it has no full stop");
}

/// Something else is missing: on the same line, behind what is no end of a clause, before what starts none, before a goal more; and a query has none.
#[test]
fn no_full_stop_is_missing() {
    for text in ["p q.", "p(\nq.", "p :-", "p :- X\nq.", "p :- (q\nr.", "p\n).", "p :- q\n= r = s.", "p :- q\n  r.", "p..", "p(a)\n."] {
        assert_eq!(refused(WhichText::Rules, text.as_bytes()).and_then(|refusal| refusal.missing_stop), None, "{text}");
    }
    for text in ["p\nq", "p\nq.", "p.", "(p", ""] {
        assert_eq!(refused(WhichText::Query, text.as_bytes()).and_then(|refusal| refusal.missing_stop), None, "{text}");
    }
}

#[test]
fn words_for_too_much() {
    rules(&format!("p({}abc).", "a, ".repeat(16)), "this is a 17th argument", 3, "");
    let variables: Vec<String> = (10..75).map(|number| format!("V{number}")).collect();
    query(&variables.join(" = b, ").replace("V74", "V74 = b"), "this is a 65th variable", 3, "");
    query(&"a, ".repeat(21_000), "the text ends within a goal", 0, "a goal");
    query(&format!("{}a", "a, ".repeat(21_000)), "the record has over 32,768 bytes", 0, "");
}
