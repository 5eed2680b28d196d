//! The dearest texts that we know, as long as a text may be: each read as clauses, and where it is a goal behind rules also as a query, which counts with
//! its rules.

use crate::clock::least;
use crate::desk::Desk;
use layout::RECORD_LIMIT as ROOM;

type Bytes = Vec<u8>;

/// The longest text.
const LONGEST: usize = 65_535;
/// More than the names of any two texts need.
const NAMES: usize = 4 * LONGEST;
/// Times that each text is read.
const TIMES: u32 = 7;
/// What words may go on with.
const LETTERS: &[u8] = b"abcdefghijklmnopqrstuvwxyzABCDEFGHIJKLMNOPQRSTUVWXYZ0123456789_";
/// The letters of a name whose way through a tree of letters has siblings at each of them.
const CHAIN: usize = 11;

struct Text {
    words: &'static str,
    rules: Bytes,
    query: Option<Bytes>,
}

/// A text of `before`, as many parts as fit, and `after`.
fn filled(before: &str, after: &str, part: impl Fn(usize) -> String) -> Bytes {
    filled_to(LONGEST, before, after, part)
}

/// The same, of at most that many bytes.
fn filled_to(length: usize, before: &str, after: &str, part: impl Fn(usize) -> String) -> Bytes {
    let (mut text, mut count) = (before.to_string(), 0);
    while text.len() + part(count).len() + after.len() <= length {
        text += &part(count);
        count += 1;
    }
    (text + after).into_bytes()
}

fn nested(length: usize, before: &str, open: &str, inside: &str, after: &str) -> Bytes {
    let count = (length - before.len() - inside.len() - after.len()) / (open.len() + 1);
    [before, &open.repeat(count), inside, &")".repeat(count), after].concat().into_bytes()
}

/// The name with that number: the first letter is small, and short names come first.
fn name(number: usize) -> String {
    let mut name = String::from(char::from(LETTERS[number % 26]));
    let mut rest = number / 26;
    while rest > 0 {
        name.push(char::from(LETTERS[(rest - 1) % LETTERS.len()]));
        rest = (rest - 1) / LETTERS.len();
    }
    name
}

/// Names that differ from a chain in its last letter, for each of its fronts: before the chain, so that its letters are the last siblings, or behind it,
/// so that they are the first; and then the chain again and again.
fn siblings(length: usize, chain_first: bool) -> Bytes {
    let chain = "a".repeat(CHAIN);
    let fact = |name: &str| format!("{name}.");
    let others = |length: usize| {
        LETTERS.iter().map(move |&letter| (length, letter)).filter(|&(length, letter)| letter != b'a' && (length > 0 || letter.is_ascii_lowercase()))
    };
    let beside: String = (0..CHAIN).flat_map(others).map(|(length, letter)| fact(&format!("{}{}", &chain[..length], char::from(letter)))).collect();
    let before = if chain_first { fact(&chain) + &beside } else { beside };
    filled_to(length, &before, "", |_| fact(&chain))
}

/// Equalities over 64 variables with a front of that length in common.
fn variables(front: usize) -> Bytes {
    let variable = |i: usize| format!("X{}{}", "x".repeat(front), char::from(LETTERS[i % 63]));
    filled("p:-true", ".", |i| format!(",a={}", variable(i)))
}

/// The goal of a text that is one clause without arguments of its head.
fn goal(clause: &[u8]) -> Option<Bytes> {
    clause.strip_prefix(b"p:-")?.strip_suffix(b".").map(Vec::from)
}

fn texts() -> Vec<Text> {
    let one = |words: &'static str, rules: Bytes| Text { words, query: goal(&rules), rules };
    let both = |words: &'static str, rules: Bytes, query: Bytes| Text { words, rules, query: Some(query) };
    let listed = |text: &[u8]| String::from_utf8_lossy(text).replace('.', ",").trim_end_matches(',').as_bytes().to_vec();
    let half = LONGEST / 2;
    let (oldest, newest) = (siblings(half, true), siblings(half, false));
    let fact = |number: usize| format!("{}.", name(number));
    vec![
        one("brackets", nested(LONGEST, "p:-", "(", "a", ".")),
        one("terms in terms", nested(LONGEST, "p(", "f(", "a", ").")),
        one("conjuncts", filled("p:-a", ".", |_| ",a".into())),
        one("disjuncts", filled("p:-a", ".", |_| ";a".into())),
        one("facts", filled("", "", |_| "a.".into())),
        one("names, all different", filled("", "", fact)),
        one("one name", [vec![b'x'; LONGEST - 1], b".".to_vec()].concat()),
        one("64 variables, a long front in common", variables(500)),
        one("64 variables, a short front in common", variables(2)),
        one("lone underscores", filled("p:-a", ".", |_| ",_=_".into())),
        one("blanks", vec![b' '; LONGEST]),
        one("names whose letters are the oldest siblings", siblings(LONGEST, true)),
        one("names whose letters are the newest siblings", siblings(LONGEST, false)),
        both("such names in rules and query, oldest", oldest.clone(), listed(&oldest)),
        both("such names in rules and query, newest", newest.clone(), listed(&newest)),
        both("different names in rules, brackets in the query", filled_to(half, "", "", fact), nested(half, "", "(", "a", "")),
    ]
}

/// Milliseconds, and what was answered and written.
fn timed(desk: &dyn Desk, rules: &[u8], query: Option<&[u8]>) -> (f64, u32, Bytes) {
    let (mut names, mut out) = (vec![0; NAMES], vec![0; ROOM]);
    let mut call = || match query {
        None => desk.read(rules, &mut names, &mut out),
        Some(query) => desk.read_query(rules, query, &mut names, &mut out),
    };
    let number = call();
    let time = least(TIMES, || assert_eq!(call(), number));
    (time.as_secs_f64() * 1e3, number, [names, out].concat())
}

fn row(desk: &dyn Desk, twin: &dyn Desk, words: &str, rules: &[u8], query: Option<&[u8]>) -> (f64, String) {
    let (time, number, written) = timed(desk, rules, query);
    let (twin_time, twin_number, twin_written) = timed(twin, rules, query);
    assert!((number, written) == (twin_number, twin_written), "{words}: desk {number}, twin {twin_number}");
    let (service, length) = query.map_or_else(|| ("read", rules.len()), |query| ("read_query", rules.len() + query.len()));
    (time, format!("| {words} | {service} | {length} | {number} | {time:.2} | {twin_time:.2} |"))
}

/// The rows of a text: read as clauses, and as a query behind them or behind none.
fn rows(desk: &dyn Desk, twin: &dyn Desk, text: &Text) -> Vec<(f64, String)> {
    let Text { words, rules, query } = text;
    let alone = query.as_deref().is_some_and(|query| goal(rules).as_deref() == Some(query));
    let read = (alone || query.is_none()).then(|| row(desk, twin, words, rules, None));
    let asked = query.as_deref().map(|query| row(desk, twin, words, if alone { b"" } else { rules }, Some(query)));
    read.into_iter().chain(asked).collect()
}

pub fn table(desk: &dyn Desk, twin: &dyn Desk) {
    let mut found: Vec<(f64, String)> = texts().iter().flat_map(|text| rows(desk, twin, text)).collect();
    found.sort_by(|one, other| other.0.total_cmp(&one.0));
    println!("Milliseconds of single texts, as long as they may be (number: the answer):\n");
    println!("| text | service | bytes | number | desk | twin |");
    println!("|{}", "---|".repeat(6));
    found.iter().for_each(|(_, row)| println!("{row}"));
    println!();
}
