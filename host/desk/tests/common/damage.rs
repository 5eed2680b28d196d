//! Damaged rules and queries, and texts at the limits.

use super::dice::Dice;
use super::generated::{Generated, DOWN, DOWN_CLAUSES, PREDICATES};

/// The most bytes that rules and query may have together.
const MOST_BYTES: usize = 65_535;
/// How deep terms and brackets are nested: within what a record holds, about it, and as deep as a text can be.
const DEPTHS: [usize; 6] = [10, 1_000, 4_000, 8_000, 8_189, 30_000];
const SIGNS: &[u8] = b"()()(),,,;;=.._:-%'\"!\\[]|{}+-*/<>@#$ \t\r\n\0\x01\x1b\x7f\x80\xc3\xa9\xff0189aZzAX";
const TOKENS: [&str; 20] = ["p", "q(", "p(", "(", ")", ")", ",", ";", "=", ".", ".\n", ":-", "X", "Y", "_", "_Z", "true", "fail", "a", "% c\n"];

/// The first ones of the kinds are the usual ones: the others cost more time, or are refused at once.
pub const USUAL_KINDS: usize = 4;

/// Rules and a query.
#[derive(Clone, Debug)]
pub struct Texts {
    pub rules: Vec<u8>,
    pub query: Vec<u8>,
}

/// Makes texts of a kind, some of them from examples.
type Make = fn(&mut Dice, &[Texts]) -> Texts;

/// The kinds of texts.
pub const KINDS: [(&str, Make); 10] = [
    ("damaged examples", damaged_example),
    ("damaged garages", |dice, _| damaged_garage(dice)),
    ("changed garages", |dice, _| changed_garage(dice)),
    ("sound garages", |dice, _| garage(dice)),
    ("rings", |dice, _| ring(dice)),
    ("bytes", |dice, _| Texts { rules: bytes(dice, 300), query: bytes(dice, 40) }),
    ("tokens", |dice, _| Texts { rules: tokens(dice, 60), query: tokens(dice, 12) }),
    ("deep texts", |dice, _| deep(dice)),
    ("long texts", long),
    ("wide texts", |dice, _| wide(dice)),
];

fn damaged_example(dice: &mut Dice, examples: &[Texts]) -> Texts {
    let mut texts = dice.pick(examples).clone();
    damage(&mut texts, dice);
    texts
}

fn garage(dice: &mut Dice) -> Texts {
    let garage = Generated::new(dice);
    Texts { rules: garage.clauses.join("\n").into_bytes(), query: garage.query.into_bytes() }
}

fn damaged_garage(dice: &mut Dice) -> Texts {
    let mut texts = garage(dice);
    damage(&mut texts, dice);
    texts
}

/// A text that the library still reads: words become other words of their kind. No predicate becomes another one that is defined, and the clauses of
/// `down/1` and its calls stay, so that walks still end.
fn changed_garage(dice: &mut Dice) -> Texts {
    let Generated { clauses, query } = Generated::new(dice);
    let (kept, changed) = clauses.split_at(DOWN_CLAUSES.len());
    let rules = [kept.join("\n"), changed_words(&changed.join("\n"), dice)].join("\n");
    Texts { rules: rules.into_bytes(), query: changed_words(&query, dice).into_bytes() }
}

fn changed_words(text: &str, dice: &mut Dice) -> String {
    let is_word = |letter: char| letter.is_ascii_alphanumeric() || letter == '_';
    let mut parts: Vec<String> = text.replace(DOWN, "&").split_inclusive(|letter| !is_word(letter)).map(String::from).collect();
    for _ in 0..dice.below(4) {
        let place = dice.below(parts.len());
        let length = parts[place].trim_end_matches(|letter| !is_word(letter)).len();
        let others: &[&str] = match &parts[place][..length] {
            "" => continue,
            word if PREDICATES.iter().any(|(name, _)| *name == word) => &["takn", "x1"],
            word if word.starts_with(|letter: char| letter.is_ascii_lowercase()) => &["red", "deck", "taken", "x1"],
            _ => &["X", "Y", "_Z", "_", "W"],
        };
        parts[place].replace_range(..length, dice.pick::<&str>(others));
    }
    parts.concat().replace('&', DOWN)
}

/// Rules that call themselves: without end, or with a value that grows.
fn ring(dice: &mut Dice) -> Texts {
    let rules = *dice.pick(&[
        "ring :- ring.",
        "ring :- ring, ring ; true.",
        "grow(X) :- grow(at(X, X)).\nring :- grow(a).",
        "grow(X) :- X = at(Y, Y), grow(Y).\nring :- grow(_).",
        "way(X, X).\nway(X, Y) :- next(X, Z), way(Z, Y).\nnext(a, b).\nnext(b, a).\nring :- way(a, _).",
        "list(nil).\nlist(cons(_, Rest)) :- list(Rest).\nring :- list(_).",
    ]);
    Texts { rules: rules.into(), query: dice.pick(&["ring", "ring, X = a", "(ring ; X = a), ring"]).as_bytes().to_vec() }
}

fn damage(texts: &mut Texts, dice: &mut Dice) {
    for _ in 0..1 + dice.below(3) {
        let text = if dice.one_in(3) { &mut texts.query } else { &mut texts.rules };
        let (from, to) = span(text.len(), dice);
        match dice.below(6) {
            0 => text.truncate(from),
            1 => drop(text.drain(from..to)),
            2 => drop(text.splice(from..from, text[from..to].to_vec())),
            3 => text.insert(from, *dice.pick(SIGNS)),
            4 => drop(text.splice(from..from, dice.pick(&TOKENS).bytes())),
            _ => text.iter_mut().skip(from).take(1).for_each(|byte| *byte = *dice.pick(SIGNS)),
        }
    }
}

fn span(length: usize, dice: &mut Dice) -> (usize, usize) {
    let from = dice.below(length + 1);
    (from, from + dice.below((length - from).min(20) + 1))
}

fn bytes(dice: &mut Dice, most: usize) -> Vec<u8> {
    (0..dice.below(most)).map(|_| if dice.one_in(2) { *dice.pick(SIGNS) } else { dice.below(256) as u8 }).collect()
}

fn tokens(dice: &mut Dice, most: usize) -> Vec<u8> {
    (0..dice.below(most)).flat_map(|_| dice.pick(&TOKENS).bytes()).collect()
}

/// Deep brackets or a deep term, in the rules or in the query, now and then with a bracket too few.
fn deep(dice: &mut Dice) -> Texts {
    let depth = *dice.pick(&DEPTHS);
    let closed = depth - usize::from(dice.one_in(5));
    let nested = |open: &str, within: &str| format!("{}{within}{}", open.repeat(depth), ")".repeat(closed));
    let goal = match dice.below(5) {
        0 => nested("(", "p(X)"),
        1 => format!("p({})", nested("f(", "X")),
        2 => format!("X = {}, p(X)", nested("f(", "a")),
        3 => nested("(true,", "p(X)"),
        _ => nested("(fail;", "p(X)"),
    };
    let (rules, query) = if dice.one_in(2) { (format!("p(_).\nq :- {goal}.\n"), "q".into()) } else { ("p(Y) :- Y = f(_).\np(a).\n".into(), goal) };
    Texts { rules: rules.into_bytes(), query: query.into_bytes() }
}

/// Just the most bytes, or one fewer or more, by blanks, comments, a long name or a long line.
fn long(dice: &mut Dice, examples: &[Texts]) -> Texts {
    let mut texts = dice.pick(examples).clone();
    let length = MOST_BYTES - 1 + dice.below(3);
    let fill = length.saturating_sub(texts.query.len() + texts.rules.len());
    let filler = match dice.below(5) {
        0 => b" ".repeat(fill),
        1 => b"\n".repeat(fill),
        2 => [&b"%"[..], &b"c".repeat(fill.saturating_sub(2)), b"\n"].concat(),
        3 => [&b"\n"[..], &b"n".repeat(fill.saturating_sub(2)), b"."].concat(),
        _ => b"p.".repeat(fill / 2),
    };
    texts.rules.extend(filler);
    texts
}

/// Many arguments, many variables, many clauses, or nothing.
fn wide(dice: &mut Dice) -> Texts {
    let count = *dice.pick(&[0, 1, 15, 16, 17, 64, 65, 255, 256, 300]);
    let listed = |item: &dyn Fn(usize) -> String| (0..count).map(item).collect::<Vec<String>>().join(", ");
    let (rules, query) = match dice.below(6) {
        0 => (format!("p({}).", listed(&|_| "a".into())), "p(X)".to_string()),
        1 => ("p(a).".into(), format!("p({})", listed(&|number| format!("X{number}")))),
        2 => (format!("p :- {}.", listed(&|number| format!("X{number} = Y"))), "p".into()),
        3 => ((0..count * 10).map(|number| format!("p(X{number}, f(Y)) :- p{number}(Y).\n")).collect(), "p(A, B)".into()),
        4 => (String::new(), listed(&|_| "true".into())),
        _ => (String::new(), String::new()),
    };
    Texts { rules: rules.into_bytes(), query: query.into_bytes() }
}
