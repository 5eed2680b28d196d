//! Texts of clauses and of goals: with any spacing, near the limits, and with a byte changed.

use super::Dice;

/// Blanks of each kind.
const BLANKS: &[u8] = b"\t\n\r ";
const NAMES: [&str; 14] = ["a", "b", "p", "q", "f", "nil", "true", "fail", "truely", "fail1", "x_", "aB9_", "p1", "zZ"];
const NUMBERS: [&str; 6] = ["7", "07", "0", "00", "10", "65536"];
const VARIABLES: [&str; 9] = ["X", "Y", "Z", "_", "_", "_1", "V0", "Xs", "__"];
/// What a byte may become: every byte of tokens and blanks, and some that stand in no text.
const BYTES: &[u8] = b"abpqXY_07:-=;,().(), \t\n\r%'!+\x00\x0b\x7f\xff";

/// How blanks are strewn: between two tokens there are some in one of so many places.
#[derive(Clone, Copy)]
struct Spacing(usize);

/// Writes a text, token by token.
struct Pen<'d> {
    dice: &'d mut Dice,
    spacing: Spacing,
    text: Vec<u8>,
}

impl Pen<'_> {
    fn new(dice: &mut Dice) -> Pen<'_> {
        let spacing = Spacing(*dice.pick(&[1, 2, 6, 1_000]));
        Pen { dice, spacing, text: Vec::new() }
    }

    fn blanks(&mut self) {
        if self.dice.one_in(self.spacing.0) {
            let count = self.dice.between(1, 3);
            (0..count).for_each(|_| self.text.push(*self.dice.pick(BLANKS)));
        }
    }

    /// The token, between blanks or none.
    fn put(&mut self, token: &str) {
        self.blanks();
        self.text.extend(token.bytes());
    }

    /// A name; mostly one of a few, sometimes a longer one.
    fn name(&mut self) -> String {
        if self.dice.one_in(12) {
            let length = self.dice.between(1, 9);
            let rest: String = (0..length).map(|_| char::from(*self.dice.pick(b"abyzAZ019_"))).collect();
            return format!("{}{rest}", *self.dice.pick(&["a", "k", "z"]));
        }
        self.dice.pick(&NAMES).to_string()
    }

    /// So many things, parted by the mark.
    fn parted(&mut self, count: usize, mark: &str, mut one: impl FnMut(&mut Self)) {
        for i in 0..count {
            if i > 0 {
                self.put(mark);
            }
            one(self);
        }
    }

    /// A name with so many arguments; the bracket stands directly behind it.
    fn applied(&mut self, name: &str, arity: usize, depth: usize) {
        self.put(name);
        if arity > 0 {
            self.text.push(b'(');
            self.parted(arity, ",", |pen| pen.term(depth));
            self.put(")");
        }
    }

    fn term(&mut self, depth: usize) {
        match self.dice.below(10) {
            0..=3 => {
                let variable = self.dice.pick(&VARIABLES).to_string();
                self.put(&variable);
            }
            4 => {
                let number = self.dice.pick(&NUMBERS).to_string();
                self.put(&number);
            }
            5 | 6 if depth > 0 => self.compound(depth - 1),
            _ => {
                let name = self.name();
                self.put(&name);
            }
        }
    }

    fn compound(&mut self, depth: usize) {
        let (name, arity) = (self.name(), self.arity());
        self.applied(&name, arity.max(1), depth);
    }

    /// Mostly small, seldom at the limit or above it.
    fn arity(&mut self) -> usize {
        match self.dice.below(120) {
            0 => 16,
            1 => 17,
            2 => self.dice.between(4, 30),
            _ => self.dice.below(4),
        }
    }

    /// Parts joined by commas and semicolons, with brackets that are needed and brackets that are not.
    fn goal(&mut self, depth: usize) {
        let count = *self.dice.pick(&[1, 1, 1, 2, 2, 3, 4]);
        for i in 0..count {
            if i > 0 {
                let mark = mark(self.dice);
                self.put(mark);
            }
            self.part(depth);
        }
    }

    fn part(&mut self, depth: usize) {
        match self.dice.below(12) {
            0 | 1 if depth > 0 => {
                self.put("(");
                self.goal(depth - 1);
                self.put(")");
            }
            2..=5 => {
                self.term(2);
                self.put("=");
                self.term(2);
            }
            6 => self.put("true"),
            7 => self.put("fail"),
            _ => {
                let (name, arity) = (self.name(), self.arity());
                self.applied(&name, arity, 2);
            }
        }
    }

    fn clause(&mut self) {
        let (mut name, arity) = (self.name(), self.arity());
        if arity == 0 && (name == "true" || name == "fail") {
            name.push('h');
        }
        self.applied(&name, arity, 2);
        if !self.dice.one_in(3) {
            self.put(":-");
            self.goal(2);
        }
        self.put(".");
    }
}

/// A text of the grammar.
pub fn rules(dice: &mut Dice) -> Vec<u8> {
    let count = *dice.pick(&[0, 1, 1, 2, 3, 5, 20]);
    let mut pen = Pen::new(dice);
    (0..count).for_each(|_| pen.clause());
    pen.blanks();
    pen.text
}

/// A goal of the grammar.
pub fn query(dice: &mut Dice) -> Vec<u8> {
    let mut pen = Pen::new(dice);
    pen.goal(3);
    pen.blanks();
    pen.text
}

/// The length of a buffer for names that need so many bytes: mostly enough, or one too few.
pub fn names_room(dice: &mut Dice, named: usize) -> usize {
    let less = dice.below(named + 1);
    *dice.pick(&[named, named, named + 1, named.saturating_sub(1), named.saturating_sub(1), less, 0])
}

/// Tokens in any order.
pub fn soup(dice: &mut Dice) -> Vec<u8> {
    let tokens = ["a", "true", "p(", "f(", "X", "_", "7", "(", ")", ")", ",", ",", ";", "=", ":-", ".", ".", ":", "-", " ", "\n"];
    (0..dice.between(1, 12)).flat_map(|_| dice.pick(&tokens).bytes().collect::<Vec<_>>()).collect()
}

/// What was done to a byte of a text.
#[derive(Clone, Copy, PartialEq, Eq)]
pub enum Change {
    Changed,
    Inserted,
    Removed,
}

/// The text with one byte changed, put in or taken out.
pub fn changed(dice: &mut Dice, text: &[u8]) -> (Vec<u8>, Change) {
    let mut text = text.to_vec();
    let at = dice.below(text.len());
    let byte = if dice.one_in(20) { dice.byte() } else { *dice.pick(BYTES) };
    match dice.below(3) {
        0 if !text.is_empty() => {
            text[at] = byte;
            (text, Change::Changed)
        }
        1 if !text.is_empty() => {
            text.remove(at);
            (text, Change::Removed)
        }
        _ => {
            text.insert(dice.below(text.len() + 1), byte);
            (text, Change::Inserted)
        }
    }
}

/// Blanks, or a clause of one long name, behind or before a text so that it has that many bytes.
pub fn stretched(dice: &mut Dice, text: &[u8], length: usize) -> Vec<u8> {
    let left = length.saturating_sub(text.len());
    let filling = match dice.below(3) {
        0 if left > 1 => [&vec![*dice.pick(b"az"); left - 1][..], b"."].concat(),
        _ => vec![*dice.pick(BLANKS); left],
    };
    if dice.one_in(2) {
        [text, &filling].concat()
    } else {
        [&filling, text].concat()
    }
}

// ---- Families of long texts
pub fn brackets(count: usize) -> Vec<u8> {
    [b"p:-", &b"(".repeat(count)[..], b"a", &b")".repeat(count), b"."].concat()
}

pub fn deep_term(count: usize) -> Vec<u8> {
    [b"p(", &b"f(".repeat(count)[..], b"a", &b")".repeat(count), b")."].concat()
}

/// A sign between goals.
pub fn mark(dice: &mut Dice) -> &'static str {
    if dice.one_in(2) {
        ","
    } else {
        ";"
    }
}

pub fn conjuncts(count: usize, mark: &str) -> Vec<u8> {
    format!("p:-{}.", vec!["a"; count].join(mark)).into_bytes()
}

/// Facts whose names are all different, in a text of at most that many bytes.
pub fn facts_of_many_names(length: usize) -> Vec<u8> {
    let (mut text, mut number) = (Vec::new(), 0);
    while text.len() + name(number).len() < length {
        text.extend(name(number));
        text.push(b'.');
        number += 1;
    }
    text
}

/// The name with that number: the first letter is small, and short names come first.
fn name(number: usize) -> Vec<u8> {
    let letters = b"abcdefghijklmnopqrstuvwxyzABCDEFGHIJKLMNOPQRSTUVWXYZ0123456789_";
    let (mut name, mut rest) = (vec![letters[number % 26]], number / 26);
    while rest > 0 {
        name.push(letters[(rest - 1) % letters.len()]);
        rest = (rest - 1) / letters.len();
    }
    name
}

/// Equalities with so many variables that share a long front; a clause.
pub fn long_variables(count: usize, front: usize) -> Vec<u8> {
    let part = |i: usize| format!("a=X{}{i}", "x".repeat(front));
    format!("p:-{}.", (0..count).map(part).collect::<Vec<_>>().join(",")).into_bytes()
}

/// A text whose clause record has exactly that many bytes, 20 or more: facts of 5 bytes, and a last clause with the rest.
pub fn of_record(length: usize) -> Vec<u8> {
    let facts = (length - 5) / 5 - 3;
    let goal = goal_of(length - 5 - 5 * facts - 4);
    [&b"a.".repeat(facts)[..], b"a:-", &goal, b"."].concat()
}

/// A goal that takes that many bytes of a record, 8 or more: with its comma a name takes 5 of them, and true takes 2.
pub fn goal_of(bytes: usize) -> Vec<u8> {
    let trues = 3 * (bytes + 1) % 5;
    let names = (bytes + 1 - 2 * trues) / 5;
    [vec!["a"; names], vec!["true"; trues]].concat().join(",").into_bytes()
}
