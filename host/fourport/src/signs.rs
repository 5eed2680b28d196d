//! Words for a byte that no text holds: the letter or sign that stands there, and what people look for with it.

use crate::{tokens, TokenKind, WhichText};

/// The most bytes of a letter.
const MOST_LETTER: usize = 4;

/// What the signs of operators are made of; those of `BEFORE` can stand in a text, so that an operator may start with them.
const SIGNS: &[u8] = b"+-*/\\^<>=~:?@#&$|";
const BEFORE: &[u8] = b"-=:";

const NECK: &[u8] = b":-";
const COMMENT: &[u8] = b"/*";
const COMMENTS: &str = "a comment goes from % to the end of the line";
const DIRECTIVES: &str = "there are no directives";
const NAMES: &str = "names have the letters a to z and A to Z, digits and _";
const QUOTED: &str = "there are no quoted names";

/// What a file starts with that is saved as UTF-16.
const UTF_16: [&[u8]; 2] = [b"\xff\xfe", b"\xfe\xff"];

/// What is said of the byte at a place, and how many bytes from there on it is said of.
pub fn refused_byte(text: &[u8], at: usize, which: WhichText) -> (String, usize) {
    let rest = text.get(at..).unwrap_or_default();
    let (shown, length, hint) = match letter(rest) {
        Some(letter) if letter.is_ascii_graphic() => sign(text, at, which, letter),
        Some(letter) => (named(letter), letter.len_utf8(), of_letter(letter)),
        None => (format!("byte {}", rest.first().copied().unwrap_or_default()), 1, of_byte(text, at)),
    };
    let hint = hint.map_or_else(String::new, |hint| format!(": {hint}"));
    (format!("{shown} cannot be used here{hint}"), length)
}

/// The letter or sign at the front, where the bytes are one.
fn letter(bytes: &[u8]) -> Option<char> {
    let front = bytes.get(..MOST_LETTER).unwrap_or(bytes);
    let valid = match std::str::from_utf8(front) {
        Ok(text) => text,
        Err(error) => std::str::from_utf8(front.get(..error.valid_up_to())?).ok()?,
    };
    valid.chars().next()
}

/// A sign, or the operator that it belongs to where that is one that people know.
fn sign(text: &[u8], at: usize, which: WhichText, sign: char) -> (String, usize, Option<&'static str>) {
    let (before, rest) = (text.get(..at).unwrap_or(text), text.get(at..).unwrap_or_default());
    if rest.starts_with(COMMENT) {
        return ("`/*`".into(), COMMENT.len(), Some(COMMENTS));
    }
    let length = rest.iter().take_while(|byte| SIGNS.contains(byte)).count();
    let earlier = before.iter().rev().take_while(|byte| BEFORE.contains(byte)).count();
    let run = text.get(at - earlier..at + length).unwrap_or_default();
    let run = if earlier >= NECK.len() { run.strip_prefix(NECK).unwrap_or(run) } else { run };
    let operator = of_operator(run, which);
    let hint = if sign != '%' && which == WhichText::Rules && in_directive(before) { Some(DIRECTIVES) } else { operator.or_else(|| of_sign(sign)) };
    match operator {
        Some(_) => (format!("`{}`", String::from_utf8_lossy(run)), length, hint),
        None => (format!("`{sign}`"), sign.len_utf8(), hint),
    }
}

/// Does the clause that the text ends in start with `:-`?
fn in_directive(text: &[u8]) -> bool {
    let (mut starts, mut directive) = (true, false);
    for token in tokens(text) {
        directive = if starts { token.kind == TokenKind::Neck } else { directive };
        starts = token.kind == TokenKind::Stop;
    }
    directive && !starts
}

/// What there is in place of an operator.
fn of_operator(operator: &[u8], which: WhichText) -> Option<&'static str> {
    Some(match operator {
        b"->" | b"*->" => "there is no if-then-else",
        b"-->" => "there are no grammar rules",
        b"\\+" => "there is no negation",
        b"\\=" | b"\\==" | b"=\\=" => "there is no inequality; write facts of what differs, such as differ(red, green)",
        b"<" | b">" | b"=<" | b">=" | b"<=" => "there is no arithmetic",
        b"|" | b"||" => "\"or\" is written `;`",
        b"&" | b"&&" => "\"and\" is written `,`",
        b"?-" if which == WhichText::Rules => DIRECTIVES,
        b"?-" => "a query is a goal alone",
        _ => return None,
    })
}

/// What a text would have if the sign could stand in it, as far as people look for it.
fn of_sign(sign: char) -> Option<&'static str> {
    Some(match sign {
        '%' => "comments are blanked before a text is read",
        '\'' | '"' | '`' => QUOTED,
        '[' | ']' => "there are no lists",
        '!' => "there is no cut",
        '\\' => "there is no negation",
        '/' => "there are no operators but `,` `;` `=` `:-`",
        '<' | '>' | '+' | '*' | '^' => "there is no arithmetic",
        _ => return None,
    })
}

/// A letter that is none of ASCII's, or that cannot be seen, with its code point.
fn named(letter: char) -> String {
    let shown = match letter {
        '\u{feff}' => "a byte order mark".into(),
        '\u{a0}' | '\u{202f}' => "a no-break space".into(),
        '\u{ad}' => "a soft hyphen".into(),
        '\u{300}'..='\u{36f}' => "an accent".into(),
        _ if is_invisible(letter) => "an invisible letter".into(),
        _ if letter.is_whitespace() => "a blank".into(),
        _ if letter.is_control() => "a control character".into(),
        _ => format!("`{letter}`"),
    };
    format!("{shown} (U+{:04X})", u32::from(letter))
}

/// Joiners, marks of direction and the like.
fn is_invisible(letter: char) -> bool {
    matches!(letter, '\u{61c}' | '\u{180e}' | '\u{200b}'..='\u{200f}' | '\u{202a}'..='\u{202e}' | '\u{2060}'..='\u{206f}'
        | '\u{fe00}'..='\u{fe0f}' | '\u{fff9}'..='\u{fffb}' | '\u{e0000}'..='\u{e01ef}')
}

fn of_letter(letter: char) -> Option<&'static str> {
    Some(match letter {
        '\u{feff}' => "save the text as UTF-8 without it",
        '\u{2018}'..='\u{201f}' | '\u{ab}' | '\u{bb}' => QUOTED,
        '\u{2010}'..='\u{2015}' | '\u{2212}' => "the second sign of `:-` is a hyphen",
        '\u{300}'..='\u{36f}' => NAMES,
        _ if letter.is_alphabetic() => NAMES,
        _ if letter.is_whitespace() => "write a space",
        _ => return None,
    })
}

fn of_byte(text: &[u8], at: usize) -> Option<&'static str> {
    (at == 0 && UTF_16.iter().any(|mark| text.starts_with(mark))).then_some("save the text as UTF-8")
}
