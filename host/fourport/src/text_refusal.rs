//! Refusals of a text in words, with their place.

use crate::scanner::{self, Over, Whole, Wrong};
use crate::{misplaced, signs, Refusal, Token, TEXT_LIMIT};
use std::fmt;

/// The digits between two commas of a number.
const GROUP: usize = 3;

/// Which of the lent texts a refusal is about.
#[derive(Clone, Copy, Debug, PartialEq, Eq, Hash)]
pub enum WhichText {
    /// the clauses
    Rules,
    /// the goal
    Query,
}

/// A place in a text.
#[derive(Clone, Copy, Debug, PartialEq, Eq, Hash)]
pub struct Place {
    /// the bytes before it
    pub offset: usize,
    /// the line, from 1; a line feed ends a line
    pub line: usize,
    /// the byte in the line, from 1
    pub column: usize,
}

/// A text that was refused. `Display` says by what and where.
///
/// The refusal is the desk's own answer. The place is not: it is found by this crate, with a table of what may follow what. For question 20 it is the
/// first byte that no text holds; for 21 the first token at which no clause can go on, or the text's end; for 3 the first argument or variable that is
/// too much. For 22 and 10, which are about the whole, there is none.
///
/// ```
/// use fourport::{Clauses, Place, Refusal};
/// let refused = Clauses::from_text("red(bay1).\nred bay2.").unwrap_err();
/// assert_eq!(refused.refusal, Refusal::Text);
/// assert_eq!(refused.place, Some(Place { offset: 15, line: 2, column: 5 }));
/// assert_eq!(refused.to_string(), "the rules, line 2, column 5: unexpected `bay2` (question 21)");
/// assert_eq!((refused.length, &refused.expected[..]), (4, "`:-` or `.`"));
/// ```
#[derive(Clone, Debug, PartialEq, Eq, Hash)]
pub struct TextRefusal {
    /// the question that was answered no: its [`number`](Refusal::number) is the desk's
    pub refusal: Refusal,
    /// the text that it is about
    pub text: WhichText,
    /// where in the text
    pub place: Option<Place>,
    /// how many bytes stand there that are refused: those of the token, letter or sign; 0 at the text's end, and where there is no place
    pub length: usize,
    /// what could stand there instead, in words; empty for other questions than 21
    pub expected: String,
    /// where a full stop would stand, if the clause before the place seems to lack it: behind its last token
    ///
    /// ```
    /// # use fourport::{Clauses, Place};
    /// let refused = Clauses::from_text("red(bay1)\nred(bay2).").unwrap_err();
    /// assert_eq!(refused.place, Some(Place { offset: 10, line: 2, column: 1 }));
    /// assert_eq!(refused.missing_stop, Some(Place { offset: 9, line: 1, column: 10 }));
    /// ```
    pub missing_stop: Option<Place>,
    words: Box<Words>,
}

/// Words behind a pointer, since a large error makes every result large.
#[derive(Clone, Debug, PartialEq, Eq, Hash)]
struct Words(String);

impl TextRefusal {
    /// What is refused, without question and place.
    ///
    /// ```
    /// # use fourport::{Clauses, Query};
    /// assert_eq!(Clauses::from_text("light(bay1, red) :- !.").unwrap_err().words(), "`!` cannot be used here: there is no cut");
    /// assert_eq!(Query::from_text("", "light(bay1, Light).").unwrap_err().words(), "a query has no full stop");
    /// ```
    pub fn words(&self) -> &str {
        &self.words.0
    }
}

impl Place {
    /// The place that has so many bytes before it, or the text's end where there are not so many.
    ///
    /// ```
    /// # use fourport::Place;
    /// assert_eq!(Place::of(b"taken(bay1).\ntaken(bay2).", 19), Place { offset: 19, line: 2, column: 7 });
    /// assert_eq!(Place::of(b"taken(bay1).", 19), Place { offset: 12, line: 1, column: 13 });
    /// ```
    pub fn of(text: &[u8], offset: usize) -> Place {
        let before = text.get(..offset).unwrap_or(text);
        let line = 1 + before.iter().filter(|&&byte| byte == b'\n').count();
        let column = 1 + before.iter().rev().take_while(|&&byte| byte != b'\n').count();
        Place { offset: before.len(), line, column }
    }
}

impl fmt::Display for TextRefusal {
    fn fmt(&self, f: &mut fmt::Formatter<'_>) -> fmt::Result {
        f.write_str(if self.text == WhichText::Rules { "the rules" } else { "the query" })?;
        if let Some(Place { line, column, .. }) = self.place {
            write!(f, ", line {line}, column {column}")?;
        }
        write!(f, ": {} (question {})", self.words(), self.refusal.number())
    }
}

impl std::error::Error for TextRefusal {}

/// A text and what it is to be.
#[derive(Clone, Copy)]
pub struct Lent<'t> {
    pub text: &'t [u8],
    pub which: WhichText,
}

/// A place that is refused, and how many bytes, with words for it.
struct Found {
    at: usize,
    length: usize,
    words: String,
    expected: String,
    missing_stop: Option<usize>,
}

impl Found {
    fn at(at: usize, length: usize, words: String) -> Found {
        Found { at, length, words, expected: String::new(), missing_stop: None }
    }
}

impl Lent<'_> {
    fn whole(self) -> Whole {
        match self.which {
            WhichText::Rules => Whole::Clauses,
            WhichText::Query => Whole::Goal,
        }
    }

    /// The place in this text where the question is answered no, with words for it; nothing where it is answered yes.
    fn found(self, refusal: Refusal) -> Option<Found> {
        match refusal {
            Refusal::Byte => scanner::wrong_byte(self.text).map(|at| self.no_byte(at)),
            Refusal::Text => scanner::wrong_place(self.text, self.whole()).map(|wrong| self.no_token(wrong)),
            Refusal::Grammar(_) => scanner::too_much(self.text, self.whole()).map(|(token, over)| no_more(token, over)),
            _ => None,
        }
    }

    fn no_byte(self, at: usize) -> Found {
        let (words, length) = signs::refused_byte(self.text, at, self.which);
        Found::at(at, length, words)
    }

    fn no_token(self, wrong: Wrong<'_>) -> Found {
        let missing_stop = misplaced::missing_stop(self.text, &wrong);
        let words = misplaced::words(&wrong, self.which, missing_stop.is_some());
        let (at, length) = wrong.token.map_or((self.text.len(), 0), |token| (token.at, token.bytes.len()));
        Found { expected: wrong.expected, missing_stop, ..Found::at(at, length, words) }
    }

    fn refused(self, refusal: Refusal, Found { at, length, words, expected, missing_stop }: Found) -> TextRefusal {
        let place = |offset| Place::of(self.text, offset);
        let words = Box::new(Words(words));
        TextRefusal { refusal, text: self.which, place: Some(place(at)), length, expected, missing_stop: missing_stop.map(place), words }
    }
}

fn no_more(token: Token<'_>, over: Over) -> Found {
    let words = match over {
        Over::Arguments => "this is a 17th argument",
        Over::Variables => "this is a 65th variable",
    };
    Found::at(token.at, token.bytes.len(), words.into())
}

/// The refusal of the first of the texts that the question says no to. Questions about the record made of them are about the last text alone.
pub fn refused(refusal: Refusal, texts: &[Lent<'_>]) -> TextRefusal {
    let asked = if matches!(refusal, Refusal::Byte | Refusal::Text) { texts } else { texts.last().map_or(&[][..], std::slice::from_ref) };
    let found = asked.iter().find_map(|text| Some(text.refused(refusal, text.found(refusal)?)));
    found.unwrap_or_else(|| {
        let (text, words) = whole(refusal, texts);
        TextRefusal { refusal, text, place: None, length: 0, expected: String::new(), missing_stop: None, words: Box::new(Words(words)) }
    })
}

/// What a question says that is about the whole, and of which text: of the rules alone where they are too long without the query.
fn whole(refusal: Refusal, texts: &[Lent<'_>]) -> (WhichText, String) {
    let last = texts.last().map_or(WhichText::Rules, |text| text.which);
    let bytes = |texts: &[Lent<'_>]| texts.iter().map(|lent| lent.text.len()).sum::<usize>();
    let (alone, together, most) = (bytes(texts.get(..1).unwrap_or_default()), bytes(texts), grouped(TEXT_LIMIT));
    match refusal {
        Refusal::Fit => (last, "the record has over 32,768 bytes".into()),
        Refusal::Length if alone > TEXT_LIMIT => {
            (WhichText::Rules, format!("{} bytes are too many: rules and query have at most {most} together", grouped(alone)))
        }
        Refusal::Length => (last, format!("rules and query have {} bytes together, and may have {most}", grouped(together))),
        other => (last, other.question().into()),
    }
}

/// A number with commas between its thousands.
fn grouped(number: usize) -> String {
    let digits = number.to_string();
    let comma = |place: usize| if place > 0 && (digits.len() - place) % GROUP == 0 { "," } else { "" };
    digits.chars().enumerate().map(|(place, digit)| format!("{}{digit}", comma(place))).collect()
}
