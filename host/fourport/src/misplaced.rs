//! Words for a token at which no text can go on, and where a full stop is missing before it.

use crate::scanner::{Next, Wrong};
use crate::{Place, Token, TokenKind, WhichText};

/// The most bytes of a token that a refusal shows.
const MOST_SHOWN: usize = 40;

const NO_ARITHMETIC: &str = "there is no arithmetic; equality is `=`";

/// What is said of the token, or of the text's end.
pub fn words(wrong: &Wrong<'_>, which: WhichText, lacks_stop: bool) -> String {
    match wrong.token {
        None if lacks_stop => "the text ends within a clause: its full stop is missing".into(),
        None if which == WhichText::Rules => "the text ends within a clause".into(),
        None if wrong.behind.is_none() => "the query has no goal".into(),
        None => "the text ends within a goal".into(),
        Some(token) if token.kind == TokenKind::Stop && wrong.ended => match which {
            WhichText::Rules => "one full stop too many".into(),
            WhichText::Query => "a query has no full stop".into(),
        },
        Some(token) => {
            let hint = if lacks_stop { Some("the clause before it has no full stop") } else { hint(token, wrong) };
            let hint = hint.map_or_else(String::new, |hint| format!(": {hint}"));
            format!("unexpected `{}`{hint}", front(token.bytes))
        }
    }
}

/// What people who type the token there do not know, as far as one can tell.
fn hint(token: Token<'_>, wrong: &Wrong<'_>) -> Option<&'static str> {
    Some(match (token.kind, wrong.behind.map(|behind| behind.kind), token.bytes) {
        (TokenKind::Neck, ..) if wrong.next == Next::Clause => "there are no directives",
        (TokenKind::Variable, ..) if wrong.next == Next::Clause => "a predicate starts with a small letter",
        (TokenKind::Open, Some(TokenKind::Name | TokenKind::Constant), _) => "between a name and its `(` there is no blank",
        (TokenKind::Open, Some(TokenKind::Variable), _) => "a name with arguments starts with a small letter",
        (TokenKind::Equals, Some(TokenKind::Equals), _) => "equality is one `=`",
        (TokenKind::Name, _, b"is") if wrong.next == Next::Bare => NO_ARITHMETIC,
        (TokenKind::Wrong, Some(TokenKind::Equals), b":") => NO_ARITHMETIC,
        (TokenKind::Wrong, _, b"-") => "names have letters, digits and _, and there is no arithmetic",
        (TokenKind::Wrong, _, [b'0'..=b'9', ..]) => "a name starts with a small letter",
        _ => return None,
    })
}

/// Where the full stop of a clause seems to be missing: behind its last token, where the text ends or another clause seems to start on a later line. What
/// is indented behind a goal is taken for a goal more.
pub fn missing_stop(text: &[u8], wrong: &Wrong<'_>) -> Option<usize> {
    let end = wrong.behind.filter(|_| wrong.stops).map(|behind| behind.at + behind.bytes.len())?;
    let Some(token) = wrong.token else { return Some(end) };
    let starts_a_clause = matches!(token.kind, TokenKind::Name | TokenKind::Functor | TokenKind::Variable | TokenKind::Neck);
    let on_a_later_line = text.get(end..token.at)?.contains(&b'\n');
    let column = |offset| Place::of(text, offset).column;
    let indented = wrong.next != Next::Headed && column(token.at) > column(wrong.clause);
    (starts_a_clause && on_a_later_line && !indented).then_some(end)
}

/// A token, or its front where it is long.
fn front(token: &[u8]) -> String {
    let shown = String::from_utf8_lossy(token.get(..MOST_SHOWN).unwrap_or(token));
    if token.len() > MOST_SHOWN {
        format!("{shown}..")
    } else {
        shown.into_owned()
    }
}
