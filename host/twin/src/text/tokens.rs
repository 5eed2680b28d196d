//! Bytes to tokens. A name with an opening bracket directly behind it is one token: the bracket of arguments is never apart from its name.

use crate::gate::{Question, Refusal};

#[derive(Clone, Copy, Debug, PartialEq, Eq)]
pub enum Token<'t> {
    Name(&'t [u8]),
    /// a name and the opening bracket of its arguments
    Functor(&'t [u8]),
    Number(&'t [u8]),
    Variable(&'t [u8]),
    Open,
    Close,
    Comma,
    Semicolon,
    Equals,
    Neck,
    Stop,
}

fn is_word(byte: u8) -> bool {
    byte.is_ascii_alphanumeric() || byte == b'_'
}

fn is_blank(byte: u8) -> bool {
    matches!(byte, 9 | 10 | 13 | 32)
}

/// May the byte stand in a text at all?
pub fn is_allowed(byte: u8) -> bool {
    is_word(byte) || is_blank(byte) || b":-=;,().".contains(&byte)
}

/// The tokens of a text from its first byte to its last.
pub fn tokens(text: &[u8]) -> Result<Vec<Token<'_>>, Refusal> {
    let (mut rest, mut tokens) = (text, Vec::new());
    while let Some(&byte) = rest.first() {
        let (token, length) = if is_blank(byte) { (None, 1) } else { token(rest).ok_or(Question::Text)? };
        tokens.extend(token);
        rest = &rest[length..];
    }
    Ok(tokens)
}

/// The token at the front of the bytes, and its length; nothing where none starts.
fn token(bytes: &[u8]) -> Option<(Option<Token<'_>>, usize)> {
    let mark = match bytes {
        [b':', b'-', ..] => return Some((Some(Token::Neck), 2)),
        [b'(', ..] => Token::Open,
        [b')', ..] => Token::Close,
        [b',', ..] => Token::Comma,
        [b';', ..] => Token::Semicolon,
        [b'=', ..] => Token::Equals,
        [b'.', ..] => Token::Stop,
        _ => return word(bytes).map(|(token, length)| (Some(token), length)),
    };
    Some((Some(mark), 1))
}

fn word(bytes: &[u8]) -> Option<(Token<'_>, usize)> {
    let length = bytes.iter().take_while(|&&byte| is_word(byte)).count();
    let (word, behind) = bytes.split_at(length);
    match word.first()? {
        b'a'..=b'z' if behind.first() == Some(&b'(') => Some((Token::Functor(word), length + 1)),
        b'a'..=b'z' => Some((Token::Name(word), length)),
        b'A'..=b'Z' | b'_' => Some((Token::Variable(word), length)),
        _ if word.iter().all(u8::is_ascii_digit) => Some((Token::Number(word), length)),
        _ => None,
    }
}
