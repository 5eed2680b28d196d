//! The tokens of a text.

/// What a token is.
#[derive(Clone, Copy, Debug, PartialEq, Eq, Hash)]
pub enum TokenKind {
    /// a name without arguments
    Name,
    /// true or fail without arguments, which is no head
    Constant,
    /// a name with the opening bracket of its arguments
    Functor,
    /// digits, which name a constant
    Number,
    /// a variable
    Variable,
    /// `(` around goals
    Open,
    /// `)`
    Close,
    /// `,`
    Comma,
    /// `;`
    Semicolon,
    /// `=`
    Equals,
    /// `:-`
    Neck,
    /// the full stop
    Stop,
    /// no token starts here: a byte, or a word such as `7a`
    Wrong,
}

/// A token and where it stands.
#[derive(Clone, Copy, Debug, PartialEq, Eq, Hash)]
pub struct Token<'t> {
    /// what it is
    pub kind: TokenKind,
    /// the bytes of the text before it
    pub at: usize,
    /// its own bytes
    pub bytes: &'t [u8],
}

fn is_word(byte: u8) -> bool {
    byte.is_ascii_alphanumeric() || byte == b'_'
}

/// May a byte stand in a text?
pub(crate) fn is_allowed(byte: u8) -> bool {
    is_word(byte) || b"\t\n\r :-=;,().".contains(&byte)
}

/// The tokens of a text, up to its end, whether or not the desk accepts it. Nothing that the desk answers rests on them: they are for whoever points
/// at what stands in a text.
///
/// ```
/// use fourport::{tokens, TokenKind};
/// let text = b"light(Bay, red) :- taken(Bay).";
/// let variables: Vec<_> = tokens(text).filter(|token| token.kind == TokenKind::Variable).map(|token| (token.at, token.bytes)).collect();
/// assert_eq!(variables, [(6, &b"Bay"[..]), (25, b"Bay")]);
/// ```
pub fn tokens(text: &[u8]) -> impl Iterator<Item = Token<'_>> {
    let mut at = 0;
    std::iter::from_fn(move || {
        at += text.get(at..)?.iter().take_while(|byte| b"\t\n\r ".contains(byte)).count();
        let rest = text.get(at..).filter(|rest| !rest.is_empty())?;
        let (kind, length) = token(rest);
        let token = Token { kind, at, bytes: rest.get(..length)? };
        at += length;
        Some(token)
    })
}

/// The token at the front, and its length.
fn token(bytes: &[u8]) -> (TokenKind, usize) {
    match bytes {
        [b':', b'-', ..] => (TokenKind::Neck, 2),
        [b'(', ..] => (TokenKind::Open, 1),
        [b')', ..] => (TokenKind::Close, 1),
        [b',', ..] => (TokenKind::Comma, 1),
        [b';', ..] => (TokenKind::Semicolon, 1),
        [b'=', ..] => (TokenKind::Equals, 1),
        [b'.', ..] => (TokenKind::Stop, 1),
        _ => word(bytes),
    }
}

fn word(bytes: &[u8]) -> (TokenKind, usize) {
    let length = bytes.iter().take_while(|&&byte| is_word(byte)).count();
    let (word, behind) = bytes.split_at(length);
    match word {
        [] => (TokenKind::Wrong, 1),
        [b'a'..=b'z', ..] if behind.first() == Some(&b'(') => (TokenKind::Functor, length + 1),
        b"true" | b"fail" => (TokenKind::Constant, length),
        [b'a'..=b'z', ..] => (TokenKind::Name, length),
        [b'A'..=b'Z' | b'_', ..] => (TokenKind::Variable, length),
        _ if word.iter().all(u8::is_ascii_digit) => (TokenKind::Number, length),
        _ => (TokenKind::Wrong, length),
    }
}
