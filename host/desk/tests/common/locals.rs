//! Names of locals: the program has them from the clauses, the library alone has not.

use fourport::{tokens, TokenKind};

/// A term with a `V` and the number for each variable that is not the query's.
pub fn without_local_names(term: &str, query: &str) -> String {
    let own: Vec<&[u8]> = tokens(query.as_bytes()).filter(|token| token.kind == TokenKind::Variable).map(|token| token.bytes).collect();
    let (mut text, mut from) = (String::new(), 0);
    for token in tokens(term.as_bytes()).filter(|token| token.kind == TokenKind::Variable && token.bytes != b"_" && !own.contains(&token.bytes)) {
        let name = &term[token.at..token.at + token.bytes.len()];
        let front = name.trim_end_matches(|letter: char| letter.is_ascii_digit());
        text += &format!("{}V{}", &term[from..token.at], &name[front.len()..]);
        from = token.at + name.len();
    }
    text + &term[from..]
}
