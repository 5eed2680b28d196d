//! Where clauses, heads, goals and variables stand in a text. The library says what a text is; this only finds it again, to show it.

use crate::goals::{goals, Goals};
use crate::source::Span;
use fourport::{tokens, Token, TokenKind};
use std::collections::HashMap;

/// A variable of a clause.
#[derive(Clone, Debug)]
pub struct Variable {
    /// as it is written; `_` is another variable each time
    pub name: String,
    /// where it first stands
    pub span: Span,
    /// how often it stands in the clause
    pub count: usize,
}

/// A clause.
#[derive(Clone, Debug)]
pub struct ClauseOutline {
    /// from its head to its full stop
    pub span: Span,
    pub name: Span,
    /// the arguments of its head
    pub arguments: Vec<Span>,
    /// its body; nothing for a fact
    pub body: Option<Goals>,
    /// by number
    pub variables: Vec<Variable>,
}

/// The clauses of a text, in its order.
pub fn clauses(text: &[u8]) -> Vec<ClauseOutline> {
    let all: Vec<Token<'_>> = tokens(text).collect();
    all.split_inclusive(|token| token.kind == TokenKind::Stop).filter_map(clause).collect()
}

/// The variables of a goal or a clause by number.
pub fn variables(tokens: &[Token<'_>]) -> Vec<Variable> {
    let (mut listed, mut known): (Vec<Variable>, HashMap<&[u8], usize>) = Default::default();
    for token in tokens.iter().filter(|token| token.kind == TokenKind::Variable) {
        let place = known.get(token.bytes).copied().filter(|_| token.bytes != b"_");
        match place.and_then(|place| listed.get_mut(place)) {
            Some(met) => met.count += 1,
            None => {
                known.insert(token.bytes, listed.len());
                listed.push(Variable { name: String::from_utf8_lossy(token.bytes).into_owned(), span: span(token), count: 1 });
            }
        }
    }
    listed
}

pub fn span(token: &Token<'_>) -> Span {
    Span { from: token.at, to: token.at + token.bytes.len() }
}

fn clause(tokens: &[Token<'_>]) -> Option<ClauseOutline> {
    let (first, last) = (tokens.first()?, tokens.last()?);
    let neck = tokens.iter().position(|token| token.kind == TokenKind::Neck);
    let (head, behind) = tokens.split_at(neck.unwrap_or(tokens.len()));
    let body = neck.and(behind.get(1..)).map(goals);
    let word = first.bytes.strip_suffix(b"(").unwrap_or(first.bytes);
    let name = Span { from: first.at, to: first.at + word.len() };
    Some(ClauseOutline { span: Span { from: first.at, to: span(last).to }, name, arguments: arguments(head), body, variables: variables(tokens) })
}

/// The arguments of the name with which the tokens start.
fn arguments(tokens: &[Token<'_>]) -> Vec<Span> {
    let (mut found, mut open, mut from): (Vec<Span>, usize, Option<usize>) = Default::default();
    let mut to = 0;
    for token in tokens {
        match token.kind {
            TokenKind::Comma | TokenKind::Close if open == 1 => {
                found.extend(from.take().map(|from| Span { from, to }));
                open -= usize::from(token.kind == TokenKind::Close);
            }
            TokenKind::Functor => {
                from = from.or((open > 0).then_some(token.at));
                open += 1;
            }
            TokenKind::Close => open = open.saturating_sub(1),
            _ if open > 0 => from = from.or(Some(token.at)),
            _ => (),
        }
        to = span(token).to;
    }
    found
}

#[cfg(test)]
mod tests {
    use super::*;
    use crate::source::Source;

    #[test]
    fn parts_of_a_clause() {
        let source = Source::new("a.pl", b"p(f(X, _), Y) :- (q ; r(X)), Y = a. s.".to_vec());
        let found = clauses(source.text());
        let parts: Vec<String> = found[0].arguments.iter().map(|&span| source.part(span)).collect();
        assert_eq!(parts, ["f(X, _)", "Y"]);
        let variables: Vec<(&str, usize)> = found[0].variables.iter().map(|variable| (variable.name.as_str(), variable.count)).collect();
        assert_eq!(variables, [("X", 2), ("_", 1), ("Y", 2)]);
        assert_eq!((found.len(), source.part(found[1].span), source.part(found[0].name)), (2, "s.".into(), "p".into()));
        assert!(found[1].body.is_none() && found[1].arguments.is_empty());
    }
}
