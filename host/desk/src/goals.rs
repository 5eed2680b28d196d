//! Where the goals of a body, or of a query, stand in a text.

use crate::outline::span;
use crate::source::Span;
use fourport::{Half, Token, TokenKind};

/// What a goal is made of.
#[derive(Clone, Copy, Debug, PartialEq, Eq)]
enum Node {
    /// two goals, by their places in the list
    Pair(usize, usize),
    /// an atom: its name, and its arity
    Atom(Span, usize),
    /// an equality, true or fail
    Other,
}

/// A goal and its parts.
#[derive(Clone, Debug, Default)]
pub struct Goals {
    nodes: Vec<(Node, Span)>,
    root: usize,
}

impl Goals {
    /// The part that halves lead to, the outermost first; nothing where they lead nowhere.
    pub fn part(&self, path: &[Half]) -> Option<Span> {
        let mut at = self.root;
        for half in path {
            let Node::Pair(left, right) = self.nodes.get(at)?.0 else { return None };
            at = if *half == Half::First { left } else { right };
        }
        self.nodes.get(at).map(|(_, span)| *span)
    }

    /// The atoms in the order of the text: where the name stands, and the arity.
    pub fn atoms(&self) -> impl Iterator<Item = (Span, usize)> + '_ {
        self.nodes.iter().filter_map(|(node, _)| if let Node::Atom(name, arity) = node { Some((*name, *arity)) } else { None })
    }

    fn put(&mut self, node: Node, span: Span) -> usize {
        self.nodes.push((node, span));
        self.nodes.len() - 1
    }

    fn span(&self, at: usize) -> Span {
        self.nodes.get(at).map_or(Span { from: 0, to: 0 }, |(_, span)| *span)
    }

    /// The goals of a row, joined to the right.
    fn joined(&mut self, row: Vec<usize>) -> Option<usize> {
        let join = |goals: &mut Goals, right: usize, left: usize| {
            let whole = Span { from: goals.span(left).from, to: goals.span(right).to };
            goals.put(Node::Pair(left, right), whole)
        };
        let mut from_right = row.into_iter().rev();
        let last = from_right.next()?;
        Some(from_right.fold(last, |right, left| join(self, right, left)))
    }

    /// Disjunction binds less than conjunction, and both group to the right.
    fn closed(&mut self, level: Level) -> Option<usize> {
        let rows = level.rows.into_iter().filter_map(|row| self.joined(row)).collect();
        self.joined(rows)
    }
}

/// What stands between two brackets: rows of conjuncts, parted by semicolons.
struct Level {
    /// where its bracket stands
    from: usize,
    rows: Vec<Vec<usize>>,
}

impl Level {
    fn new(from: usize) -> Level {
        Level { from, rows: vec![Vec::new()] }
    }

    fn put(&mut self, goal: Option<usize>) {
        self.rows.last_mut().into_iter().for_each(|row| row.extend(goal));
    }
}

/// The goal at the front of the tokens; a full stop ends it.
pub fn goals(tokens: &[Token<'_>]) -> Goals {
    let (mut goals, mut levels, mut at) = (Goals::default(), vec![Level::new(0)], 0);
    while let (Some(token), Some(level)) = (tokens.get(at), levels.last_mut()) {
        at += 1;
        match token.kind {
            TokenKind::Stop => break,
            TokenKind::Comma => (),
            TokenKind::Semicolon => level.rows.push(Vec::new()),
            TokenKind::Open => levels.push(Level::new(token.at)),
            TokenKind::Close => {
                let from = level.from;
                let inner = levels.pop().and_then(|level| goals.closed(level));
                // two goals in brackets are shown with these, one alone is not
                let pair = inner.and_then(|inner| goals.nodes.get_mut(inner)).filter(|(node, _)| matches!(node, Node::Pair(..)));
                pair.into_iter().for_each(|(_, span)| *span = Span { from, to: token.at + 1 });
                levels.last_mut().into_iter().for_each(|level| level.put(inner));
            }
            _ => {
                let length = primary_length(tokens.get(at - 1..).unwrap_or_default());
                let primary = tokens.get(at - 1..at - 1 + length).unwrap_or_default();
                level.put(Some(goals.put(primary_node(primary), whole(primary))));
                at += length - 1;
            }
        }
    }
    let level = levels.into_iter().next();
    goals.root = level.and_then(|level| goals.closed(level)).unwrap_or_default();
    goals
}

fn whole(tokens: &[Token<'_>]) -> Span {
    let to = tokens.last().map_or(0, |token| span(token).to);
    Span { from: tokens.first().map_or(to, |token| token.at), to }
}

/// How many tokens an atom or an equality has: up to a comma, semicolon, bracket or full stop outside its arguments. At least one.
fn primary_length(tokens: &[Token<'_>]) -> usize {
    let mut open = 0usize;
    let ends = |token: &Token<'_>| {
        let outside = open == 0;
        match token.kind {
            TokenKind::Functor => open += 1,
            TokenKind::Close => open = open.saturating_sub(1),
            _ => (),
        }
        outside && matches!(token.kind, TokenKind::Comma | TokenKind::Semicolon | TokenKind::Close | TokenKind::Stop)
    };
    tokens.iter().position(ends).unwrap_or(tokens.len()).max(1)
}

fn primary_node(tokens: &[Token<'_>]) -> Node {
    let Some(first) = tokens.first() else { return Node::Other };
    if tokens.iter().any(|token| token.kind == TokenKind::Equals) || !matches!(first.kind, TokenKind::Name | TokenKind::Functor) {
        return Node::Other;
    }
    let name = Span { from: first.at, to: span(first).to - usize::from(first.kind == TokenKind::Functor) };
    Node::Atom(name, arity(tokens))
}

/// The commas directly within the outermost brackets, and one; 0 without brackets.
fn arity(tokens: &[Token<'_>]) -> usize {
    let (mut open, mut commas) = (0usize, 0);
    for token in tokens {
        match token.kind {
            TokenKind::Functor => open += 1,
            TokenKind::Close => open = open.saturating_sub(1),
            TokenKind::Comma if open == 1 => commas += 1,
            _ => (),
        }
    }
    commas + usize::from(tokens.len() > 1)
}

#[cfg(test)]
mod tests {
    use super::*;
    use crate::source::Source;
    use fourport::tokens;
    use Half::{First, Second};

    #[test]
    fn parts_by_halves() {
        let source = Source::new("query", b"a, (b(f(X), Y) ; ((c))), X = g(a, b) ; d".to_vec());
        let tokens: Vec<Token<'_>> = tokens(source.text()).collect();
        let goals = goals(&tokens);
        let part = |path: &[Half]| goals.part(path).map(|span| source.part(span));
        assert_eq!(part(&[]).as_deref(), Some("a, (b(f(X), Y) ; ((c))), X = g(a, b) ; d"));
        assert_eq!(part(&[Second]).as_deref(), Some("d"));
        assert_eq!(part(&[First, First]).as_deref(), Some("a"));
        assert_eq!(part(&[First, Second, First]).as_deref(), Some("(b(f(X), Y) ; ((c)))"));
        assert_eq!(part(&[First, Second, First, First]).as_deref(), Some("b(f(X), Y)"));
        assert_eq!(part(&[First, Second, First, Second]).as_deref(), Some("c"));
        assert_eq!(part(&[First, Second, Second]).as_deref(), Some("X = g(a, b)"));
        assert_eq!(part(&[Second, First]), None);
        let atoms: Vec<(String, usize)> = goals.atoms().map(|(name, arity)| (source.part(name), arity)).collect();
        assert_eq!(atoms, [("a".into(), 0), ("b".into(), 2), ("c".into(), 0), ("d".into(), 0)]);
    }

    #[test]
    fn deep_brackets() {
        let text = [b"(".repeat(30_000), b"a".to_vec(), b")".repeat(30_000)].concat();
        let tokens: Vec<Token<'_>> = tokens(&text).collect();
        assert_eq!(goals(&tokens).part(&[]), Some(Span { from: 30_000, to: 30_001 }));
    }
}
