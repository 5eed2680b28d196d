//! Where a text is refused. The desk says by which question; this finds the place, with tokens and a table of what may follow them. Nothing that the
//! desk answers rests on it.

use crate::tokens::is_allowed;
use crate::{tokens, Token, TokenKind};
use std::collections::HashSet;

/// The most arguments, and the most variables of a clause.
const MOST_ARGUMENTS: usize = 16;
const MOST_VARIABLES: usize = 64;

/// What the text is to be.
#[derive(Clone, Copy, Debug, PartialEq, Eq)]
pub enum Whole {
    Clauses,
    Goal,
}

/// What is too much.
#[derive(Clone, Copy, Debug, PartialEq, Eq)]
pub enum Over {
    Arguments,
    Variables,
}

/// What may follow.
#[derive(Clone, Copy, Debug, PartialEq, Eq)]
pub enum Next {
    Clause,
    /// behind a head
    Headed,
    Goal,
    /// behind a term that may be an atom or the left side of an equality
    Left,
    /// behind a variable or a number, which can only be a left side
    Bare,
    /// the right side of an equality
    Right,
    /// behind a goal
    Done,
    Argument,
    /// behind an argument
    Argued,
}

/// The place within a text: what may follow, the arguments of each name that is open, and the open brackets of goals.
struct Scanner {
    whole: Whole,
    next: Next,
    /// what may follow the outermost open name with its arguments
    behind: Next,
    arguments: Vec<usize>,
    brackets: usize,
}

impl Scanner {
    fn new(whole: Whole) -> Scanner {
        let next = if whole == Whole::Clauses { Next::Clause } else { Next::Goal };
        Scanner { whole, next, behind: next, arguments: Vec::new(), brackets: 0 }
    }

    /// Takes the token where the text can go on with it.
    fn takes(&mut self, kind: TokenKind) -> bool {
        let next = match (self.next, kind) {
            (Next::Clause, TokenKind::Name) => Next::Headed,
            (Next::Clause, TokenKind::Functor) => self.opened(Next::Headed),
            (Next::Headed, TokenKind::Neck) => Next::Goal,
            (Next::Headed, TokenKind::Stop) => Next::Clause,
            (Next::Goal, TokenKind::Name | TokenKind::Constant) => Next::Left,
            (Next::Goal, TokenKind::Number | TokenKind::Variable) => Next::Bare,
            (Next::Goal, TokenKind::Functor) => self.opened(Next::Left),
            (Next::Goal, TokenKind::Open) => self.bracketed(),
            (Next::Left | Next::Bare, TokenKind::Equals) => Next::Right,
            (Next::Left | Next::Done, TokenKind::Comma | TokenKind::Semicolon) => Next::Goal,
            (Next::Left | Next::Done, TokenKind::Close) if self.brackets > 0 => self.unbracketed(),
            (Next::Left | Next::Done, TokenKind::Stop) if self.stops() => Next::Clause,
            (Next::Right, TokenKind::Name | TokenKind::Constant | TokenKind::Number | TokenKind::Variable) => Next::Done,
            (Next::Right, TokenKind::Functor) => self.opened(Next::Done),
            (Next::Argument, TokenKind::Name | TokenKind::Constant | TokenKind::Number | TokenKind::Variable) => Next::Argued,
            (Next::Argument, TokenKind::Functor) => self.opened(self.behind),
            (Next::Argued, TokenKind::Comma) => self.another(),
            (Next::Argued, TokenKind::Close) => self.closed(),
            _ => return false,
        };
        self.next = next;
        true
    }

    fn opened(&mut self, behind: Next) -> Next {
        self.behind = behind;
        self.arguments.push(1);
        Next::Argument
    }

    fn another(&mut self) -> Next {
        self.arguments.last_mut().into_iter().for_each(|count| *count += 1);
        Next::Argument
    }

    fn closed(&mut self) -> Next {
        self.arguments.pop();
        if self.arguments.is_empty() {
            self.behind
        } else {
            Next::Argued
        }
    }

    fn bracketed(&mut self) -> Next {
        self.brackets += 1;
        Next::Goal
    }

    fn unbracketed(&mut self) -> Next {
        self.brackets -= 1;
        Next::Done
    }

    /// May a full stop end a clause here?
    fn stops(&self) -> bool {
        match self.next {
            Next::Headed => true,
            Next::Left | Next::Done => self.brackets == 0 && self.whole == Whole::Clauses,
            _ => false,
        }
    }

    /// May the text end here?
    fn ends(&self) -> bool {
        match self.whole {
            Whole::Clauses => self.next == Next::Clause,
            Whole::Goal => self.brackets == 0 && matches!(self.next, Next::Left | Next::Done),
        }
    }

    /// What may stand here, in words.
    fn expected(&self) -> String {
        let known = match self.next {
            Next::Clause => "the head of a clause",
            Next::Headed => "`:-` or `.`",
            Next::Goal => "a goal",
            Next::Bare => "`=`",
            Next::Right | Next::Argument => "a term",
            Next::Argued => "`,` or `)`",
            Next::Left | Next::Done => return self.expected_behind_a_goal(),
        };
        known.into()
    }

    fn expected_behind_a_goal(&self) -> String {
        let equals = if self.next == Next::Left { "`=`, " } else { "" };
        let last = match self.whole {
            _ if self.brackets > 0 => "`)`",
            Whole::Clauses => "`.`",
            Whole::Goal => "the query's end",
        };
        format!("{equals}`,`, `;` or {last}")
    }

    /// Does an argument beyond the last that is allowed start here?
    fn at_one_too_many(&self) -> bool {
        self.next == Next::Argument && self.arguments.last().is_some_and(|&count| count > MOST_ARGUMENTS)
    }
}

/// The first byte that no text holds.
pub fn wrong_byte(text: &[u8]) -> Option<usize> {
    text.iter().position(|&byte| !is_allowed(byte))
}

/// Where a text cannot go on.
pub struct Wrong<'t> {
    /// the token there; nothing at the text's end
    pub token: Option<Token<'t>>,
    /// the token before it
    pub behind: Option<Token<'t>>,
    /// where the clause that is open there starts
    pub clause: usize,
    /// what may follow
    pub next: Next,
    /// may the text end before it?
    pub ended: bool,
    /// may a full stop end a clause before it?
    pub stops: bool,
    /// what may stand there, in words
    pub expected: String,
}

/// The first token with which the text cannot go on, or its end.
pub fn wrong_place(text: &[u8], whole: Whole) -> Option<Wrong<'_>> {
    let (mut scanner, mut behind, mut clause) = (Scanner::new(whole), None, 0);
    let wrong = |scanner: &Scanner, token, behind, clause| {
        let (ended, stops, expected) = (scanner.ends(), scanner.stops(), scanner.expected());
        Wrong { token, behind, clause, next: scanner.next, ended, stops, expected }
    };
    for token in tokens(text) {
        clause = if scanner.next == Next::Clause { token.at } else { clause };
        if !scanner.takes(token.kind) {
            return Some(wrong(&scanner, Some(token), behind, clause));
        }
        behind = Some(token);
    }
    (!scanner.ends()).then(|| wrong(&scanner, None, behind, clause))
}

/// The first argument or variable that is too much, in a text of the grammar.
pub fn too_much(text: &[u8], whole: Whole) -> Option<(Token<'_>, Over)> {
    let (mut scanner, mut met, mut lone) = (Scanner::new(whole), HashSet::new(), 0);
    for token in tokens(text) {
        if scanner.at_one_too_many() {
            return Some((token, Over::Arguments));
        }
        match token.kind {
            TokenKind::Variable if token.bytes == b"_" => lone += 1,
            TokenKind::Variable => _ = met.insert(token.bytes),
            TokenKind::Stop => (met, lone) = Default::default(),
            _ => (),
        }
        if met.len() + lone > MOST_VARIABLES {
            return Some((token, Over::Variables));
        }
        scanner.takes(token.kind);
    }
    None
}

/// The variables of a goal by number: as they first appear, each lone underscore anew.
pub fn variables(goal: &[u8]) -> Vec<String> {
    let (mut met, mut known) = (Vec::new(), HashSet::new());
    for token in tokens(goal).filter(|token| token.kind == TokenKind::Variable) {
        if token.bytes == b"_" || known.insert(token.bytes) {
            met.push(String::from_utf8_lossy(token.bytes).into_owned());
        }
    }
    met
}
