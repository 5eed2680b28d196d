//! Prints terms and goals in the form that the reader reads.

use crate::Naming;
use layout::{byte_at, number_at, ATOM, CONJUNCTION, DISJUNCTION, EQUALITY, FAILURE, SYMBOL, TRUTH, VARIABLE};
use std::fmt::{self, Write};

/// The loosest goal that stands at a place without brackets.
#[derive(Clone, Copy, PartialEq, Eq)]
pub enum Loosest {
    Primary,
    Conjunction,
    Disjunction,
}

/// How variables are shown.
#[derive(Clone, Copy, PartialEq, Eq)]
pub enum Variables {
    /// by value where the naming has one, else by name
    Valued,
    /// by name
    Named,
    /// those of a clause or definition: by number
    Numbered,
}

/// What is still to be printed.
#[derive(Clone, Copy)]
pub enum Ahead {
    Term,
    Goal(Loosest),
    Text(&'static str),
}

/// Prints what stands at a place of a record that passed its questions, and moves behind it. What is ahead stands on a stack: nothing recurses, but
/// for a value, in which no other value is shown.
#[derive(Clone, Copy)]
pub struct Printer<'a> {
    pub bytes: &'a [u8],
    pub at: usize,
    pub naming: &'a dyn Naming,
    pub variables: Variables,
}

impl Printer<'_> {
    fn byte(&mut self) -> u8 {
        self.at += 1;
        byte_at(self.bytes, self.at - 1)
    }

    fn number(&mut self) -> u16 {
        self.at += 2;
        number_at(self.bytes, self.at - 2)
    }

    pub fn print(&mut self, f: &mut fmt::Formatter<'_>, one: Ahead) -> fmt::Result {
        self.rest(f, vec![one])
    }

    /// Prints all that is ahead.
    fn rest(&mut self, f: &mut fmt::Formatter<'_>, mut ahead: Vec<Ahead>) -> fmt::Result {
        while let Some(next) = ahead.pop() {
            match next {
                Ahead::Text(text) => f.write_str(text)?,
                Ahead::Term => self.term(f, &mut ahead)?,
                Ahead::Goal(loosest) => self.goal(f, loosest, &mut ahead)?,
            }
        }
        Ok(())
    }

    fn variable(&self, f: &mut fmt::Formatter<'_>, number: u16) -> fmt::Result {
        match (self.variables, self.naming.value(number)) {
            (Variables::Numbered, _) => write!(f, "V{number}"),
            (Variables::Valued, Some(value)) => {
                Printer { bytes: value.as_bytes(), at: 0, variables: Variables::Named, ..*self }.print(f, Ahead::Term)
            }
            _ => f.write_str(&self.naming.variable(number)),
        }
    }

    fn term(&mut self, f: &mut fmt::Formatter<'_>, ahead: &mut Vec<Ahead>) -> fmt::Result {
        match self.byte() {
            VARIABLE => {
                let number = self.number();
                self.variable(f, number)
            }
            SYMBOL => self.applied(f, ahead),
            _ => f.write_char('?'),
        }
    }

    /// A name, and its arguments if there are any.
    fn applied(&mut self, f: &mut fmt::Formatter<'_>, ahead: &mut Vec<Ahead>) -> fmt::Result {
        let (name, arity) = (self.number(), self.byte());
        f.write_str(&self.naming.name(name))?;
        self.arguments(f, arity, ahead)
    }

    fn arguments(&self, f: &mut fmt::Formatter<'_>, arity: u8, ahead: &mut Vec<Ahead>) -> fmt::Result {
        if arity == 0 {
            return Ok(());
        }
        ahead.extend([Ahead::Text(")"), Ahead::Term]);
        (1..arity).for_each(|_| ahead.extend([Ahead::Text(", "), Ahead::Term]));
        f.write_char('(')
    }

    fn goal(&mut self, f: &mut fmt::Formatter<'_>, loosest: Loosest, ahead: &mut Vec<Ahead>) -> fmt::Result {
        use Ahead::{Goal, Term, Text};
        let kind = self.byte();
        let bracketed = kind == DISJUNCTION && loosest != Loosest::Disjunction || kind == CONJUNCTION && loosest == Loosest::Primary;
        if bracketed {
            f.write_char('(')?;
            ahead.push(Text(")"));
        }
        match kind {
            TRUTH => f.write_str("true")?,
            FAILURE => f.write_str("fail")?,
            ATOM => self.applied(f, ahead)?,
            EQUALITY => ahead.extend([Term, Text(" = "), Term]),
            CONJUNCTION => ahead.extend([Goal(Loosest::Conjunction), Text(", "), Goal(Loosest::Primary)]),
            DISJUNCTION => ahead.extend([Goal(Loosest::Disjunction), Text(" ; "), Goal(Loosest::Conjunction)]),
            _ => f.write_char('?')?,
        }
        Ok(())
    }

    pub fn clause(&mut self, f: &mut fmt::Formatter<'_>) -> fmt::Result {
        let (predicate, arity, _) = (self.number(), self.byte(), self.byte());
        f.write_str(&self.naming.name(predicate))?;
        let mut ahead = Vec::new();
        self.arguments(f, arity, &mut ahead)?;
        self.rest(f, ahead)?;
        self.body(f)
    }

    /// A definition as a clause: its head has the variables 0 to arity - 1.
    pub fn definition(&mut self, f: &mut fmt::Formatter<'_>) -> fmt::Result {
        let (predicate, arity, _) = (self.number(), self.byte(), self.byte());
        f.write_str(&self.naming.name(predicate))?;
        for v in 0..arity {
            write!(f, "{}V{v}", if v == 0 { "(" } else { ", " })?;
        }
        f.write_str(if arity == 0 { "" } else { ")" })?;
        self.body(f)
    }

    /// The goal behind a head, and the full stop; true alone is left out, as in a fact.
    fn body(&mut self, f: &mut fmt::Formatter<'_>) -> fmt::Result {
        if byte_at(self.bytes, self.at) == TRUTH {
            self.at += 1;
        } else {
            f.write_str(" :- ")?;
            self.print(f, Ahead::Goal(Loosest::Disjunction))?;
        }
        f.write_char('.')
    }
}
