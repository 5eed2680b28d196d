//! Tokens to trees. Nothing recurses: open arguments and open goal brackets stand on stacks of their own.

use super::names::{Names, Variables};
use super::tokens::Token;
use crate::gate::{Question, Refusal};
use crate::records::{Clause, Goal, GoalRef, GoalShape, Shape, Term, TermRef};
use std::iter::Peekable;
use std::mem;
use std::vec::IntoIter;

/// The most arguments.
const ARITY_LIMIT: usize = 16;
/// The most variables of a clause.
const VARIABLES_LIMIT: usize = 64;

type Read<T> = Result<T, Refusal>;

fn outside<T>() -> Read<T> {
    Err(Question::Text.into())
}

/// A clause as it stands in the text.
pub struct Sentence {
    predicate: u16,
    head: Vec<TermRef>,
    goal: GoalRef,
    variables: usize,
    /// has every arity at most 16 and the clause at most 64 variables?
    pub kept: bool,
}

impl Sentence {
    /// Predicate, arity and variable count, the head's terms, the goal.
    pub fn length(&self) -> u64 {
        self.head.iter().fold(4 + u64::from(self.goal.length()), |sum, term| sum + u64::from(term.length()))
    }

    pub fn into_clause(self) -> Clause {
        Clause { predicate: self.predicate, variables: self.variables as u8, head: self.head, goal: self.goal }
    }
}

/// What stands within one pair of goal brackets, or within none: the conjunctions before the last semicolon, and the parts of the last one.
#[derive(Default)]
struct Level {
    before: Vec<GoalRef>,
    parts: Vec<GoalRef>,
}

impl Level {
    /// A semicolon: the conjunction is whole.
    fn another(&mut self) {
        let whole = joined(mem::take(&mut self.parts), GoalShape::Conjunction);
        self.before.extend(whole);
    }

    fn whole(mut self) -> Read<GoalRef> {
        self.another();
        joined(self.before, GoalShape::Disjunction).map_or_else(outside, Ok)
    }
}

/// The goals joined to the right.
fn joined(goals: Vec<GoalRef>, join: fn(GoalRef, GoalRef) -> GoalShape) -> Option<GoalRef> {
    goals.into_iter().rev().reduce(|rest, goal| Goal::new(join(goal, rest)))
}

/// The goal that a name alone means where it stands as a goal; nothing for any other name.
fn constant(name: &[u8]) -> Option<GoalShape> {
    match name {
        b"true" => Some(GoalShape::True),
        b"fail" => Some(GoalShape::Fail),
        _ => None,
    }
}

pub struct Parser<'t, 'n> {
    ahead: Peekable<IntoIter<Token<'t>>>,
    names: &'n mut Names<'t>,
    /// of the clause that is being read
    variables: Variables<'t>,
    arities_kept: bool,
}

impl<'t, 'n> Parser<'t, 'n> {
    pub fn new(tokens: Vec<Token<'t>>, names: &'n mut Names<'t>) -> Parser<'t, 'n> {
        Parser { ahead: tokens.into_iter().peekable(), names, variables: Variables::default(), arities_kept: true }
    }

    /// A whole text: any number of clauses.
    pub fn clauses(&mut self) -> Read<Vec<Sentence>> {
        let mut clauses = Vec::new();
        while self.ahead.peek().is_some() {
            clauses.push(self.clause()?);
        }
        Ok(clauses)
    }

    /// A whole text: one goal; and whether the limits of a clause are kept in it.
    pub fn query(&mut self) -> Read<(GoalRef, bool)> {
        let goal = self.goal()?;
        match self.ahead.next() {
            None => Ok((goal, self.kept())),
            Some(_) => outside(),
        }
    }

    fn kept(&self) -> bool {
        self.arities_kept && self.variables.count() <= VARIABLES_LIMIT
    }

    fn clause(&mut self) -> Read<Sentence> {
        (self.variables, self.arities_kept) = (Variables::default(), true);
        let (predicate, head) = self.head()?;
        let goal = match self.ahead.next() {
            Some(Token::Stop) => return Ok(self.sentence(predicate, head, Goal::new(GoalShape::True))),
            Some(Token::Neck) => self.goal()?,
            _ => return outside(),
        };
        match self.ahead.next() {
            Some(Token::Stop) => Ok(self.sentence(predicate, head, goal)),
            _ => outside(),
        }
    }

    fn sentence(&self, predicate: u16, head: Vec<TermRef>, goal: GoalRef) -> Sentence {
        Sentence { predicate, head, goal, variables: self.variables.count(), kept: self.kept() }
    }

    /// A name with or without arguments; true and fail alone are no heads.
    fn head(&mut self) -> Read<(u16, Vec<TermRef>)> {
        match self.ahead.peek() {
            Some(Token::Name(name)) if constant(name).is_some() => outside(),
            _ => self.atom_from_here(),
        }
    }

    fn atom_from_here(&mut self) -> Read<(u16, Vec<TermRef>)> {
        match self.ahead.peek() {
            Some(Token::Name(_) | Token::Functor(_)) => named_parts(&*self.term()?),
            _ => outside(),
        }
    }

    /// Conjunctions parted by semicolons, of parts that are parted by commas; both join to the right. The levels outside the brackets that are open
    /// stand on a stack.
    fn goal(&mut self) -> Read<GoalRef> {
        let (mut outer, mut level): (Vec<Level>, Level) = Default::default();
        loop {
            if self.ahead.next_if_eq(&Token::Open).is_some() {
                outer.push(mem::take(&mut level));
                continue;
            }
            level.parts.push(self.part()?);
            level = self.closed_levels(&mut outer, level)?;
            if self.ahead.next_if_eq(&Token::Semicolon).is_some() {
                level.another();
            } else if self.ahead.next_if_eq(&Token::Comma).is_none() {
                return if outer.is_empty() { level.whole() } else { outside() };
            }
        }
    }

    /// The level behind the brackets that close here; what stood within is a part of it.
    fn closed_levels(&mut self, outer: &mut Vec<Level>, mut level: Level) -> Read<Level> {
        while !outer.is_empty() && self.ahead.next_if_eq(&Token::Close).is_some() {
            let goal = level.whole()?;
            level = outer.pop().unwrap_or_default();
            level.parts.push(goal);
        }
        Ok(level)
    }

    /// An equality, an atom, true or fail.
    fn part(&mut self) -> Read<GoalRef> {
        let first = self.ahead.peek().copied();
        if let Some(Token::Name(name)) = first {
            if let Some(shape) = constant(name) {
                return self.constant_or_left_side(name, shape);
            }
        }
        let left = self.term()?;
        if self.ahead.next_if_eq(&Token::Equals).is_some() {
            return self.equality(left);
        }
        match first {
            Some(Token::Name(_) | Token::Functor(_)) => {
                named_parts(&left).map(|(predicate, arguments)| Goal::new(GoalShape::Atom(predicate, arguments)))
            }
            _ => outside(),
        }
    }

    /// true or fail: before an equality sign it is a term, and only then it takes a number.
    fn constant_or_left_side(&mut self, name: &'t [u8], shape: GoalShape) -> Read<GoalRef> {
        self.ahead.next();
        if self.ahead.next_if_eq(&Token::Equals).is_none() {
            return Ok(Goal::new(shape));
        }
        let left = Term::symbol(self.names.number(name), Vec::new());
        self.equality(left)
    }

    /// The equality whose sign has just been read.
    fn equality(&mut self, left: TermRef) -> Read<GoalRef> {
        let right = self.term()?;
        Ok(Goal::new(GoalShape::Equality(left, right)))
    }

    /// A variable, a number, or a name with or without arguments. The names whose arguments are being read stand on a stack.
    fn term(&mut self) -> Read<TermRef> {
        let mut open: Vec<(u16, Vec<TermRef>)> = Vec::new();
        loop {
            let leaf = match self.ahead.next() {
                Some(Token::Functor(name)) => {
                    open.push((self.names.number(name), Vec::new()));
                    continue;
                }
                Some(Token::Name(name) | Token::Number(name)) => Term::symbol(self.names.number(name), Vec::new()),
                Some(Token::Variable(variable)) => Term::variable(self.variables.number(variable)),
                _ => return outside(),
            };
            if let Some(term) = self.closed(&mut open, leaf)? {
                return Ok(term);
            }
        }
    }

    /// Puts a whole term where it stands and closes what ends behind it: the outermost term where that is whole, nothing where a comma follows.
    fn closed(&mut self, open: &mut Vec<(u16, Vec<TermRef>)>, mut term: TermRef) -> Read<Option<TermRef>> {
        while let Some((name, mut arguments)) = open.pop() {
            arguments.push(term);
            match self.ahead.next() {
                Some(Token::Close) => {
                    self.arities_kept &= arguments.len() <= ARITY_LIMIT;
                    term = Term::symbol(name, arguments);
                }
                Some(Token::Comma) => {
                    open.push((name, arguments));
                    return Ok(None);
                }
                _ => return outside(),
            }
        }
        Ok(Some(term))
    }
}

/// The predicate and the arguments of an atom that was read as a term.
fn named_parts(term: &Term) -> Read<(u16, Vec<TermRef>)> {
    match term.shape() {
        Shape::Symbol(name, arguments) => Ok((*name, arguments.clone())),
        Shape::Variable(_) => outside(),
    }
}
