//! Goals.

use super::terms::{all_bytes, term, terms, Names, Term};
use super::Dice;

/// Atoms have these predicates and at most this arity, so that most of them have a definition.
pub const PREDICATES: usize = 5;
pub const ARITIES: usize = 3;

pub enum Goal {
    True,
    Fail,
    Equality(Term, Term),
    Conjunction(Box<Goal>, Box<Goal>),
    Disjunction(Box<Goal>, Box<Goal>),
    Atom(u16, Vec<Term>),
}

pub fn goal(dice: &mut Dice, names: Names, depth: usize) -> Goal {
    match dice.below(if depth == 0 { 10 } else { 20 }) {
        0 | 1 => Goal::True,
        2 => Goal::Fail,
        3..=6 => Goal::Equality(term(dice, names, 2), term(dice, names, 2)),
        7..=9 => atom(dice, names),
        10..=14 => Goal::Conjunction(Box::new(goal(dice, names, depth - 1)), Box::new(goal(dice, names, depth - 1))),
        _ => Goal::Disjunction(Box::new(goal(dice, names, depth - 1)), Box::new(goal(dice, names, depth - 1))),
    }
}

pub fn atom(dice: &mut Dice, names: Names) -> Goal {
    let arity = if dice.one_in(60) { dice.between(0, 16) } else { dice.below(ARITIES) };
    Goal::Atom(dice.below(PREDICATES + 1) as u16, terms(dice, names, 1, arity))
}

/// A goal's bytes at once.
pub fn goal_bytes(dice: &mut Dice, names: Names, depth: usize) -> Vec<u8> {
    goal(dice, names, depth).bytes()
}

impl Goal {
    pub fn bytes(&self) -> Vec<u8> {
        match self {
            Goal::True => layout::TRUE.to_vec(),
            Goal::Fail => layout::FAIL.to_vec(),
            Goal::Equality(left, right) => layout::equality(&left.bytes(), &right.bytes()),
            Goal::Conjunction(left, right) => layout::conjunction(&left.bytes(), &right.bytes()),
            Goal::Disjunction(left, right) => layout::disjunction(&left.bytes(), &right.bytes()),
            Goal::Atom(predicate, arguments) => layout::atom(*predicate, &all_bytes(arguments)),
        }
    }

    /// Puts each variable to `meet`, which may change it.
    pub fn each_variable(&mut self, meet: &mut impl FnMut(&mut u16)) {
        match self {
            Goal::True | Goal::Fail => {}
            Goal::Equality(left, right) => [left, right].into_iter().for_each(|term| term.each_variable(meet)),
            Goal::Conjunction(left, right) | Goal::Disjunction(left, right) => [left, right].into_iter().for_each(|goal| goal.each_variable(meet)),
            Goal::Atom(_, arguments) => arguments.iter_mut().for_each(|argument| argument.each_variable(meet)),
        }
    }
}
