//! From trees to bytes. Lengths are known before anything is written, so whoever writes has put question 10.

use super::ancestors::Ancestor;
use super::bets::{Bet, Unifier};
use super::event::Event;
use super::goal::{Goal, GoalShape};
use super::program::{Clause, Program};
use super::term::{Shape, Term};
use std::rc::Rc;

fn number(out: &mut Vec<u8>, number: u16) {
    out.extend(number.to_be_bytes());
}

/// A record: the length of what follows it, the version, the body.
fn record(body: impl FnOnce(&mut Vec<u8>)) -> Vec<u8> {
    let mut out = vec![0, 0, 1];
    body(&mut out);
    let length = (out.len() - 2) as u16;
    out[..2].copy_from_slice(&length.to_be_bytes());
    out
}

pub fn term(out: &mut Vec<u8>, term: &Term) {
    let mut ahead = vec![term];
    while let Some(term) = ahead.pop() {
        match term.shape() {
            Shape::Variable(variable) => {
                out.push(0x01);
                number(out, *variable);
            }
            Shape::Symbol(symbol, arguments) => {
                out.push(0x02);
                number(out, *symbol);
                out.push(arguments.len() as u8);
                ahead.extend(arguments.iter().rev().map(Rc::as_ref));
            }
        }
    }
}

pub fn goal(out: &mut Vec<u8>, goal: &Goal) {
    let mut ahead = vec![goal];
    while let Some(goal) = ahead.pop() {
        match goal.shape() {
            GoalShape::True => out.push(0x10),
            GoalShape::Fail => out.push(0x11),
            GoalShape::Equality(a, b) => {
                out.push(0x12);
                term(out, a);
                term(out, b);
            }
            GoalShape::Conjunction(a, b) => {
                out.push(0x13);
                ahead.extend([&**b, &**a]);
            }
            GoalShape::Disjunction(a, b) => {
                out.push(0x14);
                ahead.extend([&**b, &**a]);
            }
            GoalShape::Atom(predicate, arguments) => {
                out.push(0x15);
                number(out, *predicate);
                out.push(arguments.len() as u8);
                arguments.iter().for_each(|argument| term(out, argument));
            }
        }
    }
}

/// An ancestor that joins two goals is its goal with another kind, and the tag after it.
fn ancestor(out: &mut Vec<u8>, ancestor: &Ancestor) {
    let at = out.len();
    goal(out, ancestor.goal());
    if let Ancestor::Join(half, join) = ancestor {
        let kind = if matches!(join.shape(), GoalShape::Conjunction(..)) { 0x30 } else { 0x31 };
        out.splice(at..=at, [kind, *half as u8]);
    }
}

/// A unifier's count and pairs.
pub fn pairs(out: &mut Vec<u8>, unifier: &Unifier) {
    number(out, unifier.pairs().len() as u16);
    for (variable, bound_to) in unifier.pairs() {
        number(out, *variable);
        term(out, bound_to);
    }
}

pub fn bet(out: &mut Vec<u8>, bet: &Bet) {
    match bet {
        Bet::Unifier(unifier) => {
            out.push(0x20);
            pairs(out, unifier);
        }
        Bet::Or(half) => out.extend([0x21, *half as u8]),
        Bet::By(by) => {
            out.push(0x22);
            goal(out, by);
        }
    }
}

pub fn event(event: &Event) -> Vec<u8> {
    record(|out| {
        out.push(event.port as u8);
        goal(out, &event.goal);
        number(out, event.ancestors.count() as u16);
        event.ancestors.top_first().for_each(|part| ancestor(out, part));
        number(out, event.bets.count() as u16);
        event.bets.top_first().for_each(|part| bet(out, part));
    })
}

/// The length of the program's whole record.
pub fn program_length(program: &Program) -> u64 {
    program.definitions.iter().fold(5, |sum, definition| sum + 4 + u64::from(definition.goal.length()))
}

pub fn program(program: &Program) -> Vec<u8> {
    record(|out| {
        number(out, program.definitions.len() as u16);
        for definition in &program.definitions {
            number(out, definition.predicate);
            out.extend([definition.arity, definition.locals]);
            goal(out, &definition.goal);
        }
    })
}

pub fn query(asked: &Goal) -> Vec<u8> {
    record(|out| goal(out, asked))
}

pub fn clauses(clauses: &[Clause]) -> Vec<u8> {
    record(|out| {
        number(out, clauses.len() as u16);
        for clause in clauses {
            number(out, clause.predicate);
            out.extend([clause.head.len() as u8, clause.variables]);
            clause.head.iter().for_each(|part| term(out, part));
            goal(out, &clause.goal);
        }
    })
}
