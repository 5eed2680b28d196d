//! A term or goal with other things in the place of its variables. Parts that do not change are shared with the old tree.

use crate::records::{Goal, GoalRef, GoalShape, Shape, Term, TermRef};
use std::rc::Rc;

/// What becomes of a variable that is met at a stage.
pub enum Image<'a> {
    Stays,
    Is(TermRef),
    /// this term, whose own variables are met at that stage
    Becomes(&'a TermRef, usize),
}

/// A term after the images of variables have been followed.
enum Met<'a> {
    Leaf(TermRef),
    Symbol(&'a TermRef, u16, &'a [TermRef], usize),
}

fn met<'a>(mut term: &'a TermRef, mut stage: usize, image: &mut impl FnMut(u16, usize) -> Image<'a>) -> Met<'a> {
    loop {
        match term.shape() {
            _ if term.is_ground() => return Met::Leaf(term.clone()),
            Shape::Symbol(symbol, arguments) => return Met::Symbol(term, *symbol, arguments, stage),
            Shape::Variable(variable) => match image(*variable, stage) {
                Image::Stays => return Met::Leaf(term.clone()),
                Image::Is(other) => return Met::Leaf(other),
                Image::Becomes(other, next) => (term, stage) = (other, next),
            },
        }
    }
}

/// The term with each variable's image in its place; nothing where it would be longer than the limit.
pub fn term<'a>(start: &'a TermRef, stage: usize, limit: u32, mut image: impl FnMut(u16, usize) -> Image<'a>) -> Option<TermRef> {
    match met(start, stage, &mut image) {
        Met::Leaf(leaf) => (leaf.length() <= limit).then_some(leaf),
        Met::Symbol(term, _, _, stage) => compound(term, stage, limit, image),
    }
}

enum Work<'a> {
    Visit(&'a TermRef, usize),
    Build(&'a TermRef, u16, &'a [TermRef]),
}

/// The same for a term with arguments. An image is never shorter than its variable, so the sum of the leaves and heads met so far is a lower bound
/// of the length, and no more than the limit is ever built.
fn compound<'a>(start: &'a TermRef, stage: usize, limit: u32, mut image: impl FnMut(u16, usize) -> Image<'a>) -> Option<TermRef> {
    let mut length = 0u32;
    let mut ahead = vec![Work::Visit(start, stage)];
    let mut built: Vec<TermRef> = Vec::new();
    while let Some(work) = ahead.pop() {
        match work {
            Work::Visit(term, stage) => match met(term, stage, &mut image) {
                Met::Leaf(leaf) => {
                    length = length.saturating_add(leaf.length());
                    built.push(leaf);
                }
                Met::Symbol(term, symbol, arguments, stage) => {
                    length = length.saturating_add(4);
                    ahead.push(Work::Build(term, symbol, arguments));
                    ahead.extend(arguments.iter().rev().map(|argument| Work::Visit(argument, stage)));
                }
            },
            Work::Build(term, symbol, arguments) => {
                let parts = built.split_off(built.len() - arguments.len());
                let unchanged = parts.iter().zip(arguments).all(|(new, old)| Rc::ptr_eq(new, old));
                built.push(if unchanged { term.clone() } else { Term::symbol(symbol, parts) });
            }
        }
        if length > limit {
            return None;
        }
    }
    built.pop()
}

enum GoalWork<'a> {
    Visit(&'a GoalRef),
    Join(&'a GoalRef),
}

/// The goal with each of its terms changed. A goal without variables is the same goal.
pub fn goal(start: &GoalRef, mut change: impl FnMut(&TermRef) -> TermRef) -> GoalRef {
    let mut ahead = vec![GoalWork::Visit(start)];
    let mut built: Vec<GoalRef> = Vec::new();
    while let Some(work) = ahead.pop() {
        match work {
            GoalWork::Visit(goal) if goal.above() == 0 => built.push(goal.clone()),
            GoalWork::Visit(goal) => match goal.shape() {
                GoalShape::True | GoalShape::Fail => built.push(goal.clone()),
                GoalShape::Equality(a, b) => built.push(Goal::new(GoalShape::Equality(change(a), change(b)))),
                GoalShape::Atom(predicate, arguments) => {
                    built.push(Goal::new(GoalShape::Atom(*predicate, arguments.iter().map(&mut change).collect())));
                }
                GoalShape::Conjunction(a, b) | GoalShape::Disjunction(a, b) => {
                    ahead.extend([GoalWork::Join(goal), GoalWork::Visit(b), GoalWork::Visit(a)]);
                }
            },
            GoalWork::Join(goal) => {
                let (Some(second), Some(first)) = (built.pop(), built.pop()) else { unreachable!("both halves are built") };
                built.push(Goal::new(match goal.shape() {
                    GoalShape::Conjunction(..) => GoalShape::Conjunction(first, second),
                    _ => GoalShape::Disjunction(first, second),
                }));
            }
        }
    }
    built.pop().unwrap_or_else(|| start.clone())
}
