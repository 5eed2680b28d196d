//! Goals. A goal knows the length of its bytes and the number above its greatest variable.

use super::term::{same_term, TermRef};
use std::mem;
use std::rc::Rc;

pub type GoalRef = Rc<Goal>;

#[derive(Debug)]
pub enum GoalShape {
    True,
    Fail,
    Equality(TermRef, TermRef),
    Conjunction(GoalRef, GoalRef),
    Disjunction(GoalRef, GoalRef),
    Atom(u16, Vec<TermRef>),
}

#[derive(Debug)]
pub struct Goal {
    shape: GoalShape,
    length: u32,
    above: u32,
}

/// A tag: the half of a conjunction or disjunction that it selects.
#[derive(Clone, Copy, Debug, PartialEq, Eq)]
pub enum Half {
    First = 1,
    Second = 2,
}

impl Goal {
    pub fn new(shape: GoalShape) -> GoalRef {
        let (length, above) = match &shape {
            GoalShape::True | GoalShape::Fail => (1, 0),
            GoalShape::Equality(a, b) => (a.length().saturating_add(b.length()).saturating_add(1), a.above().max(b.above())),
            GoalShape::Conjunction(a, b) | GoalShape::Disjunction(a, b) => {
                (a.length.saturating_add(b.length).saturating_add(1), a.above.max(b.above))
            }
            GoalShape::Atom(_, arguments) => {
                (arguments.iter().fold(4u32, |sum, t| sum.saturating_add(t.length())), arguments.iter().map(|t| t.above()).max().unwrap_or(0))
            }
        };
        Rc::new(Goal { shape, length, above })
    }

    pub fn shape(&self) -> &GoalShape {
        &self.shape
    }

    /// The number of the goal's bytes.
    pub fn length(&self) -> u32 {
        self.length
    }

    /// One more than the greatest variable number, or 0 if there is none.
    pub fn above(&self) -> u32 {
        self.above
    }

    /// The halves of a conjunction or disjunction.
    pub fn halves(&self) -> Option<(&GoalRef, &GoalRef)> {
        match &self.shape {
            GoalShape::Conjunction(a, b) | GoalShape::Disjunction(a, b) => Some((a, b)),
            _ => None,
        }
    }

    /// The half of a conjunction or disjunction that a tag selects.
    pub fn half(&self, half: Half) -> Option<&GoalRef> {
        self.halves().map(|(a, b)| if half == Half::First { a } else { b })
    }

    /// Puts each of the goal's terms to `meet`.
    pub fn each_term(&self, mut meet: impl FnMut(&TermRef)) {
        let mut ahead = vec![self];
        while let Some(goal) = ahead.pop() {
            match &goal.shape {
                GoalShape::True | GoalShape::Fail => {}
                GoalShape::Equality(a, b) => [a, b].into_iter().for_each(&mut meet),
                GoalShape::Conjunction(a, b) | GoalShape::Disjunction(a, b) => ahead.extend([&**b, &**a]),
                GoalShape::Atom(_, arguments) => arguments.iter().for_each(&mut meet),
            }
        }
    }

    fn leave(&mut self, stand_in: &GoalRef, leaving: &mut Vec<GoalRef>) {
        if let GoalShape::Conjunction(a, b) | GoalShape::Disjunction(a, b) = &mut self.shape {
            leaving.push(mem::replace(a, stand_in.clone()));
            leaving.push(mem::replace(b, stand_in.clone()));
        }
    }
}

/// Are the two the same goal?
pub fn same_goal(left: &GoalRef, right: &GoalRef) -> bool {
    if Rc::ptr_eq(left, right) {
        return true;
    }
    let mut ahead = vec![(left, right)];
    while let Some((a, b)) = ahead.pop() {
        if Rc::ptr_eq(a, b) {
            continue;
        }
        if a.length != b.length || a.above != b.above {
            return false;
        }
        let same = match (&a.shape, &b.shape) {
            (GoalShape::True, GoalShape::True) | (GoalShape::Fail, GoalShape::Fail) => true,
            (GoalShape::Equality(s, t), GoalShape::Equality(u, v)) => same_term(s, u) && same_term(t, v),
            (GoalShape::Conjunction(s, t), GoalShape::Conjunction(u, v)) | (GoalShape::Disjunction(s, t), GoalShape::Disjunction(u, v)) => {
                ahead.extend([(t, v), (s, u)]);
                true
            }
            (GoalShape::Atom(p, x), GoalShape::Atom(q, y)) => p == q && x.len() == y.len() && x.iter().zip(y).all(|(s, t)| same_term(s, t)),
            _ => false,
        };
        if !same {
            return false;
        }
    }
    true
}

impl Drop for Goal {
    /// Halves of halves are let go in a loop: 16,000 nested conjunctions need no native stack.
    fn drop(&mut self) {
        let last = |goal: &GoalRef| Rc::strong_count(goal) == 1 && goal.halves().is_some();
        if !self.halves().is_some_and(|(a, b)| last(a) || last(b)) {
            return;
        }
        let stand_in = Goal::new(GoalShape::True);
        let mut leaving = Vec::new();
        self.leave(&stand_in, &mut leaving);
        while let Some(mut part) = leaving.pop() {
            if let Some(goal) = Rc::get_mut(&mut part) {
                goal.leave(&stand_in, &mut leaving);
            }
        }
    }
}
