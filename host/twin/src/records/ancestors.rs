//! Ancestors, and their stack: it keeps its length and the greatest variable as it moves.

use super::goal::{same_goal, GoalRef, Half};

/// An atom, or a conjunction or disjunction with the half that the walk is in.
#[derive(Clone, Debug)]
pub enum Ancestor {
    Atom(GoalRef),
    Join(Half, GoalRef),
}

impl Ancestor {
    pub fn length(&self) -> u32 {
        match self {
            Ancestor::Atom(goal) => goal.length(),
            Ancestor::Join(_, goal) => goal.length() + 1,
        }
    }

    pub fn goal(&self) -> &GoalRef {
        match self {
            Ancestor::Atom(goal) | Ancestor::Join(_, goal) => goal,
        }
    }

    pub fn same(&self, other: &Ancestor) -> bool {
        let same_tag = match (self, other) {
            (Ancestor::Atom(_), Ancestor::Atom(_)) => true,
            (Ancestor::Join(a, _), Ancestor::Join(b, _)) => a == b,
            _ => false,
        };
        same_tag && same_goal(self.goal(), other.goal())
    }
}

/// The ancestor stack, bottom first; each level has the number above the greatest variable in it and below it.
#[derive(Debug, Default)]
pub struct Ancestors {
    levels: Vec<(Ancestor, u32)>,
    length: u32,
}

impl Ancestors {
    pub fn top(&self) -> Option<&Ancestor> {
        self.levels.last().map(|level| &level.0)
    }

    pub fn bottom(&self) -> Option<&Ancestor> {
        self.levels.first().map(|level| &level.0)
    }

    /// The sum of the parts' lengths.
    pub fn length(&self) -> u32 {
        self.length
    }

    pub fn count(&self) -> usize {
        self.levels.len()
    }

    /// One more than the greatest variable number, or 0 if there is none.
    pub fn above(&self) -> u32 {
        self.levels.last().map_or(0, |level| level.1)
    }

    pub fn push(&mut self, ancestor: Ancestor) {
        let above = self.above().max(ancestor.goal().above());
        self.length += ancestor.length();
        self.levels.push((ancestor, above));
    }

    pub fn pop(&mut self) {
        if let Some((ancestor, _)) = self.levels.pop() {
            self.length -= ancestor.length();
        }
    }

    pub fn top_first(&self) -> impl Iterator<Item = &Ancestor> {
        self.levels.iter().rev().map(|level| &level.0)
    }
}
