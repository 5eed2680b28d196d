//! Events: a port, a goal and two stacks; and what a rule may do to one.

use super::ancestors::{Ancestor, Ancestors};
use super::bets::{Bet, Bets};
use super::goal::{same_goal, GoalRef};

#[derive(Clone, Copy, Debug, PartialEq, Eq)]
pub enum Port {
    Call = 1,
    Exit = 2,
    Fail = 3,
    Redo = 4,
}

#[derive(Debug)]
pub struct Event {
    pub port: Port,
    pub goal: GoalRef,
    pub ancestors: Ancestors,
    pub bets: Bets,
}

/// What a rule does to a stack.
#[derive(Debug)]
pub enum Move<T> {
    Keep,
    Put(T),
    Drop,
    /// another one in the place of the top
    Change(T),
}

/// What a rule does to an event.
#[derive(Debug)]
pub struct Change {
    pub port: Port,
    pub goal: GoalRef,
    pub ancestors: Move<Ancestor>,
    pub bets: Move<Bet>,
}

impl<T> Move<T> {
    /// The stack's length after the move.
    fn length(&self, before: u32, top: Option<&T>, of: impl Fn(&T) -> u32) -> u64 {
        let put = match self {
            Move::Put(part) | Move::Change(part) => u64::from(of(part)),
            Move::Keep | Move::Drop => 0,
        };
        let gone = match self {
            Move::Drop | Move::Change(_) => u64::from(top.map_or(0, of)),
            Move::Keep | Move::Put(_) => 0,
        };
        u64::from(before) + put - gone
    }
}

impl Event {
    pub fn first(query: GoalRef) -> Event {
        Event { port: Port::Call, goal: query, ancestors: Ancestors::default(), bets: Bets::default() }
    }

    /// The length of the event's whole record.
    pub fn length(&self) -> u64 {
        8 + u64::from(self.goal.length()) + u64::from(self.ancestors.length()) + u64::from(self.bets.length())
    }

    /// The length of the whole record of the event that the change would make.
    pub fn length_after(&self, change: &Change) -> u64 {
        8 + u64::from(change.goal.length())
            + change.ancestors.length(self.ancestors.length(), self.ancestors.top(), Ancestor::length)
            + change.bets.length(self.bets.length(), self.bets.top(), Bet::length)
    }

    pub fn apply(&mut self, change: Change) {
        self.port = change.port;
        self.goal = change.goal;
        match change.ancestors {
            Move::Keep => {}
            Move::Put(ancestor) => self.ancestors.push(ancestor),
            Move::Drop => self.ancestors.pop(),
            Move::Change(ancestor) => {
                self.ancestors.pop();
                self.ancestors.push(ancestor);
            }
        }
        match change.bets {
            Move::Keep => {}
            Move::Put(bet) => self.bets.push(bet),
            Move::Drop => self.bets.pop(),
            Move::Change(bet) => {
                self.bets.pop();
                self.bets.push(bet);
            }
        }
    }

    /// m of SPECIFICATION 4: one above the highest variable number that occurs in the goal, in any ancestor or in any bet, 0 where none occurs.
    pub fn above(&self) -> u32 {
        self.goal.above().max(self.stacks_above())
    }

    /// m as it was at the call of the atom that is the top ancestor: the goal of that event and its ancestors are the stack as it stands now, and the
    /// bets were the same.
    pub fn stacks_above(&self) -> u32 {
        self.ancestors.above().max(self.bets.above())
    }

    /// Equal (SPECIFICATION 9.3): port, goal and both stacks agree, with no variable renamed.
    pub fn same(&self, other: &Event) -> bool {
        self.port == other.port
            && same_goal(&self.goal, &other.goal)
            && self.ancestors.count() == other.ancestors.count()
            && self.bets.count() == other.bets.count()
            && self.ancestors.top_first().zip(other.ancestors.top_first()).all(|(a, b)| a.same(b))
            && self.bets.top_first().zip(other.bets.top_first()).all(|(a, b)| a.same(b))
    }
}
