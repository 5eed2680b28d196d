//! Bets, and their stack: it keeps its length, its greatest variable and who binds what as it moves.

use super::goal::{same_goal, GoalRef, Half};
use super::term::{same_term, TermRef};
use std::collections::HashMap;
use std::hash::{BuildHasherDefault, Hasher};

/// Pairs that rise by variable, the length of the whole bet, and the number above its greatest variable.
#[derive(Debug)]
pub struct Unifier {
    pairs: Vec<(u16, TermRef)>,
    length: u32,
    above: u32,
}

#[derive(Debug)]
pub enum Bet {
    Unifier(Unifier),
    Or(Half),
    By(GoalRef),
}

impl Unifier {
    pub fn new(pairs: Vec<(u16, TermRef)>) -> Unifier {
        let length = pairs.iter().fold(3u32, |sum, (_, term)| sum.saturating_add(term.length()).saturating_add(2));
        let above = pairs.iter().map(|(variable, term)| term.above().max(u32::from(*variable) + 1)).max().unwrap_or(0);
        Unifier { pairs, length, above }
    }

    pub fn pairs(&self) -> &[(u16, TermRef)] {
        &self.pairs
    }

    pub fn length(&self) -> u32 {
        self.length
    }

    /// The term that a variable is bound to.
    pub fn term(&self, variable: u16) -> Option<&TermRef> {
        self.pairs.binary_search_by_key(&variable, |pair| pair.0).ok().map(|i| &self.pairs[i].1)
    }

    pub fn same(&self, other: &Unifier) -> bool {
        self.length == other.length
            && self.pairs.len() == other.pairs.len()
            && self.pairs.iter().zip(&other.pairs).all(|((v, s), (w, t))| v == w && same_term(s, t))
    }
}

impl Bet {
    pub fn length(&self) -> u32 {
        match self {
            Bet::Unifier(unifier) => unifier.length,
            Bet::Or(_) => 2,
            Bet::By(goal) => goal.length().saturating_add(1),
        }
    }

    /// One more than the greatest variable number, bound or in a term or goal, or 0 if there is none.
    pub fn above(&self) -> u32 {
        match self {
            Bet::Unifier(unifier) => unifier.above,
            Bet::Or(_) => 0,
            Bet::By(goal) => goal.above(),
        }
    }

    pub fn same(&self, other: &Bet) -> bool {
        match (self, other) {
            (Bet::Unifier(a), Bet::Unifier(b)) => a.same(b),
            (Bet::Or(a), Bet::Or(b)) => a == b,
            (Bet::By(a), Bet::By(b)) => same_goal(a, b),
            _ => false,
        }
    }
}

/// Variable numbers are spread well enough by one multiplication.
#[derive(Default)]
pub struct NumberHasher(u64);

impl Hasher for NumberHasher {
    fn finish(&self) -> u64 {
        self.0
    }

    fn write(&mut self, bytes: &[u8]) {
        bytes.iter().for_each(|&byte| self.write_u64(self.0 << 8 | u64::from(byte)));
    }

    fn write_u16(&mut self, number: u16) {
        self.write_u64(u64::from(number));
    }

    fn write_u64(&mut self, number: u64) {
        self.0 = number.wrapping_mul(0x9E37_79B9_7F4A_7C15);
    }
}

pub type ByVariable<T> = HashMap<u16, T, BuildHasherDefault<NumberHasher>>;

/// The bet stack, bottom first; each level has the number above the greatest variable in it and below it. For each bound variable there are the
/// places, rising, of the unifiers that bind it.
#[derive(Debug, Default)]
pub struct Bets {
    levels: Vec<(Bet, u32)>,
    binders: ByVariable<Vec<u32>>,
    length: u32,
}

impl Bets {
    pub fn top(&self) -> Option<&Bet> {
        self.levels.last().map(|level| &level.0)
    }

    /// The sum of the parts' lengths.
    pub fn length(&self) -> u32 {
        self.length
    }

    pub fn count(&self) -> usize {
        self.levels.len()
    }

    /// One more than the greatest variable number, or 0 if there is none.
    pub fn above(&self) -> u32 {
        self.levels.last().map_or(0, |level| level.1)
    }

    pub fn push(&mut self, bet: Bet) {
        if let Bet::Unifier(unifier) = &bet {
            for (variable, _) in &unifier.pairs {
                self.binders.entry(*variable).or_default().push(self.levels.len() as u32);
            }
        }
        let above = self.above().max(bet.above());
        self.length += bet.length();
        self.levels.push((bet, above));
    }

    pub fn pop(&mut self) {
        let Some((bet, _)) = self.levels.pop() else { return };
        self.length -= bet.length();
        if let Bet::Unifier(unifier) = &bet {
            for (variable, _) in &unifier.pairs {
                self.binders.get_mut(variable).map(Vec::pop);
            }
        }
    }

    /// The lowest unifier, at places `from` to before `to`, that binds the variable: its place and the variable's term.
    pub fn binder(&self, variable: u16, from: usize, to: usize) -> Option<(usize, &TermRef)> {
        let places = self.binders.get(&variable)?;
        let place = *places.get(places.partition_point(|&place| (place as usize) < from))? as usize;
        match &self.levels[place].0 {
            Bet::Unifier(unifier) if place < to => unifier.term(variable).map(|term| (place, term)),
            _ => None,
        }
    }

    pub fn top_first(&self) -> impl Iterator<Item = &Bet> {
        self.levels.iter().rev().map(|level| &level.0)
    }
}
