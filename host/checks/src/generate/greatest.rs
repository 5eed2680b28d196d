//! Calls of an atom whose greatest variable stands in given parts of the event (SPECIFICATION 4, 8.11).

use super::events::{ancestor, bet, unifier};
use super::goals::goal_bytes;
use super::terms::{all_bytes, term_bytes, terms, Names};
use super::Dice;
use layout::{atom, by, conjunction, disjunction, equality, half, listed, symbol, variable, IN_CONJUNCTION, IN_DISJUNCTION};

/// The predicate that is called, with one argument or two.
pub const PREDICATE: u16 = 5;
/// All other variables are below this one.
pub const LEAST: u16 = 6;

/// What holds the greatest variable.
#[derive(Clone, Copy)]
pub enum Holder {
    Goal,
    Ancestor,
    PairVariable,
    PairTerm,
    By,
}

/// A holder, and whether it belongs to a bet below others.
pub type Place = (Holder, bool);

pub const GOAL: Place = (Holder::Goal, false);
pub const ANCESTOR: Place = (Holder::Ancestor, false);
pub const BETS: [Place; 6] = [
    (Holder::PairVariable, false),
    (Holder::PairTerm, false),
    (Holder::By, false),
    (Holder::PairVariable, true),
    (Holder::PairTerm, true),
    (Holder::By, true),
];
/// All of them.
pub const PLACES: [Place; 8] = [GOAL, ANCESTOR, BETS[0], BETS[1], BETS[2], BETS[3], BETS[4], BETS[5]];

/// A call event without its port.
pub struct Called {
    pub goal: Vec<u8>,
    pub ancestors: Vec<Vec<u8>>,
    pub bets: Vec<Vec<u8>>,
}

impl Called {
    /// The atom with its ancestors and bets at a port.
    pub fn at(&self, port: u8) -> Vec<u8> {
        layout::event(port, &self.goal, &self.ancestors, &self.bets)
    }

    /// A goal called under the atom.
    pub fn calling(&self, goal: &[u8]) -> Vec<u8> {
        layout::event(1, goal, &[std::slice::from_ref(&self.goal), &self.ancestors].concat(), &self.bets)
    }

    /// The call with no bets.
    pub fn bare(&self) -> Vec<u8> {
        layout::event(1, &self.goal, &self.ancestors, &[])
    }

    /// The event of that record, which has no bets, with these bets.
    pub fn betted(&self, record: &[u8]) -> Vec<u8> {
        let front = record.get(3..record.len().saturating_sub(2)).unwrap_or_default();
        layout::record(&[front, &listed(&self.bets)].concat())
    }
}

fn names() -> Names {
    Names::low(LEAST)
}

/// A goal that has the variable somewhere.
fn goal_with(dice: &mut Dice, number: u16) -> Vec<u8> {
    let (inside, other) = (symbol(1, &[variable(number)]), term_bytes(dice, names(), 1));
    let held = match dice.below(4) {
        0 => equality(&inside, &other),
        1 => equality(&other, &variable(number)),
        2 => atom(3, &[other, inside]),
        _ => atom(3, &[variable(number)]),
    };
    let beside = goal_bytes(dice, names(), 1);
    match dice.below(6) {
        0 => conjunction(&held, &beside),
        1 => conjunction(&beside, &held),
        2 => disjunction(&held, &beside),
        3 => disjunction(&beside, &held),
        _ => held,
    }
}

fn ancestor_with(dice: &mut Dice, number: u16) -> Vec<u8> {
    let (held, other) = (goal_with(dice, number), goal_bytes(dice, names(), 1));
    let (kind, tag) = (*dice.pick(&[IN_CONJUNCTION, IN_DISJUNCTION]), dice.between(1, 2) as u8);
    match dice.below(3) {
        0 => atom(3, &[variable(number)]),
        1 => half(kind, tag, &held, &other),
        _ => half(kind, tag, &other, &held),
    }
}

/// A bet that has the variable there; the pair rules are kept.
fn bet_with(dice: &mut Dice, holder: Holder, number: u16) -> Vec<u8> {
    let free = Names { base: 2, variables: LEAST - 2, symbols: 2 };
    let pairs = |first: Vec<u8>, more: Vec<(u16, Vec<u8>)>| layout::unifier(&[vec![(0, first)], more].concat());
    match holder {
        Holder::PairVariable if dice.one_in(2) => layout::unifier(&[(number, term_bytes(dice, names(), 2))]),
        Holder::PairVariable => pairs(term_bytes(dice, free, 2), vec![(number, term_bytes(dice, free, 1))]),
        Holder::PairTerm if dice.one_in(2) => pairs(symbol(1, &[term_bytes(dice, free, 1), variable(number)]), vec![(1, term_bytes(dice, free, 1))]),
        Holder::PairTerm => pairs(term_bytes(dice, free, 1), vec![(1, variable(number))]),
        _ => by(&goal_with(dice, number)),
    }
}

/// A call whose greatest variable has that number, `LEAST` or more, and stands in these places alone; with no place all its variables are below
/// `LEAST`.
pub fn called(dice: &mut Dice, places: &[Place], number: u16) -> Called {
    let mut arguments = {
        let count = dice.between(1, 2);
        all_bytes(&terms(dice, names(), 1, count))
    };
    let mut ancestors: Vec<Vec<u8>> = (0..dice.below(4)).map(|_| ancestor(dice, names())).collect();
    let mut bets: Vec<Vec<u8>> = (0..dice.below(6)).map(|_| bet(dice, names())).collect();
    for &(holder, lower) in places {
        match holder {
            Holder::Goal => arguments[0] = if dice.one_in(2) { variable(number) } else { symbol(2, &[variable(0), variable(number)]) },
            Holder::Ancestor => ancestors.insert(dice.below(ancestors.len() + 1), ancestor_with(dice, number)),
            Holder::PairVariable | Holder::PairTerm | Holder::By => {
                let held = bet_with(dice, holder, number);
                if lower {
                    bets.push(unifier(dice, names()));
                    bets.insert(dice.between(1, bets.len()), held);
                } else {
                    bets.insert(0, held);
                }
            }
        }
    }
    Called { goal: atom(PREDICATE, &arguments), ancestors, bets }
}
