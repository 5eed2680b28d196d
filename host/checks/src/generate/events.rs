//! Events that no walk need reach: any port with any goal, any stacks.

use super::goals::{atom, goal, goal_bytes, Goal};
use super::sized::{bet_of, term_of};
use super::terms::{term_bytes, Names};
use super::Dice;
use layout::{ancestor_end, bet_end, goal_end, number_at, EVENT_GOAL_AT, IN_CONJUNCTION, IN_DISJUNCTION, PORT_AT};

/// A unifier bet that keeps the pair rules: the bound variables are some of the names', the terms are over others.
pub fn unifier(dice: &mut Dice, names: Names) -> Vec<u8> {
    let count = usize::from(names.variables.min(40));
    let split = dice.below(count + 1) as u16;
    // the names below the split are bound and those above are free, or the other way round
    let (bound, free) = if dice.one_in(2) {
        ((0..split).collect::<Vec<u16>>(), Names { base: names.base.saturating_add(split), variables: count as u16 - split, ..names })
    } else {
        ((split..count as u16).collect(), Names { variables: split, ..names })
    };
    let kept: Vec<u16> = bound.into_iter().filter(|_| !dice.one_in(3)).collect();
    let pairs: Vec<(u16, Vec<u8>)> = kept.into_iter().map(|i| (names.base + i, term_bytes(dice, free, 2))).collect();
    layout::unifier(&pairs)
}

pub fn bet(dice: &mut Dice, names: Names) -> Vec<u8> {
    match dice.below(4) {
        0 => layout::or(dice.between(1, 2) as u8),
        1 => layout::by(&goal_bytes(dice, names, 1)),
        _ => unifier(dice, names),
    }
}

pub fn ancestor(dice: &mut Dice, names: Names) -> Vec<u8> {
    match dice.below(3) {
        0 => atom(dice, names).bytes(),
        _ => {
            let goal = goal_bytes(dice, names, 1);
            half_with(dice, &goal, names)
        }
    }
}

/// An ancestor that has the goal in one half, mostly the one that the tag selects.
fn half_with(dice: &mut Dice, goal: &[u8], names: Names) -> Vec<u8> {
    let (kind, tag, other) = ([IN_CONJUNCTION, IN_DISJUNCTION][dice.below(2)], dice.between(1, 2) as u8, goal_bytes(dice, names, 1));
    let first = (tag == 1) != dice.one_in(12);
    if first {
        layout::half(kind, tag, goal, &other)
    } else {
        layout::half(kind, tag, &other, goal)
    }
}

/// A bet of the kind that the goal's own rules look for.
fn bet_for(dice: &mut Dice, goal: &Goal, names: Names) -> Vec<u8> {
    match goal {
        Goal::Equality(..) => unifier(dice, names),
        Goal::Disjunction(..) => layout::or(dice.between(1, 2) as u8),
        _ => layout::by(&goal_bytes(dice, names, 1)),
    }
}

/// What an event record is laid out from.
pub struct Parts {
    pub port: u8,
    pub goal: Vec<u8>,
    pub ancestors: Vec<Vec<u8>>,
    pub bets: Vec<Vec<u8>>,
}

impl Parts {
    /// The parts of a record that passes.
    pub fn of(record: &[u8]) -> Parts {
        let mut at = goal_end(record, EVENT_GOAL_AT, |_| ());
        let goal = record[EVENT_GOAL_AT..at].to_vec();
        let mut stack = |end: fn(&[u8], usize) -> usize| -> Vec<Vec<u8>> {
            let count = number_at(record, at);
            at += 2;
            let mut part = || {
                let from = at;
                at = end(record, from);
                record[from..at].to_vec()
            };
            (0..count).map(|_| part()).collect()
        };
        let (ancestors, bets) = (stack(ancestor_end), stack(bet_end));
        Parts { port: record[PORT_AT], goal, ancestors, bets }
    }

    /// Whether an ancestor has a tag, in its byte 1.
    pub fn is_half(ancestor: &[u8]) -> bool {
        [IN_CONJUNCTION, IN_DISJUNCTION].contains(&ancestor[0])
    }

    pub fn record(&self) -> Vec<u8> {
        layout::event(self.port, &self.goal, &self.ancestors, &self.bets)
    }
}

fn parts(dice: &mut Dice) -> Parts {
    let (names, depth) = (Names::any(dice), dice.below(3));
    let goal = goal(dice, names, depth);
    let bytes = goal.bytes();
    let mut ancestors: Vec<Vec<u8>> = (0..*dice.pick(&[0, 0, 0, 1, 2, 5])).map(|_| ancestor(dice, names)).collect();
    if !dice.one_in(3) {
        ancestors.insert(0, half_with(dice, &bytes, names));
    }
    let mut bets: Vec<Vec<u8>> = (0..*dice.pick(&[0, 0, 1, 2, 6])).map(|_| bet(dice, names)).collect();
    if !dice.one_in(3) {
        bets.insert(0, bet_for(dice, &goal, names));
    }
    Parts { port: dice.between(1, 4) as u8, goal: bytes, ancestors, bets }
}

/// An event record that passes.
pub fn event(dice: &mut Dice) -> Vec<u8> {
    loop {
        let record = parts(dice).record();
        if record.len() <= 32_768 {
            return record;
        }
    }
}

/// An event whose goal is an atom.
pub fn of_atom(dice: &mut Dice) -> Vec<u8> {
    let names = Names::any(dice);
    Parts { goal: atom(dice, names).bytes(), ..parts(dice) }.record()
}

/// An event that nearly fills a record: the rest is a bet at the bottom.
pub fn nearly_full(dice: &mut Dice) -> Vec<u8> {
    let mut parts = parts(dice);
    let left = (32_768 - dice.below(40)).saturating_sub(parts.record().len()).max(16);
    parts.bets.push(bet_of(left));
    let record = parts.record();
    if record.len() <= 32_768 {
        record
    } else {
        event(dice)
    }
}

/// An event of an equality whose values come near question 8's limit by way of the bets.
pub fn large_values(dice: &mut Dice) -> Vec<u8> {
    let doubled = |i: u16| layout::unifier(&[(i, layout::symbol(1, &[layout::variable(i + 1), layout::variable(i + 1)]))]);
    let levels = dice.between(8, 11) as u16;
    // 2^n places, each filled at the last with a term of some bytes
    let last = layout::unifier(&[(levels, term_of(*dice.pick(&[4, 7, 8, 11, 12, 15, 16, 20, 24, 28])))]);
    let mut bets: Vec<Vec<u8>> = [last].into_iter().chain((0..levels).rev().map(doubled)).collect();
    if dice.one_in(2) {
        bets.insert(0, unifier(dice, Names::low(6)));
    }
    let (left, right) = (layout::variable(dice.below(3) as u16), term_bytes(dice, Names::low(5), 2));
    let goal = if dice.one_in(2) { layout::equality(&left, &right) } else { layout::equality(&right, &left) };
    layout::event(dice.between(1, 4) as u8, &goal, &[], &bets)
}

/// An event whose grammar is right and that breaks question 4.
pub fn breaking(dice: &mut Dice) -> Vec<u8> {
    let mut parts = parts(dice);
    let (v, f) = (layout::variable, |inside: Vec<u8>| layout::symbol(1, &[inside]));
    let bad = match dice.below(5) {
        0 => layout::unifier(&[(1, v(0)), (1, v(0))]),
        1 => layout::unifier(&[(2, v(0)), (1, v(0))]),
        2 => layout::unifier(&[(1, v(1))]),
        3 => layout::unifier(&[(1, v(0)), (2, f(f(v(1)))), (3, v(0))]),
        _ => layout::unifier(&[(1, f(v(65_535))), (65_535, v(0))]),
    };
    parts.bets.insert(dice.below(parts.bets.len() + 1), bad);
    parts.record()
}
