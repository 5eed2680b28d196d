//! S(T): the largest value, and as many pairs or unifiers as a record holds besides.

use super::equalities::{most_leaves, tree};
use super::{Bytes, Call, Case};
use layout::{by, constant, equality, event, nested, or, program, symbol, unifier, variable, RECORD_LIMIT as ROOM, TRUE, VALUE_LIMIT};

const LAST: u16 = 65_535;

/// The largest tree: one variable all over, and another one as its last leaf.
fn value(last_leaf: u16) -> Bytes {
    let leaves = most_leaves(3);
    tree([vec![variable(LAST); leaves - 1], vec![variable(last_leaf)]].concat())
}

/// Above the bet that gives variable 60,000 its value: as many of these bets as fit, the first made one at the bottom.
fn above(value: &Bytes, bet: impl Fn(u16) -> Bytes) -> Vec<Bytes> {
    let mut bets = vec![unifier(&[(60_000, value.clone())])];
    let mut room = ROOM - 64 - bets[0].len();
    for i in 0.. {
        let next = bet(i);
        if next.len() > room {
            break;
        }
        room -= next.len();
        bets.push(next);
    }
    bets.reverse();
    bets
}

/// Both sides of an equality, and the value service.
fn ways(bets: &[Bytes]) -> Vec<Call> {
    let (none, goal) = (program(&[]), equality(&variable(60_000), &variable(60_000)));
    let exited = [&[unifier(&[])], bets].concat();
    vec![
        Call::Forward(none.clone(), event(1, &goal, &[], bets)),
        Call::Back(none.clone(), event(3, &goal, &[], bets)),
        Call::Back(none, event(2, &goal, &[], &exited)),
        Call::Value(event(1, &TRUE, &[], bets), 60_000),
    ]
}

/// One unifier of as many pairs as fit, each with this term, and then one that binds the last leaf.
fn one_unifier(term: &Bytes) -> Vec<Bytes> {
    let value = value(50_000);
    let n = ((ROOM - 96 - value.len()) / (2 + term.len())) as u16;
    let pairs: Vec<(u16, Bytes)> = (0..n).map(|i| (i, term.clone())).chain([(50_000, variable(LAST))]).collect();
    vec![unifier(&pairs), unifier(&[(60_000, value)])]
}

/// One unifier with one pair whose term is as long as fits, and one that binds the last leaf.
fn one_long_pair() -> Vec<Bytes> {
    let value = value(50_000);
    let depth = (ROOM - 96 - value.len()) / 4 - 1;
    vec![unifier(&[(0, nested(depth, &constant(0))), (50_000, variable(LAST))]), unifier(&[(60_000, value)])]
}

/// f(V, f(V, ..)): each bet replaces the last variable by f(V, V') and so grows the term.
fn growing() -> Vec<Bytes> {
    let most = (VALUE_LIMIT / 7 - 2) as u16;
    above(&variable(0), |i| if i < most { unifier(&[(i, symbol(1, &[variable(LAST), variable(i + 1)]))]) } else { or(1) })
}

pub fn cases() -> Vec<Case> {
    let constants = tree(vec![constant(1); most_leaves(4)]);
    [
        ("largest value, unifiers that each rename its last variable", above(&value(0), |i| unifier(&[(i, variable(i + 1))]))),
        ("largest value, unifiers that bind nothing in it", above(&value(0), |i| unifier(&[(i + 1, variable(i + 2))]))),
        ("largest value of constants, unifiers that bind nothing in it", above(&constants, |i| unifier(&[(i + 1, variable(i + 2))]))),
        ("largest value, a unifier of as many pairs as fit, its last variable bound", one_unifier(&variable(LAST))),
        ("largest value, a unifier with one pair as long as fits, its last variable bound", one_long_pair()),
        ("unifiers that each grow the value", growing()),
        ("4,000 bets, one pair each", above(&variable(0), |i| unifier(&[(i, variable(i + 1))]))),
        ("empty unifiers, as many as fit", above(&variable(0), |_| unifier(&[]))),
        ("BY true, as many as fit", above(&variable(0), |_| by(&TRUE))),
    ]
    .into_iter()
    .map(|(words, bets)| (words, ways(&bets)))
    .collect()
}
