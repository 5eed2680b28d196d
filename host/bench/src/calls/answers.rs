//! Lists of answers: a thousand short ones, and the dearest single ones: as many variables, pairs and long values as the events of a walk can hold.

use super::equalities::tree;
use super::{Bytes, Call, Case};
use layout::{atom, conjunction, constant, definition, disjunction, equality, program, record, symbol, variable, RECORD_LIMIT, TRUE};

/// More than the longest list here.
const ROOM: usize = 16 << 20;

const P: u16 = 1;

/// light(V) :- V = 0 ; .. ; V = 9. Three lights have 1,000 answers.
fn thousand() -> (Bytes, Bytes) {
    let colour = |n: u16| equality(&variable(0), &constant(n));
    let body = (0..9).rev().fold(colour(9), |rest, n| disjunction(&colour(n), &rest));
    let light = |v: u16| atom(P, &[variable(v)]);
    (program(&[definition(P, 1, 0, &body)]), record(&conjunction(&light(0), &conjunction(&light(1), &light(2)))))
}

/// p(T), T with n variables, and a body that leaves them alone.
fn unbound(n: u16) -> (Bytes, Bytes) {
    (program(&[definition(P, 1, 0, &TRUE)]), record(&atom(P, &[tree((0..n).map(variable).collect())])))
}

/// n variables made equal to as many others.
fn renamed(n: u16) -> (Bytes, Bytes) {
    let row = |from: u16| tree((0..n).map(|i| variable(from + i)).collect());
    (program(&[]), record(&equality(&row(n), &row(0))))
}

/// n variables that are one, V0, which then becomes a tree of 2,304 leaves, all of them one unbound variable: V0 = g(V1, ..), V1 = g(V2, ..), V2 =
/// g(V3, ..). Behind them p is called so many times, and puts 127 pairs on the bets each time, which bind nothing in the tree.
fn copies(n: u16, calls: usize) -> (Bytes, Bytes) {
    let row = |from: u16, n: u16| tree((from..from + n).map(variable).collect());
    let equal = equality(&row(20, n), &tree(vec![variable(0); usize::from(n)]));
    let level = |v: u16, arity| equality(&variable(v), &symbol(2, &vec![variable(v + 1); arity]));
    let pairs = definition(P, 0, 254, &equality(&row(0, 127), &row(127, 127)));
    let rest = (0..calls).fold(TRUE.to_vec(), |rest, _| conjunction(&atom(P, &[]), &rest));
    let goals = [equal, level(0, 16), level(1, 16), level(2, 9)];
    (program(&[pairs]), record(&goals.iter().rev().fold(rest, |rest, goal| conjunction(goal, &rest))))
}

/// The largest of a family whose one answer the walk comes to.
fn largest(family: impl Fn(u16) -> (Bytes, Bytes)) -> (Bytes, Bytes) {
    let walked = |n: u16| {
        let (program, query) = family(n);
        query.len() <= RECORD_LIMIT && twin::answers::answers(&program, &query, u32::MAX, ROOM).number == 6
    };
    let (mut fits, mut less) = (1, 11_000);
    while less - fits > 1 {
        let n = (fits + less) / 2;
        if walked(n) {
            fits = n;
        } else {
            less = n;
        }
    }
    family(fits)
}

pub fn cases() -> Vec<Case> {
    [
        ("1,000 answers of three variables", thousand()),
        ("one answer of as many unbound variables as fit", largest(unbound)),
        ("one answer of as many variables that are renamed as fit", largest(renamed)),
        ("one answer of as many variables that are one tree of 2,304 leaves as fit", largest(|n| copies(n, 0))),
        ("one answer of as many such variables as fit beside 1,270 pairs", largest(|n| copies(n, 10))),
    ]
    .into_iter()
    .map(|(words, (program, query))| (words, vec![Call::Answers(program, query, ROOM)]))
    .collect()
}
