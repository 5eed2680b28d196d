//! The gate and the plain rules over the longest and deepest records.

use super::{Bytes, Call, Case};
use layout::{
    atom, by, conjunction, constant, disjunction, equality, event, half, nested, or, program, record, unifier, variable, IN_CONJUNCTION, TRUE,
};

fn chain(n: usize) -> Bytes {
    nested(n, &constant(0))
}

fn joins(n: usize) -> Bytes {
    (0..n).fold(TRUE.to_vec(), |goal, i| if i % 2 == 0 { conjunction(&goal, &TRUE) } else { disjunction(&goal, &TRUE) })
}

/// Each port, forward and back, the greatest variable, and the counter.
fn ways(goal: &Bytes, ancestors: &[Bytes], bets: &[Bytes]) -> Vec<Call> {
    let none = program(&[]);
    (1..=4)
        .map(|port| event(port, goal, ancestors, bets))
        .flat_map(|event| {
            let steps = [Call::Forward(none.clone(), event.clone()), Call::Back(none.clone(), event.clone())];
            steps.into_iter().chain([Call::Greatest(event.clone()), Call::Count(event)])
        })
        .collect()
}

pub fn cases() -> Vec<Case> {
    let (deep_term, deep_goal) = (chain(4_080), joins(5_400));
    let pairs: Vec<(u16, Bytes)> = (0..6_548).map(|i| (i, variable(65_535))).collect();
    let unifiers: Vec<Bytes> = (0..4_090).map(|i| unifier(&[(i, variable(i + 1))])).collect();
    let mut found = vec![
        ("a query of 8,180 terms within each other", vec![Call::First(record(&equality(&chain(8_180), &variable(0))))]),
        ("a query of 16,380 goals within each other", vec![Call::First(record(&joins(16_380)))]),
    ];
    let events = [
        ("an equality of two terms of 16 KB", equality(&deep_term, &deep_term), vec![], vec![]),
        (
            "a goal of 5,400 joins, itself among the ancestors and bets",
            deep_goal.clone(),
            vec![half(IN_CONJUNCTION, 1, &deep_goal, &TRUE)],
            vec![by(&deep_goal)],
        ),
        ("an atom of 8,180 terms within each other", atom(1, &[chain(8_180)]), vec![], vec![]),
        ("16,000 bets OR", TRUE.to_vec(), vec![], vec![or(1); 16_000]),
        ("8,000 ancestors", TRUE.to_vec(), vec![half(IN_CONJUNCTION, 1, &TRUE, &TRUE); 8_000], vec![]),
        ("4,090 unifiers", TRUE.to_vec(), vec![], unifiers),
        ("a unifier of 6,548 pairs", equality(&variable(0), &variable(1)), vec![], vec![unifier(&pairs)]),
    ];
    found.extend(events.into_iter().map(|(words, goal, ancestors, bets)| (words, ways(&goal, &ancestors, &bets))));
    found
}
