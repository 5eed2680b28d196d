//! Every answer of a query (SPECIFICATION 8.12): walks counted by hand, each number, and both sides of each limit.

use layout::*;
use twin::answers::{answers, AnswersReply};
use twin::gate::RECORD_LIMIT as ROOM;

const P: u16 = 5;

fn a() -> Vec<u8> {
    constant(2)
}

fn b() -> Vec<u8> {
    constant(3)
}

/// An answer's bytes.
fn answer(values: &[(u16, Vec<u8>)], used: &[Vec<u8>]) -> Vec<u8> {
    // a unifier's count and pairs stand behind its kind byte
    [&unifier(values)[1..], &listed(used)].concat()
}

fn gives(number: u8, steps: u32, found: &[Vec<u8>]) -> AnswersReply {
    AnswersReply { number, steps, bytes: found.concat() }
}

fn asked(program: &[u8], goal: &[u8], steps: u32) -> AnswersReply {
    answers(program, &record(goal), steps, ROOM)
}

/// p(V) :- V=a ; V=b. The exits of p(V) are events 6 and 16 of 'p(V), fail', its last fail is event 25.
#[test]
fn two_answers() {
    let body = disjunction(&equality(&variable(0), &a()), &equality(&variable(0), &b()));
    let program = program(&[definition(P, 1, 0, &body)]);
    let found = [(a(), 1), (b(), 2)].map(|(value, half)| answer(&[(0, value)], &[or(half), by(&body)]));
    for (steps, number, count) in [(0, 0, 0), (5, 0, 0), (6, 0, 1), (7, 0, 1), (15, 0, 1), (16, 0, 2), (25, 0, 2), (26, 6, 2), (u32::MAX, 6, 2)] {
        assert_eq!(asked(&program, &atom(P, &[variable(0)]), steps), gives(number, steps.min(25), &found[..count]), "{steps} steps");
    }
}

/// p :- true ; p. Each answer after the first has an exit of p below it that is none.
#[test]
fn the_query_again_deeper_down() {
    let body = disjunction(&TRUE, &atom(P, &[]));
    let program = program(&[definition(P, 0, 0, &body)]);
    let first = [or(1), by(&body)];
    let found = [answer(&[], &first), answer(&[], &[&first[..], &[or(2), by(&body)]].concat())];
    // exits of p: event 6; then 18, which is below, and 20
    for (steps, count) in [(5, 0), (6, 1), (18, 1), (19, 1), (20, 2)] {
        assert_eq!(asked(&program, &atom(P, &[]), steps), gives(0, steps, &found[..count]), "{steps} steps");
    }
    let stopped = asked(&program, &atom(P, &[]), u32::MAX);
    assert!(stopped.number == 10 && stopped.bytes.starts_with(&found.concat()));
}

/// No variable; variables that stay unbound, with one value for two of them; two equal answers; none.
#[test]
fn plain_queries() {
    let none = program(&[]);
    assert_eq!(asked(&none, &TRUE, 100), gives(6, 7, &[vec![0, 0, 0, 0]]));
    let equal = equality(&variable(9), &variable(2));
    assert_eq!(asked(&none, &equal, 100), gives(6, 7, &[answer(&[(2, variable(2)), (9, variable(2))], &[])]));
    let unused = conjunction(&equality(&variable(65_535), &a()), &equality(&variable(0), &variable(0)));
    assert_eq!(asked(&none, &unused, 100).bytes, answer(&[(0, variable(0)), (65_535, a())], &[]));
    let twice = disjunction(&equal, &equal);
    let found = [1, 2].map(|half| answer(&[(2, variable(2)), (9, variable(2))], &[or(half)]));
    assert_eq!((asked(&none, &twice, 100).number, asked(&none, &twice, 100).bytes), (6, found.concat()));
    assert_eq!(asked(&none, &FAIL, 100), gives(6, 3, &[]));
    assert_eq!(asked(&none, &atom(P, &[variable(0)]), 3), gives(0, 3, &[]));
}

/// Unifiers are left out, and bodies have the numbers of their walk: the local of p(V4) is V5.
#[test]
fn bodies_as_they_stand() {
    let program = program(&[definition(P, 1, 1, &conjunction(&equality(&variable(1), &a()), &equality(&variable(0), &variable(1))))]);
    let body = conjunction(&equality(&variable(5), &a()), &equality(&variable(4), &variable(5)));
    assert_eq!(asked(&program, &atom(P, &[variable(4)]), 100).bytes, answer(&[(4, a())], &[by(&body)]));
}

/// V1 = f(V0, V0), V2 = f(V1, V1), ..: V10 has 7,164 bytes.
fn doubling(levels: u16) -> Vec<u8> {
    let level = |v: u16| equality(&variable(v), &symbol(6, &[variable(v - 1), variable(v - 1)]));
    (2..=levels).fold(level(1), |goal, v| conjunction(&level(v), &goal))
}

/// A value of 8,192 bytes passes and one of 8,193 stops with 8; the answer before it is kept, the step to its exit counted.
#[test]
fn values_at_the_limit() {
    let none = program(&[]);
    let leaf = |levels, variables: &[u16]| nested(levels, &symbol(6, &variables.iter().map(|&v| variable(v)).collect::<Vec<_>>()));
    // 4 + 2 * (4 + 2 * 2,045), and 4 + 2 * (4 + 2 * 2,043 + 3) + 3
    for (leaf, more, number) in [(leaf(508, &[4, 5, 6]), &[][..], 6), (leaf(509, &[4]), &[variable(5)], 8)] {
        let row = |v| symbol(6, &[&[variable(v), variable(v)], more].concat());
        let goal = conjunction(&equality(&variable(1), &row(2)), &conjunction(&equality(&variable(2), &row(3)), &equality(&variable(3), &leaf)));
        let unbound: Vec<(u16, Vec<u8>)> = (1..if number == 6 { 7 } else { 6 }).map(|v| (v, variable(v))).collect();
        let first = answer(&unbound, &[or(1)]);
        let found = asked(&none, &disjunction(&TRUE, &goal), 100);
        assert_eq!((found.number, found.bytes.starts_with(&first), found.bytes.len() > first.len()), (number, true, number == 6));
        assert_eq!(asked(&none, &disjunction(&TRUE, &goal), if number == 8 { found.steps } else { 100 }), found);
    }
}

/// 8 is asked over all values before 10: the copies of V10 alone outgrow the output, and V30, behind them, is f(V10, V10).
#[test]
fn eight_before_ten() {
    let none = program(&[]);
    let copies = equality(&symbol(7, &(20..26).map(variable).collect::<Vec<_>>()), &symbol(7, &vec![variable(10); 6]));
    let long = conjunction(&copies, &doubling(10));
    assert_eq!(asked(&none, &long, 1_000).number, 10);
    let too_long = conjunction(&equality(&variable(30), &symbol(6, &[variable(10), variable(10)])), &long);
    let stopped = asked(&none, &too_long, 1_000);
    assert_eq!((stopped.number, stopped.bytes.len()), (8, 0));
    assert_eq!(asked(&none, &too_long, stopped.steps).number, 8);
    assert_eq!(asked(&none, &too_long, stopped.steps - 1).number, 0);
}

/// The last answer fits to the last byte, and not into one byte less; the others are kept, and the step to its exit is counted.
#[test]
fn room_to_the_last_byte() {
    let body = disjunction(&equality(&variable(0), &nested(1_000, &a())), &equality(&variable(0), &nested(1_000, &b())));
    let (program, p) = (program(&[definition(P, 1, 0, &body)]), |v| atom(P, &[variable(v)]));
    let query = record(&conjunction(&p(0), &p(1)));
    let whole = answers(&program, &query, 1_000, 1 << 20);
    assert_eq!((whole.number, whole.bytes.len() > ROOM), (6, true));
    assert_eq!(answers(&program, &query, 1_000, whole.bytes.len()), whole);
    let less = answers(&program, &query, 1_000, whole.bytes.len() - 1);
    assert!(less.number == 10 && less.bytes.len() < whole.bytes.len() && whole.bytes.starts_with(&less.bytes));
    assert_eq!(answers(&program, &query, less.steps, whole.bytes.len()), AnswersReply { number: 0, steps: less.steps, ..whole.clone() });
    assert_eq!(answers(&program, &query, less.steps - 1, whole.bytes.len()), AnswersReply { number: 0, steps: less.steps - 1, ..less });
}

/// The first event of 'Q, fail' has ten bytes more than Q's goal.
#[test]
fn first_events_at_the_limit() {
    let none = program(&[]);
    let long = |bytes: usize| equality(&variable(0), &nested((bytes - 8) / 4, &a()));
    for (bytes, number) in [(32_756, 0), (32_760, 10)] {
        assert_eq!(long(bytes).len(), bytes);
        assert_eq!(asked(&none, &long(bytes), 0), gives(number, 0, &[]));
    }
    for (bytes, number) in [(32_758, 0), (32_759, 10)] {
        let ends = [atom(P, &[]), TRUE.to_vec()];
        let goal = [[CONJUNCTION, TRUTH].repeat((bytes - 1) / 2 - usize::from(bytes % 2 == 0)), ends[bytes % 2].clone()].concat();
        assert_eq!(goal.len(), bytes);
        assert_eq!(asked(&none, &goal, 0), gives(number, 0, &[]));
    }
}

/// Each question of the records and the output, and their order.
#[test]
fn refusals() {
    let (good, query) = (program(&[]), record(&TRUE));
    let programs = [vec![], vec![0, 3, 2, 0, 0], vec![0, 3, 1, 0, 1], program(&[definition(P, 0, 0, &atom(P, &[variable(0)]))])];
    let queries = [vec![0], vec![0, 2, 2, TRUTH], vec![0, 2, 1, 0x16]];
    for (number, refused) in programs.iter().enumerate() {
        assert_eq!(answers(refused, &[], 9, 0), gives(number as u8 + 1, 0, &[]));
    }
    for (number, refused) in queries.iter().enumerate() {
        assert_eq!(answers(&good, refused, 9, 0), gives(number as u8 + 11, 0, &[]));
    }
    assert_eq!(answers(&good, &query, 9, ROOM - 1), gives(5, 0, &[]));
    assert_eq!(answers(&good, &record(&[&[CONJUNCTION, TRUTH].repeat(16_380)[..], &TRUE].concat()), 9, ROOM - 1), gives(5, 0, &[]));
    let one_local = program(&[definition(P, 1, 1, &equality(&variable(0), &variable(1)))]);
    assert_eq!(asked(&one_local, &atom(P, &[variable(65_535)]), 9), gives(9, 1, &[]));
}
