//! The bench sheet (SPECIFICATION 11), line by line.

use layout::*;
use twin::gate::RECORD_LIMIT as ROOM;
use twin::rules::Direction::Forward;
use twin::services::{back, canonical, first, forward, greatest, run, Reply};
use twin::walk::walk;

fn hexa(digits: &str) -> Vec<u8> {
    digits.split_whitespace().map(|byte| u8::from_str_radix(byte, 16).expect("hexadecimal")).collect()
}

fn gives(bytes: Vec<u8>) -> Reply {
    Reply { number: 0, bytes }
}

fn refused(number: u8) -> Reply {
    Reply { number, bytes: Vec::new() }
}

fn none() -> Vec<u8> {
    program(&[])
}

/// The step forward from the call of an equality with empty stacks.
fn equated(left: &[u8], right: &[u8]) -> Reply {
    forward(&none(), &event(1, &equality(left, right), &[], &[]), ROOM)
}

fn a() -> Vec<u8> {
    symbol(2, &[])
}

fn b() -> Vec<u8> {
    symbol(3, &[])
}

#[test]
fn first_event_and_the_next() {
    let query = hexa("00 09 01 12 01 00 00 02 00 02 00");
    let called = hexa("00 0E 01 01 12 01 00 00 02 00 02 00 00 00 00 00");
    assert_eq!(first(&query, ROOM), gives(called.clone()));
    let exited = hexa("00 17 01 02 12 01 00 00 02 00 02 00 00 00 00 01 20 00 01 00 00 02 00 02 00");
    assert_eq!(forward(&none(), &called, ROOM), gives(exited.clone()));
    assert_eq!(forward(&none(), &exited, ROOM), refused(6));
    assert_eq!(back(&none(), &exited, ROOM), gives(called.clone()));
    assert_eq!(back(&none(), &called, ROOM), refused(6));
}

#[test]
fn walk_prints() {
    let input = hexa("00 03 01 00 00 00 09 01 12 01 00 00 02 00 02 00");
    assert_eq!(walk(&input), "0 call 0 0\n1 exit 0 1\nstop 6\n");
    assert_eq!(walk(&input[..input.len() - 1]), "stop 11\n");
    assert_eq!(walk(&input[..4]), "stop 1\n");
}

#[test]
fn a_walk_of_nineteen_steps() {
    let halves = (equality(&variable(0), &a()), equality(&variable(0), &b()));
    let body = disjunction(&halves.0, &halves.1);
    let (p, last) = (atom(5, &[variable(0)]), equality(&variable(0), &b()));
    let query = conjunction(&p, &last);
    let program = program(&[definition(5, 1, 0, &body)]);
    let start = first(&record(&query), ROOM).bytes;
    let at = |steps| {
        let run = run(&program, &start, steps, Forward, ROOM);
        (run.number, run.steps, run.bytes)
    };
    let in_query = |tag| half(IN_CONJUNCTION, tag, &p, &last);
    let eighth = event(3, &last, &[in_query(2)], &[by(&body), or(1), unifier(&[(0, a())])]);
    assert_eq!(at(8), (0, 8, eighth));
    let twelfth = event(3, &halves.0, &[half(IN_DISJUNCTION, 1, &halves.0, &halves.1), p.clone(), in_query(1)], &[]);
    assert_eq!(at(12), (0, 12, twelfth));
    let nineteenth = event(2, &query, &[], &[unifier(&[]), by(&body), or(2), unifier(&[(0, b())])]);
    assert_eq!(at(19), (0, 19, nineteenth.clone()));
    assert_eq!(at(20), (6, 19, nineteenth));
}

#[test]
fn unifiers() {
    let looped = (variable(0), symbol(6, &[variable(0)]));
    assert_eq!(equated(&looped.0, &looped.1), gives(event(3, &equality(&looped.0, &looped.1), &[], &[])));
    let two = equality(&variable(3), &variable(7));
    assert_eq!(equated(&variable(3), &variable(7)), gives(event(2, &two, &[], &[unifier(&[(7, variable(3))])])));
    let (left, right) = (symbol(6, &[variable(0), variable(0)]), symbol(6, &[variable(1), a()]));
    assert_eq!(equated(&left, &right), gives(event(2, &equality(&left, &right), &[], &[unifier(&[(0, a()), (1, a())])])));
}

#[test]
fn undefined_atom_and_redo_true() {
    let atom = atom(5, &[a()]);
    assert_eq!(forward(&none(), &event(1, &atom, &[], &[]), ROOM), gives(event(3, &atom, &[], &[])));
    let redo = event(4, &TRUE, &[], &[]);
    assert_eq!(forward(&none(), &redo, ROOM), gives(event(3, &TRUE, &[], &[])));
    assert_eq!(back(&none(), &redo, ROOM), refused(7));
}

#[test]
fn canonical_form() {
    let fact = clause(8, 0, &[a()], &TRUE);
    let rule = clause(8, 1, &[symbol(6, &[variable(0)])], &atom(8, &[variable(0)]));
    let goal = disjunction(
        &conjunction(&equality(&variable(0), &a()), &TRUE),
        &conjunction(&equality(&variable(0), &symbol(6, &[variable(1)])), &atom(8, &[variable(1)])),
    );
    assert_eq!(canonical(&clauses(&[fact, rule]), ROOM), gives(program(&[definition(8, 1, 1, &goal)])));
    assert_eq!(canonical(&program(&[]), ROOM), gives(program(&[])));
}

/// SPECIFICATION 4: the goal holds variable 4, a bet 9 or 65,535.
#[test]
fn locals_above_the_bets() {
    let one_local = program(&[definition(5, 1, 1, &equality(&variable(0), &variable(1)))]);
    let goal = atom(5, &[variable(4)]);
    for bet in [unifier(&[(9, a())]), unifier(&[(1, symbol(6, &[variable(9)]))]), by(&atom(8, &[variable(9)]))] {
        let bets = [or(1), bet];
        let at = |port| event(port, &goal, &[], &bets);
        let in_body = |port, local| event(port, &equality(&variable(4), &variable(local)), std::slice::from_ref(&goal), &bets);
        assert_eq!(forward(&one_local, &at(1), ROOM), gives(in_body(1, 10)));
        assert_eq!(back(&one_local, &in_body(1, 10), ROOM), gives(at(1)));
        assert_eq!(back(&one_local, &in_body(1, 5), ROOM), refused(7));
        assert_eq!(back(&one_local, &at(3), ROOM), gives(in_body(3, 10)));
    }
    let last = [unifier(&[(65_535, a())])];
    assert_eq!(forward(&one_local, &event(1, &goal, &[], &last), ROOM), refused(9));
    assert_eq!(back(&one_local, &event(1, &TRUE, std::slice::from_ref(&goal), &last), ROOM), refused(9));
    assert_eq!(back(&one_local, &event(3, &goal, &[], &last), ROOM), refused(9));
}

/// SPECIFICATION 11.20: the part of the greatest variable.
#[test]
fn the_first_part_that_holds_the_greatest() {
    assert_eq!(greatest(&hexa("00 16 01 01 15 00 07 01 01 00 04 00 00 00 01 20 00 01 00 09 02 00 01 00")), (0, 1, 9));
    let p = |v| atom(7, &[variable(v)]);
    assert_eq!(greatest(&event(1, &p(9), &[], &[unifier(&[(3, variable(9))])])), (0, 1, 9));
    assert_eq!(greatest(&event(1, &p(9), &[p(9)], &[by(&p(8))])), (0, 2, 9));
    assert_eq!(greatest(&event(1, &TRUE, &[atom(7, &[])], &[or(1)])), (0, 0, 0));
}

#[test]
fn limits() {
    let (passes, over) = (nested(2047, &a()), nested(2045, &symbol(6, &[variable(1), variable(2), variable(3)])));
    assert_eq!((passes.len(), over.len()), (8192, 8193));
    assert_eq!(equated(&variable(0), &passes).number, 0);
    assert_eq!(equated(&variable(0), &over).number, 8);
    let one_local = program(&[definition(5, 1, 1, &equality(&variable(0), &variable(1)))]);
    let call = |highest| forward(&one_local, &event(1, &atom(5, &[variable(highest)]), &[], &[]), ROOM);
    assert_eq!(call(65_534), gives(event(1, &equality(&variable(65_534), &variable(65_535)), &[atom(5, &[variable(65_534)])], &[])));
    assert_eq!(call(65_535), refused(9));
    let redo = event(4, &TRUE, &[], &[]);
    assert_eq!(forward(&none(), &redo, 32_767), refused(5));
    assert_eq!(first(&record(&TRUE), 32_767), refused(5));
}
