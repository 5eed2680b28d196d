//! Bodies of atoms: many occurrences of a head variable, long arguments, and definitions far behind in the program.

use super::equalities::tree;
use super::{Bytes, Call, Case};
use layout::{atom, conjunction, constant, definition, disjunction, equality, event, nested, program, symbol, variable, TRUE};

/// An atom of predicate 1 called; failed and read back; and its body called under it and read back.
fn ways(program: &Bytes, atom: &Bytes) -> Vec<Call> {
    vec![
        Call::Forward(program.clone(), event(1, atom, &[], &[])),
        Call::Back(program.clone(), event(3, atom, &[], &[])),
        Call::Back(program.clone(), event(1, &TRUE, std::slice::from_ref(atom), &[])),
        Call::Lookup(program.clone(), event(1, atom, &[], &[])),
    ]
}

/// A list of n elements.
fn list(n: usize, element: &Bytes) -> Bytes {
    (0..n).fold(constant(0), |rest, _| symbol(1, &[element.clone(), rest]))
}

/// A definition with 10,000 occurrences of its last head variable.
fn occurrences(arity: u8) -> Bytes {
    let last = u16::from(arity) - 1;
    program(&[definition(1, arity, 0, &equality(&variable(last), &tree(vec![variable(last); 9_999])))])
}

/// An atom whose first argument is long.
fn arguments(arity: usize, long: Bytes) -> Bytes {
    atom(1, &[vec![long], vec![variable(0); arity - 1]].concat())
}

/// As many definitions as fit, the atom's the last.
fn many_definitions(n: u16) -> Bytes {
    let listed: Vec<Bytes> = (0..n).map(|i| definition(i + 2, 0, 0, &TRUE)).collect();
    program(&listed)
}

pub fn cases() -> Vec<Case> {
    let long = nested(8_100, &constant(0));
    let deep = (0..5_400).fold(TRUE.to_vec(), |goal, i| if i % 2 == 0 { conjunction(&TRUE, &goal) } else { disjunction(&TRUE, &goal) });
    [
        ("10,000 occurrences of the last of 2 head variables, a list of 30 KB before it", occurrences(2), arguments(2, list(3_700, &constant(0)))),
        ("10,000 occurrences of the last of 16 head variables, a list of 30 KB before it", occurrences(16), arguments(16, list(3_700, &constant(0)))),
        ("10,000 occurrences of the last of 2 head variables, a nested term of 32 KB before it", occurrences(2), arguments(2, long)),
        ("10,000 occurrences of the only head variable, its argument a constant", occurrences(1), atom(1, &[constant(0)])),
        ("6,552 definitions, none the atom's", many_definitions(6_552), atom(1, &[])),
        ("6,552 definitions, the last one the atom's", many_definitions(6_552), atom(6_553, &[])),
        ("a body of 5,400 joins", program(&[definition(1, 0, 0, &deep)]), atom(1, &[])),
    ]
    .into_iter()
    .map(|(words, program, atom)| (words, ways(&program, &atom)))
    .collect()
}
