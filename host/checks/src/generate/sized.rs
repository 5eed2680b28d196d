//! Terms, goals and bets of a length that is asked for.

use layout::{atom, by, equality, nested, symbol, variable, CONJUNCTION, TRUE, TRUTH};

/// A term of that many bytes, 4 or more but not 5, in symbols within each other; the last ones hold variables 1 to 3.
pub fn term_of(length: usize) -> Vec<u8> {
    let inside = match length % 4 {
        0 => symbol(2, &[]),
        1 => symbol(6, &[variable(1), variable(2), variable(3)]),
        2 => symbol(6, &[variable(1), variable(2)]),
        _ => symbol(6, &[variable(1)]),
    };
    nested(length.saturating_sub(inside.len()) / 4, &inside)
}

/// A goal of that many bytes, 1 or more but not 2: true joined with true to the right, an atom of four bytes at the end where the length is even.
pub fn goal_of(length: usize) -> Vec<u8> {
    let end = if length % 2 == 1 { TRUE.to_vec() } else { atom(9, &[]) };
    [[CONJUNCTION, TRUTH].repeat(length.saturating_sub(end.len()) / 2), end].concat()
}

/// A bet of that many bytes, 9 or more but not 10: BY of an equality with a long term.
pub fn bet_of(length: usize) -> Vec<u8> {
    by(&equality(&variable(0), &term_of(length - 5)))
}
