//! Families of equalities: doubling rows, chains, random systems of equations.

use super::terms::{term_bytes, Names};
use super::Dice;
use layout::{equality, symbol, variable};

/// The terms as the arguments of one term, sixteen to a level.
fn row(terms: &[Vec<u8>]) -> Vec<u8> {
    let mut rest: Option<Vec<u8>> = None;
    for part in terms.chunks(15).rev() {
        rest = Some(symbol(9, &[part, rest.as_slice()].concat()));
    }
    rest.unwrap_or_else(|| symbol(9, &[]))
}

/// The equality of two rows that stands for all the equations.
pub fn system(equations: &[(Vec<u8>, Vec<u8>)]) -> Vec<u8> {
    let (left, right): (Vec<Vec<u8>>, Vec<Vec<u8>>) = equations.iter().cloned().unzip();
    equality(&row(&left), &row(&right))
}

/// X1 = g(X0, X0), .., Xn = g(Xn-1, Xn-1): what Xn equals has 2^n leaves. With `exchanged` every other equation has its sides exchanged.
pub fn doubling(n: u16, exchanged: bool) -> Vec<(Vec<u8>, Vec<u8>)> {
    let g = |i: u16| symbol(8, &[variable(i), variable(i)]);
    (1..=n).map(|i| if exchanged && i % 2 == 0 { (g(i - 1), variable(i)) } else { (variable(i), g(i - 1)) }).collect()
}

/// X0 = X1, .., Xn-1 = Xn.
pub fn chain(n: u16) -> Vec<(Vec<u8>, Vec<u8>)> {
    (1..=n).map(|i| (variable(i - 1), variable(i))).collect()
}

/// X0 = f(X1), .., Xn-1 = f(Xn).
pub fn ladder(n: u16) -> Vec<(Vec<u8>, Vec<u8>)> {
    (1..=n).map(|i| (variable(i - 1), symbol(7, &[variable(i)]))).collect()
}

/// Some equations of each kind, at any place a clash or a cycle, sides exchanged, in any order.
pub fn any(dice: &mut Dice, most: usize) -> Vec<(Vec<u8>, Vec<u8>)> {
    let n = dice.between(1, most) as u16;
    let mut equations = match dice.below(6) {
        0 => doubling(n, true),
        1 => doubling(n, false),
        2 => chain(n),
        3 => ladder(n),
        4 => [chain(n / 2), doubling(n / 2, dice.one_in(2))].concat(),
        _ => {
            let names = Names { base: 0, variables: n + 3, symbols: 2 };
            (0..n).map(|_| (variable(names.variable(dice)), term_bytes(dice, names, 2))).collect()
        }
    };
    match dice.below(6) {
        0 => equations.push((variable(0), variable(n))),
        1 => equations.push((variable(dice.below(usize::from(n)) as u16), symbol(3, &[]))),
        2 => equations.extend([(variable(n), symbol(3, &[])), (variable(n), symbol(4, &[]))]),
        3 => equations.push((variable(n), symbol(7, &[variable(dice.below(usize::from(n) + 1) as u16)]))),
        _ => {}
    }
    if dice.one_in(2) {
        equations.iter_mut().filter(|_| dice.one_in(2)).for_each(|(left, right)| std::mem::swap(left, right));
    }
    if dice.one_in(2) {
        dice.shuffle(&mut equations);
    }
    equations
}
