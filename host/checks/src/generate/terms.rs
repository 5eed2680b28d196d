//! Terms, and the names that they use.

use super::Dice;

pub enum Term {
    Variable(u16),
    Symbol(u16, Vec<Term>),
}

/// Variables from `base` on, and how many symbols there are.
#[derive(Clone, Copy)]
pub struct Names {
    pub base: u16,
    pub variables: u16,
    pub symbols: u16,
}

impl Names {
    /// The first few variables.
    pub fn low(variables: u16) -> Names {
        Names { base: 0, variables, symbols: 2 }
    }

    /// Mostly a few low variables, sometimes none, the highest ones, or any.
    pub fn any(dice: &mut Dice) -> Names {
        match dice.below(16) {
            0 => Names::low(0),
            1 => Names { base: 65_530, variables: 6, symbols: 2 },
            2 => Names { base: 0, variables: 65_535, symbols: 65_535 },
            3 => Names { base: 65_270 + dice.below(6) as u16, variables: 3, symbols: 1 },
            _ => Names::low(dice.between(1, 6) as u16),
        }
    }

    pub fn variable(self, dice: &mut Dice) -> u16 {
        self.base + dice.below(usize::from(self.variables)) as u16
    }

    fn symbol(self, dice: &mut Dice) -> u16 {
        dice.below(usize::from(self.symbols)) as u16
    }
}

pub fn term(dice: &mut Dice, names: Names, depth: usize) -> Term {
    match dice.below(if depth == 0 { 4 } else { 8 }) {
        0..=2 if names.variables > 0 => Term::Variable(names.variable(dice)),
        0..=3 => Term::Symbol(names.symbol(dice), Vec::new()),
        _ => {
            let arity = if dice.one_in(40) { dice.between(3, 16) } else { dice.between(1, 2) };
            Term::Symbol(names.symbol(dice), terms(dice, names, depth - 1, arity))
        }
    }
}

pub fn terms(dice: &mut Dice, names: Names, depth: usize, count: usize) -> Vec<Term> {
    (0..count).map(|_| term(dice, names, depth)).collect()
}

/// A term's bytes at once.
pub fn term_bytes(dice: &mut Dice, names: Names, depth: usize) -> Vec<u8> {
    term(dice, names, depth).bytes()
}

pub fn all_bytes(terms: &[Term]) -> Vec<Vec<u8>> {
    terms.iter().map(Term::bytes).collect()
}

impl Term {
    pub fn bytes(&self) -> Vec<u8> {
        match self {
            Term::Variable(number) => layout::variable(*number),
            Term::Symbol(symbol, arguments) => layout::symbol(*symbol, &all_bytes(arguments)),
        }
    }

    /// Puts each variable to `meet`, which may change it.
    pub fn each_variable(&mut self, meet: &mut impl FnMut(&mut u16)) {
        match self {
            Term::Variable(number) => meet(number),
            Term::Symbol(_, arguments) => arguments.iter_mut().for_each(|argument| argument.each_variable(meet)),
        }
    }
}
