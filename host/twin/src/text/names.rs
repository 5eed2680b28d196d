//! The numbers of names, and of a clause's variables: by first appearance.

use std::collections::HashMap;

/// The names of a text, for symbols and predicates alike.
#[derive(Default)]
pub struct Names<'t> {
    numbers: HashMap<&'t [u8], usize>,
    in_order: Vec<&'t [u8]>,
}

impl<'t> Names<'t> {
    /// The name's number; a text with more names than two bytes number is too long, so that what they get then is never written.
    pub fn number(&mut self, name: &'t [u8]) -> u16 {
        let next = self.in_order.len();
        let number = *self.numbers.entry(name).or_insert(next);
        if number == next {
            self.in_order.push(name);
        }
        number as u16
    }

    /// Each name behind its length of two bytes, as far as that tells its length: one of 65,536 bytes stands in a text that is too long.
    pub fn list(&self) -> Vec<u8> {
        self.in_order.iter().flat_map(|name| (name.len() as u16).to_be_bytes().into_iter().chain(name.iter().copied())).collect()
    }
}

/// The variables of one clause.
#[derive(Default)]
pub struct Variables<'t> {
    numbers: HashMap<&'t [u8], usize>,
    count: usize,
}

impl<'t> Variables<'t> {
    /// The variable's number; a lone underscore is a new one each time.
    pub fn number(&mut self, variable: &'t [u8]) -> u16 {
        let next = self.count;
        let number = if variable == b"_" { next } else { *self.numbers.entry(variable).or_insert(next) };
        self.count += usize::from(number == next);
        number as u16
    }

    pub fn count(&self) -> usize {
        self.count
    }
}
