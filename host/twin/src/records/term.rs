//! Terms. A term knows the length of its bytes and the number above its greatest variable.

use std::mem;
use std::rc::Rc;

pub type TermRef = Rc<Term>;

#[derive(Debug)]
pub enum Shape {
    Variable(u16),
    Symbol(u16, Vec<TermRef>),
}

#[derive(Debug)]
pub struct Term {
    shape: Shape,
    /// saturating: shared parts can make a term far longer than any record
    length: u32,
    above: u32,
}

impl Term {
    pub fn variable(number: u16) -> TermRef {
        Rc::new(Term { shape: Shape::Variable(number), length: 3, above: u32::from(number) + 1 })
    }

    pub fn symbol(symbol: u16, arguments: Vec<TermRef>) -> TermRef {
        let length = arguments.iter().fold(4u32, |sum, t| sum.saturating_add(t.length));
        let above = arguments.iter().map(|t| t.above).max().unwrap_or(0);
        Rc::new(Term { shape: Shape::Symbol(symbol, arguments), length, above })
    }

    pub fn shape(&self) -> &Shape {
        &self.shape
    }

    pub fn arguments(&self) -> &[TermRef] {
        match &self.shape {
            Shape::Variable(_) => &[],
            Shape::Symbol(_, arguments) => arguments,
        }
    }

    /// The number of the term's bytes.
    pub fn length(&self) -> u32 {
        self.length
    }

    /// One more than the greatest variable number, or 0 if there is none.
    pub fn above(&self) -> u32 {
        self.above
    }

    pub fn is_ground(&self) -> bool {
        self.above == 0
    }

    /// Puts the variable's number to `meet` at each place where one stands.
    pub fn each_variable(&self, mut meet: impl FnMut(u16)) {
        let mut ahead = vec![self];
        while let Some(term) = ahead.pop() {
            match &term.shape {
                Shape::Variable(number) => meet(*number),
                Shape::Symbol(_, arguments) => ahead.extend(arguments.iter().filter(|t| !t.is_ground()).map(Rc::as_ref)),
            }
        }
    }
}

/// Are the two the same term? Lengths are compared first, so that the work is bounded by the shorter one's bytes.
pub fn same_term(left: &TermRef, right: &TermRef) -> bool {
    let mut ahead = vec![(left, right)];
    while let Some((a, b)) = ahead.pop() {
        if Rc::ptr_eq(a, b) {
            continue;
        }
        if a.length != b.length || a.above != b.above {
            return false;
        }
        match (&a.shape, &b.shape) {
            (Shape::Variable(v), Shape::Variable(w)) if v == w => {}
            (Shape::Symbol(s, x), Shape::Symbol(t, y)) if s == t && x.len() == y.len() => ahead.extend(x.iter().zip(y)),
            _ => return false,
        }
    }
    true
}

impl Drop for Term {
    /// Parts of parts are let go in a loop: a chain of 8,190 terms needs no native stack.
    fn drop(&mut self) {
        let Shape::Symbol(_, arguments) = &mut self.shape else { return };
        if arguments.iter().all(|t| t.arguments().is_empty()) {
            return;
        }
        let mut leaving = mem::take(arguments);
        while let Some(mut part) = leaving.pop() {
            if let Some(Term { shape: Shape::Symbol(_, arguments), .. }) = Rc::get_mut(&mut part) {
                leaving.append(arguments);
            }
        }
    }
}
