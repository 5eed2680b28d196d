//! Breaks: the events of a predicate at which `run` and `reverse` stop.

use fourport::{Event, GoalKind, Port};

/// The events of one predicate, at some of its ports.
#[derive(Clone, Debug, PartialEq, Eq)]
pub struct Break {
    pub predicate: u16,
    pub arity: u8,
    /// the predicate as it is shown: `light/2`
    pub name: String,
    pub ports: Vec<Port>,
}

/// The breaks, in the order in which they were first set.
#[derive(Clone, Debug, Default)]
pub struct Breaks(Vec<Break>);

impl Break {
    /// The break as a line: `light/2 exit fail`.
    pub fn line(&self) -> String {
        let ports: Vec<String> = self.ports.iter().map(Port::to_string).collect();
        format!("{} {}", self.name, ports.join(" "))
    }

    fn is_met(&self, event: &Event) -> bool {
        let is_of = |kind| matches!(kind, GoalKind::Atom(predicate, arguments) if predicate == self.predicate && arguments.arity() == self.arity);
        self.ports.contains(&event.port()) && is_of(event.goal().kind())
    }
}

impl Breaks {
    /// A break more, in place of one of the same predicate.
    pub fn set(&mut self, new: Break) {
        match self.0.iter_mut().find(|known| (known.predicate, known.arity) == (new.predicate, new.arity)) {
            Some(known) => *known = new,
            None => self.0.push(new),
        }
    }

    /// Without the break of a predicate; whether there was one.
    pub fn delete(&mut self, predicate: (u16, u8)) -> bool {
        let before = self.0.len();
        self.0.retain(|known| (known.predicate, known.arity) != predicate);
        self.0.len() < before
    }

    pub fn clear(&mut self) {
        self.0.clear();
    }

    pub fn is_empty(&self) -> bool {
        self.0.is_empty()
    }

    pub fn lines(&self) -> Vec<String> {
        self.0.iter().map(Break::line).collect()
    }

    /// The first break that an event meets.
    pub fn met(&self, event: &Event) -> Option<&Break> {
        self.0.iter().find(|known| known.is_met(event))
    }
}
