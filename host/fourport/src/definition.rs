//! The definitions of a program.

use crate::{raw, Event, GoalView, Naming, Program, Shown};
use layout::{
    atom, byte_at, constant, definition_end, event, number_at, port, ARITY_AT, BODY_AT, DEFINITION_GOAL_AT, LIST_AT, LOCALS_AT, PREDICATE_AT,
};
use std::ops::Range;

/// The definition of a predicate: a part of the program that it was found in.
#[derive(Clone, Copy, Debug, PartialEq, Eq, Hash)]
pub struct Definition<'p> {
    bytes: &'p [u8],
    at: usize,
}

impl Program {
    /// The definition that the event's goal names; nothing where the goal is no atom or has no definition.
    ///
    /// ```
    /// # use fourport::{Event, Program, Query};
    /// let program = Program::from_bytes([0, 8, 1, 0, 1, 0, 5, 0, 0, 0x10])?;
    /// let event = Event::first(&Query::from_bytes([0, 5, 1, 0x15, 0, 5, 0])?)?;
    /// let definition = program.definition(&event).unwrap();
    /// assert_eq!((definition.predicate(), definition.arity(), definition.locals()), (5, 0, 0));
    /// assert_eq!(definition.goal().as_bytes(), [0x10]);
    /// assert_eq!(definition.place(), 5..10);
    /// # Ok::<(), fourport::Refusal>(())
    /// ```
    pub fn definition(&self, event: &Event) -> Option<Definition<'_>> {
        self.found(event.as_bytes())
    }

    /// The definition of a predicate; nothing where there is none. It is found by the lookup of a call.
    ///
    /// ```
    /// # use fourport::Clauses;
    /// let (clauses, names) = Clauses::from_text("light(bay1, red). light(Bay, green) :- free(Bay).")?;
    /// let program = clauses.canonical()?;
    /// let light = program.defined(names.number("light").unwrap(), 2).unwrap();
    /// assert_eq!(light.shown(&names).to_string(), "light(V0, V1) :- V0 = bay1, V1 = red, true ; V0 = V2, V1 = green, free(V2).");
    /// assert_eq!(program.defined(names.number("free").unwrap(), 1), None);
    /// # Ok::<(), Box<dyn std::error::Error>>(())
    /// ```
    pub fn defined(&self, predicate: u16, arity: u8) -> Option<Definition<'_>> {
        let arguments = vec![constant(0); usize::from(arity)];
        self.found(&event(port::CALL, &atom(predicate, &arguments), &[], &[]))
    }

    fn found(&self, event: &[u8]) -> Option<Definition<'_>> {
        let mut at = 0;
        let length = raw::lookup(self.as_bytes(), event, &mut at);
        let bytes = self.as_bytes().get(at..)?.get(..length)?;
        (!bytes.is_empty()).then_some(Definition { bytes, at })
    }

    /// The definitions, by rising predicate number and arity.
    ///
    /// ```
    /// # use fourport::Clauses;
    /// let (clauses, names) = Clauses::from_text("taken(bay1). light(Bay, red) :- taken(Bay). taken(bay2).")?;
    /// let program = clauses.canonical()?;
    /// let defined: Vec<_> = program.definitions().map(|definition| (names.name(definition.predicate()), definition.locals())).collect();
    /// assert_eq!(defined, [(Some("taken"), 0), (Some("light"), 1)]);
    /// # Ok::<(), Box<dyn std::error::Error>>(())
    /// ```
    pub fn definitions(&self) -> impl Iterator<Item = Definition<'_>> {
        let (record, mut end) = (self.as_bytes(), LIST_AT);
        (0..number_at(record, BODY_AT)).map(move |_| {
            let at = end;
            end = definition_end(record, at);
            Definition { bytes: record.get(at..end).unwrap_or_default(), at }
        })
    }
}

impl<'p> Definition<'p> {
    /// The definition's bytes: predicate, arity, locals, goal.
    pub fn as_bytes(self) -> &'p [u8] {
        self.bytes
    }

    /// Where these bytes stand in the program's record.
    pub fn place(self) -> Range<usize> {
        self.at..self.at + self.bytes.len()
    }

    /// The predicate's number.
    pub fn predicate(self) -> u16 {
        number_at(self.bytes, PREDICATE_AT)
    }

    /// The number of the head's variables.
    pub fn arity(self) -> u8 {
        byte_at(self.bytes, ARITY_AT)
    }

    /// The number of locals.
    pub fn locals(self) -> u8 {
        byte_at(self.bytes, LOCALS_AT)
    }

    /// The goal: the branches of the clauses, one for each.
    pub fn goal(self) -> GoalView<'p> {
        GoalView::split(self.bytes.get(DEFINITION_GOAL_AT..).unwrap_or_default()).0
    }

    /// With its names, as text: see [`Shown`].
    pub fn shown<'n>(self, naming: &'n dyn Naming) -> Shown<'n>
    where
        'p: 'n,
    {
        Shown::new(self, naming)
    }
}
