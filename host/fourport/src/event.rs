//! Event records, and what one asks of a single event.

use crate::record::{record_type, written};
use crate::{raw, Ancestors, Bet, Bets, GoalView, Query, Refusal, Term, RECORD_LIMIT};
use layout::{byte_at, number_at, port, EVENT_GOAL_AT, NO_DEFINITIONS, PORT_AT};
use std::fmt;

/// The four ports.
#[derive(Clone, Copy, Debug, PartialEq, Eq, Hash)]
pub enum Port {
    /// a goal is called
    Call,
    /// it exits with an answer
    Exit,
    /// it fails
    Fail,
    /// it is asked for another answer
    Redo,
}

/// The port's word, as the walk program prints it.
impl fmt::Display for Port {
    fn fmt(&self, f: &mut fmt::Formatter<'_>) -> fmt::Result {
        f.write_str(match self {
            Port::Call => "call",
            Port::Exit => "exit",
            Port::Fail => "fail",
            Port::Redo => "redo",
        })
    }
}

/// The parts of an event that hold variables, in the order in which they are searched for the greatest, with the desk's numbers for them.
#[derive(Clone, Copy, Debug, PartialEq, Eq, Hash)]
pub enum Part {
    /// the bet stack
    Bets = 1,
    /// the goal
    Goal = 2,
    /// the ancestor stack
    Ancestors = 3,
}

record_type! {
    /// An event record that passed questions 11 to 14. Whether a walk reaches it is not asked. Equal events have equal bytes, so `==` is equality as
    /// SPECIFICATION 9.3 has it: the same port, goal, ancestors and bets.
    ///
    /// ```
    /// use fourport::{Event, Port};
    /// let event = Event::from_bytes([0, 7, 1, 4, 0x10, 0, 0, 0, 0])?;
    /// assert_eq!(event.port(), Port::Redo);
    /// # Ok::<(), fourport::Refusal>(())
    /// ```
    Event,
    /// The record, if it passes the questions. They are put by a run of no steps.
    ///
    /// ```
    /// use fourport::{Event, Refusal, Which};
    /// assert_eq!(Event::from_bytes([0, 7, 1, 5, 0x10, 0, 0, 0, 0]), Err(Refusal::Grammar(Which::Event)));
    /// ```
    puts: |event, out| raw::run(&NO_DEFINITIONS, event, 0, 0, out, &mut 0)
}

impl Event {
    /// The first event of a query; refused by [`Refusal::Fit`] only.
    ///
    /// ```
    /// use fourport::{Event, Port, Query};
    /// let event = Event::first(&Query::from_bytes([0, 2, 1, 0x11])?)?;
    /// assert_eq!(event.port(), Port::Call);
    /// # Ok::<(), fourport::Refusal>(())
    /// ```
    pub fn first(query: &Query) -> Result<Event, Refusal> {
        written(|out| raw::first(query.as_bytes(), out)).map(Event)
    }

    /// The event's port: its byte is 1 to 4, since the event passed the questions.
    ///
    /// ```
    /// # use fourport::{Event, Port};
    /// let event = Event::from_bytes([0, 7, 1, 3, 0x10, 0, 0, 0, 0])?;
    /// assert_eq!(event.port(), Port::Fail);
    /// # Ok::<(), fourport::Refusal>(())
    /// ```
    pub fn port(&self) -> Port {
        match byte_at(&self.0, PORT_AT) {
            port::CALL => Port::Call,
            port::EXIT => Port::Exit,
            port::FAIL => Port::Fail,
            _ => Port::Redo,
        }
    }

    /// The event's goal, as it stands in the query or in the body of its definition: a variable that is bound is a variable here, and its value is in
    /// the bets. [`Event::goal_value`] has the values in it.
    ///
    /// ```
    /// # use fourport::Event;
    /// let event = Event::from_bytes([0, 7, 1, 3, 0x10, 0, 0, 0, 0])?;
    /// assert_eq!(event.goal().as_bytes(), [0x10]);
    /// # Ok::<(), fourport::Refusal>(())
    /// ```
    pub fn goal(&self) -> GoalView<'_> {
        self.split().0
    }

    /// The goals that the event's goal stands under, the nearest one first.
    ///
    /// ```
    /// # use fourport::{Ancestor, Event};
    /// // redo true, the first half of `true, fail`
    /// let event = Event::from_bytes([0, 11, 1, 4, 0x10, 0, 1, 0x30, 1, 0x10, 0x11, 0, 0])?;
    /// let Some(Ancestor::Conjunction { right, .. }) = event.ancestors().next() else { panic!("a conjunction") };
    /// assert_eq!((right.to_string(), event.ancestors().len()), ("fail".into(), 1));
    /// # Ok::<(), fourport::Refusal>(())
    /// ```
    pub fn ancestors(&self) -> Ancestors<'_> {
        let rest = self.split().1;
        Ancestors::new(number_at(rest, 0), rest.get(2..).unwrap_or_default())
    }

    /// The bets, the last one first.
    ///
    /// ```
    /// # use fourport::{Bet, Event};
    /// // exit V0 = a, with the unifier V0/a
    /// let event = Event::from_bytes([0, 23, 1, 2, 0x12, 1, 0, 0, 2, 0, 2, 0, 0, 0, 0, 1, 0x20, 0, 1, 0, 0, 2, 0, 2, 0])?;
    /// let Some(Bet::Unifier(mut pairs)) = event.bets().next() else { panic!("a unifier") };
    /// let (variable, term) = pairs.next().unwrap();
    /// assert_eq!((variable, term.to_string(), event.bets().len()), (0, "n2".into(), 1));
    /// # Ok::<(), fourport::Refusal>(())
    /// ```
    pub fn bets(&self) -> Bets<'_> {
        let rest = self.ancestors().behind();
        Bets::new(number_at(rest, 0), rest.get(2..).unwrap_or_default())
    }

    /// Whether a unifier of the bets binds the variable.
    ///
    /// ```
    /// # use fourport::Event;
    /// // exit V1 = V0, with the unifier V1/V0
    /// let event = Event::from_bytes([0, 21, 1, 2, 0x12, 1, 0, 1, 1, 0, 0, 0, 0, 0, 1, 0x20, 0, 1, 0, 1, 1, 0, 0])?;
    /// assert_eq!([event.is_bound(0), event.is_bound(1)], [false, true]);
    /// # Ok::<(), fourport::Refusal>(())
    /// ```
    pub fn is_bound(&self, v: u16) -> bool {
        self.bets().any(|bet| matches!(bet, Bet::Unifier(pairs) if pairs.into_iter().any(|(bound, _)| bound == v)))
    }

    /// How many ancestors the event's goal stands under.
    ///
    /// ```
    /// # use fourport::Event;
    /// // redo true, the first half of `true, fail`
    /// let event = Event::from_bytes([0, 11, 1, 4, 0x10, 0, 1, 0x30, 1, 0x10, 0x11, 0, 0])?;
    /// assert_eq!((event.ancestor_count(), event.bet_count()), (1, 0));
    /// # Ok::<(), fourport::Refusal>(())
    /// ```
    pub fn ancestor_count(&self) -> u16 {
        number_at(self.split().1, 0)
    }

    /// How many bets there are.
    pub fn bet_count(&self) -> u16 {
        number_at(self.ancestors().behind(), 0)
    }

    /// The goal, and the bytes of the stacks behind it.
    fn split(&self) -> (GoalView<'_>, &[u8]) {
        GoalView::split(self.0.get(EVENT_GOAL_AT..).unwrap_or_default())
    }

    /// S(v): what the event's bets make of a variable; refused by [`Refusal::Value`] only.
    ///
    /// ```
    /// # use fourport::Event;
    /// // exit V0 = a, with the unifier V0/a
    /// let event = Event::from_bytes([0, 23, 1, 2, 0x12, 1, 0, 0, 2, 0, 2, 0, 0, 0, 0, 1, 0x20, 0, 1, 0, 0, 2, 0, 2, 0])?;
    /// assert_eq!(event.value(0)?.as_bytes(), [2, 0, 2, 0]);
    /// assert_eq!(event.value(7)?.as_bytes(), [1, 0, 7]);
    /// # Ok::<(), fourport::Refusal>(())
    /// ```
    pub fn value(&self, v: u16) -> Result<Term, Refusal> {
        let (mut out, mut length) = (vec![0; RECORD_LIMIT], 0);
        Refusal::unless_done(raw::value(&self.0, v, &mut out, &mut length))?;
        out.truncate(length as usize);
        out.shrink_to_fit();
        Ok(Term::written(out))
    }

    /// The greatest variable of the event, and the first of bets, goal and ancestors that holds it; nothing where the event has no variable. An
    /// [`Event`] has passed the gate, so this is not refused.
    ///
    /// ```
    /// use fourport::{Event, Part};
    /// // call p(V4), with the unifier V9/a; and without it
    /// let call = Event::from_bytes([0, 22, 1, 1, 0x15, 0, 6, 1, 1, 0, 4, 0, 0, 0, 1, 0x20, 0, 1, 0, 9, 2, 0, 1, 0])?;
    /// assert_eq!(call.greatest(), Some((Part::Bets, 9)));
    /// let call = Event::from_bytes([0, 13, 1, 1, 0x15, 0, 6, 1, 1, 0, 4, 0, 0, 0, 0])?;
    /// assert_eq!(call.greatest(), Some((Part::Goal, 4)));
    /// # Ok::<(), fourport::Refusal>(())
    /// ```
    pub fn greatest(&self) -> Option<(Part, u16)> {
        let (mut part, mut greatest) = (0, 0);
        raw::greatest(&self.0, &mut part, &mut greatest);
        let part = [Part::Bets, Part::Goal, Part::Ancestors].into_iter().find(|&known| known as u32 == part)?;
        Some((part, greatest as u16))
    }

    /// An event that the desk wrote.
    pub(crate) fn written(bytes: Vec<u8>) -> Event {
        Event(bytes)
    }

    /// The record becomes the one that the desk wrote at the start of `out`.
    pub(crate) fn replace(&mut self, out: &[u8]) {
        self.0.clear();
        self.0.extend_from_slice(layout::record_at(out));
    }
}
