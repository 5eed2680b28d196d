//! A walk: an event under a program, and steps forward and back from where one is.

use crate::{raw, Direction, Event, Program, Refusal, RECORD_LIMIT};
use std::borrow::Cow;
use std::iter::FusedIterator;

/// Stands at an event of a program's walk. A refused step leaves it where it is; a way of many steps that is stopped leaves it at the last event that
/// the way came to. [`Program::walk`] borrows the program, [`Program::into_walk`] keeps it.
///
/// ```
/// use fourport::{Event, Port, Program, Query, Refusal};
/// let program = Program::from_bytes([0, 3, 1, 0, 0])?;
/// // true ; fail
/// let start = Event::first(&Query::from_bytes([0, 4, 1, 0x14, 0x10, 0x11])?)?;
/// let mut walk = program.walk(start.clone());
///
/// let ports: Vec<Port> = walk.forwards().map(|event| event.port()).collect();
/// assert_eq!(ports, [Port::Call, Port::Exit, Port::Exit]);
/// assert_eq!((walk.stopped(), walk.net()), (Some(Refusal::Walk), 3));
///
/// walk.back()?;
/// assert_eq!(walk.backs().last(), Some(start));
/// assert_eq!((walk.stopped(), walk.net()), (Some(Refusal::Walk), 0));
/// # Ok::<(), Refusal>(())
/// ```
///
/// The walk of a query ends at its first answer, so [`Walk::run`] leads there: it stops at an exit, or at a fail where there is none. The walk of
/// [`Query::then_fail`](crate::Query::then_fail) goes on from each answer to the next, and ends in fail behind the last one.
///
/// ```
/// # use fourport::{Clauses, Direction, Event, Port, Query, Refusal};
/// let rules = "free(bay1). free(bay2).";
/// let program = Clauses::from_text(rules)?.0.canonical()?;
/// let (query, names) = Query::from_text(rules, "free(Bay)")?;
/// let mut walk = program.walk(Event::first(&query)?);
/// walk.run(u32::MAX, Direction::Forward)?;
/// assert_eq!((walk.event().port(), walk.event().value(0)?.shown(&names).to_string()), (Port::Exit, "bay1".into()));
///
/// let mut walk = program.walk(Event::first(&query.then_fail()?)?);
/// let is_answer = |event: &Event| event.port() == Port::Exit && event.ancestor_count() == 1 && event.goal() == query.goal();
/// let mut answers = Vec::new();
/// while walk.forward_until(1_000, is_answer) == Ok(true) {
///     answers.push((walk.net(), walk.event().value(0)?.shown(&names).to_string()));
/// }
/// assert_eq!(answers, [(10, "bay1".into()), (28, "bay2".into())]);
/// assert_eq!((walk.stopped(), walk.event().port()), (Some(Refusal::Walk), Port::Fail));
/// # Ok::<(), Box<dyn std::error::Error>>(())
/// ```
///
/// # Cost
/// The desk keeps nothing between calls, so each single step reads program and event anew: some 3 microseconds in a small garage, and 70 where both have
/// some 5,000 bytes. [`Walk::run`] reads them once, and its steps take about one microsecond in either. Single steps are those of [`Walk::forward`],
/// [`Walk::forwards`], [`Walk::forward_until`] and their ways back. To go a known number of steps, or to where the walk ends, use `run`.
#[derive(Clone, Debug)]
pub struct Walk<'p> {
    program: Cow<'p, Program>,
    event: Event,
    /// what the next step writes into, made once
    out: Vec<u8>,
    net: i64,
    stopped: Option<Refusal>,
}

impl<'p> Walk<'p> {
    pub(crate) fn new(program: Cow<'p, Program>, event: Event) -> Walk<'p> {
        Walk { program, event, out: vec![0; RECORD_LIMIT], net: 0, stopped: None }
    }

    /// The event where the walk stands.
    pub fn event(&self) -> &Event {
        &self.event
    }

    /// The program of the walk.
    ///
    /// ```
    /// # use fourport::{Clauses, Event, Query};
    /// let rules = "free(bay1). free(bay2).";
    /// let (query, _) = Query::from_text(rules, "free(Bay)")?;
    /// let walk = Clauses::from_text(rules)?.0.canonical()?.into_walk(Event::first(&query)?);
    /// assert_eq!(walk.program().answers(&query).count(), 2);
    /// # Ok::<(), Box<dyn std::error::Error>>(())
    /// ```
    pub fn program(&self) -> &Program {
        &self.program
    }

    /// Stands at another event, one that was kept or stored, without a step: [`Walk::net`] starts again at 0, and [`Walk::stopped`] is nothing. Gives
    /// the event that was left. A clone of the walk is a bookmark too, one that keeps both.
    ///
    /// ```
    /// # use fourport::{Event, Program, Query, Refusal};
    /// let program = Program::from_bytes([0, 3, 1, 0, 0])?;
    /// let start = Event::first(&Query::from_bytes([0, 2, 1, 0x10])?)?;
    /// let mut walk = program.into_walk(start.clone());
    /// walk.forwards().for_each(drop);
    /// assert_eq!((walk.stopped(), walk.net()), (Some(Refusal::Walk), 1));
    /// let last = walk.stand_at(start.clone());
    /// assert_eq!((walk.event(), walk.stopped(), walk.net()), (&start, None, 0));
    /// assert_eq!(walk.forward()?, &last);
    /// # Ok::<(), Refusal>(())
    /// ```
    pub fn stand_at(&mut self, event: Event) -> Event {
        (self.net, self.stopped) = (0, None);
        std::mem::replace(&mut self.event, event)
    }

    /// The event where the walk stands, without the walk.
    pub fn into_event(self) -> Event {
        self.event
    }

    /// The steps forward less the steps back that were accepted since the walk was made, or was last told where to [stand](Walk::stand_at).
    pub fn net(&self) -> i64 {
        self.net
    }

    /// What refused the last step tried; nothing where it was accepted, or none was tried.
    pub fn stopped(&self) -> Option<Refusal> {
        self.stopped
    }

    /// One step forward.
    ///
    /// ```
    /// # use fourport::{Event, Program, Query, Refusal};
    /// let program = Program::from_bytes([0, 3, 1, 0, 0])?;
    /// let mut walk = program.walk(Event::first(&Query::from_bytes([0, 2, 1, 0x11])?)?);
    /// let failed = walk.forward()?.clone();
    /// assert_eq!(walk.forward(), Err(Refusal::Walk));
    /// assert_eq!(walk.event(), &failed);
    /// # Ok::<(), Refusal>(())
    /// ```
    pub fn forward(&mut self) -> Result<&Event, Refusal> {
        let number = raw::forward(self.program.as_bytes(), self.event.as_bytes(), &mut self.out);
        self.stepped(number, 1)
    }

    /// One step back.
    ///
    /// ```
    /// # use fourport::{Event, Program, Query, Refusal};
    /// let program = Program::from_bytes([0, 3, 1, 0, 0])?;
    /// let mut walk = program.walk(Event::first(&Query::from_bytes([0, 2, 1, 0x11])?)?);
    /// assert_eq!(walk.back(), Err(Refusal::Walk));
    /// # Ok::<(), Refusal>(())
    /// ```
    pub fn back(&mut self) -> Result<&Event, Refusal> {
        let number = raw::back(self.program.as_bytes(), self.event.as_bytes(), &mut self.out);
        self.stepped(number, -1)
    }

    /// Back to the door of the event: see [`Program::door`]. Where the way is stopped, by the limit or by a question, this gives what stopped it, and the
    /// walk has moved: it stands at the last event that the way came to.
    ///
    /// ```
    /// # use fourport::{Event, Port, Program, Query, Refusal};
    /// let program = Program::from_bytes([0, 3, 1, 0, 0])?;
    /// // true, true
    /// let mut walk = program.walk(Event::first(&Query::from_bytes([0, 4, 1, 0x13, 0x10, 0x10])?)?);
    /// assert_eq!(walk.forwards().count(), 5);
    /// assert_eq!(walk.door(3), Err(Refusal::Limit));
    /// assert_eq!((walk.net(), walk.event().port()), (2, Port::Exit));
    /// // the door of the event where the walk stands now
    /// assert_eq!(walk.door(3)?.port(), Port::Call);
    /// assert_eq!(walk.net(), 1);
    /// # Ok::<(), Refusal>(())
    /// ```
    pub fn door(&mut self, limit: u32) -> Result<&Event, Refusal> {
        let door = self.program.door(&self.event, limit)?;
        self.event = door.event;
        self.net = self.net.saturating_sub(i64::from(door.taken));
        self.stopped = door.stopped;
        self.stopped.map_or(Ok(&self.event), Err)
    }

    /// So many steps, or as many as are accepted, by the desk's own run: many times faster than single steps ([cost](#cost)). Gives the steps taken;
    /// where they are fewer, [`Walk::stopped`] says why. An error occurs only where a record is refused, which a `Program` and an `Event` are not.
    ///
    /// ```
    /// # use fourport::{Direction, Event, Program, Query, Refusal};
    /// let program = Program::from_bytes([0, 3, 1, 0, 0])?;
    /// // true, true
    /// let mut walk = program.walk(Event::first(&Query::from_bytes([0, 4, 1, 0x13, 0x10, 0x10])?)?);
    /// assert_eq!((walk.run(3, Direction::Forward)?, walk.stopped()), (3, None));
    /// assert_eq!((walk.run(100, Direction::Forward)?, walk.stopped()), (2, Some(Refusal::Walk)));
    /// assert_eq!((walk.run(5, Direction::Back)?, walk.net()), (5, 0));
    /// # Ok::<(), Refusal>(())
    /// ```
    pub fn run(&mut self, steps: u32, direction: Direction) -> Result<u32, Refusal> {
        let run = self.program.run(&self.event, steps, direction)?;
        let taken = i64::from(run.taken);
        self.event = run.event;
        self.net = self.net.saturating_add(if direction == Direction::Forward { taken } else { -taken });
        self.stopped = run.stopped;
        Ok(run.taken)
    }

    /// The events ahead, one step forward for each ([cost](#cost)), up to the first that is refused: see [`Walk::stopped`] then. A walk need not end.
    ///
    /// ```
    /// # use fourport::{Event, Program, Query};
    /// let program = Program::from_bytes([0, 3, 1, 0, 0])?;
    /// let mut walk = program.walk(Event::first(&Query::from_bytes([0, 4, 1, 0x13, 0x10, 0x10])?)?);
    /// assert_eq!(walk.forwards().take(2).count(), 2);
    /// assert_eq!(walk.forwards().count(), 3);
    /// # Ok::<(), fourport::Refusal>(())
    /// ```
    pub fn forwards(&mut self) -> Forwards<'_, 'p> {
        Forwards(self)
    }

    /// The events behind, one step back for each ([cost](#cost)), up to the first that is refused: see [`Walk::stopped`] then.
    ///
    /// ```
    /// # use fourport::{Event, Program, Query};
    /// let program = Program::from_bytes([0, 3, 1, 0, 0])?;
    /// let mut walk = program.walk(Event::first(&Query::from_bytes([0, 4, 1, 0x13, 0x10, 0x10])?)?);
    /// let there: Vec<Event> = walk.forwards().collect();
    /// let again: Vec<Event> = walk.backs().collect();
    /// assert_eq!(again[0], there[3]);
    /// # Ok::<(), fourport::Refusal>(())
    /// ```
    pub fn backs(&mut self) -> Backs<'_, 'p> {
        Backs(self)
    }

    fn stepped(&mut self, number: u32, by: i64) -> Result<&Event, Refusal> {
        self.stopped = Refusal::from_number(number);
        if let Some(refusal) = self.stopped {
            return Err(refusal);
        }
        self.event.replace(&self.out);
        self.net = self.net.saturating_add(by);
        Ok(&self.event)
    }
}

/// The events ahead of a walk, each where the walk then stands: see [`Walk::forwards`].
#[derive(Debug)]
pub struct Forwards<'w, 'p>(&'w mut Walk<'p>);

/// The events behind a walk, each where the walk then stands: see [`Walk::backs`].
#[derive(Debug)]
pub struct Backs<'w, 'p>(&'w mut Walk<'p>);

impl Iterator for Forwards<'_, '_> {
    type Item = Event;

    fn next(&mut self) -> Option<Event> {
        self.0.forward().ok().cloned()
    }
}

impl Iterator for Backs<'_, '_> {
    type Item = Event;

    fn next(&mut self) -> Option<Event> {
        self.0.back().ok().cloned()
    }
}

/// A step that was refused is refused again: nothing has changed.
impl FusedIterator for Forwards<'_, '_> {}
impl FusedIterator for Backs<'_, '_> {}
