//! Program records, and the steps under one.

use crate::record::{record_type, written};
use crate::{raw, Answers, Clauses, Event, Query, Refusal, Walk};
use layout::CALL_TRUE;
use std::borrow::Cow;

record_type! {
    /// A program record that passed questions 1 to 4. It stays the same throughout a walk.
    ///
    /// ```
    /// use fourport::{Event, Program, Query, Refusal};
    /// let program = Program::from_bytes([0, 3, 1, 0, 0])?;
    /// let call = Event::first(&Query::from_bytes([0, 2, 1, 0x10])?)?;
    /// let exit = program.forward(&call)?;
    /// assert_eq!(program.back(&exit)?, call);
    /// assert_eq!(program.forward(&exit), Err(Refusal::Walk));
    /// # Ok::<(), Refusal>(())
    /// ```
    Program,
    /// The record, if it passes the questions. They are put by a run of no steps.
    ///
    /// ```
    /// use fourport::{Program, Refusal, Which};
    /// assert_eq!(Program::from_bytes([0, 3, 1, 0]), Err(Refusal::Frame(Which::Program)));
    /// ```
    puts: |program, out| raw::run(program, &CALL_TRUE, 0, 0, out, &mut 0)
}

/// Which way a run goes.
#[derive(Clone, Copy, Debug, PartialEq, Eq, Hash)]
pub enum Direction {
    /// the rules from left to right
    Forward,
    /// the rules from right to left
    Back,
}

/// Where a run, or the way back to a door, came to.
#[derive(Clone, Debug, PartialEq, Eq, Hash)]
pub struct Run {
    /// the event reached; where no step was taken it is the given one
    pub event: Event,
    /// the steps taken
    pub taken: u32,
    /// what refused the next step; nothing where the run ended on its count, or at the door
    pub stopped: Option<Refusal>,
}

/// What a service gives that keeps the event reached where it is stopped on its way; any other number but 0 refuses the whole of it.
fn ran(desk: impl FnOnce(&mut [u8], &mut u32) -> u32) -> Result<Run, Refusal> {
    use Refusal::*;
    let (mut taken, mut stopped) = (0, None);
    let record = written(|out| {
        let number = desk(out, &mut taken);
        match Refusal::from_number(number) {
            Some(refusal @ (Walk | Match | Value | Locals | Fit | Limit)) => {
                stopped = Some(refusal);
                0
            }
            _ => number,
        }
    })?;
    Ok(Run { event: Event::written(record), taken, stopped })
}

impl Program {
    /// The canonical program of the clauses; refused by [`Refusal::Locals`] or [`Refusal::Fit`] only.
    ///
    /// ```
    /// # use fourport::{Clauses, Program};
    /// let clauses = Clauses::from_bytes([0, 8, 1, 0, 1, 0, 5, 0, 0, 0x11])?;
    /// assert_eq!(Program::canonical(&clauses)?.as_bytes().len(), 10);
    /// # Ok::<(), fourport::Refusal>(())
    /// ```
    pub fn canonical(clauses: &Clauses) -> Result<Program, Refusal> {
        written(|out| raw::canonical(clauses.as_bytes(), out)).map(Program)
    }

    /// One step forward; refused by questions 6 to 10 only.
    ///
    /// ```
    /// # use fourport::{Event, Port, Program};
    /// let program = Program::from_bytes([0, 3, 1, 0, 0])?;
    /// // redo true
    /// let event = Event::from_bytes([0, 7, 1, 4, 0x10, 0, 0, 0, 0])?;
    /// assert_eq!(program.forward(&event)?.port(), Port::Fail);
    /// # Ok::<(), fourport::Refusal>(())
    /// ```
    pub fn forward(&self, event: &Event) -> Result<Event, Refusal> {
        written(|out| raw::forward(&self.0, event.as_bytes(), out)).map(Event::written)
    }

    /// One step back; refused by questions 6 to 10 only.
    ///
    /// ```
    /// # use fourport::{Event, Program, Refusal};
    /// let program = Program::from_bytes([0, 3, 1, 0, 0])?;
    /// // redo true
    /// let event = Event::from_bytes([0, 7, 1, 4, 0x10, 0, 0, 0, 0])?;
    /// assert_eq!(program.back(&event), Err(Refusal::Match));
    /// # Ok::<(), Refusal>(())
    /// ```
    pub fn back(&self, event: &Event) -> Result<Event, Refusal> {
        written(|out| raw::back(&self.0, event.as_bytes(), out)).map(Event::written)
    }

    /// That many single steps, or as many as are accepted. That a run is stopped is no error; one occurs only where a record is refused, which a
    /// `Program` and an `Event` are not.
    ///
    /// ```
    /// # use fourport::{Direction, Event, Program, Query, Refusal};
    /// let program = Program::from_bytes([0, 3, 1, 0, 0])?;
    /// // true, true
    /// let start = Event::first(&Query::from_bytes([0, 4, 1, 0x13, 0x10, 0x10])?)?;
    /// let there = program.run(&start, u32::MAX, Direction::Forward)?;
    /// assert_eq!((there.taken, there.stopped), (5, Some(Refusal::Walk)));
    /// let again = program.run(&there.event, 5, Direction::Back)?;
    /// assert_eq!((again.event, again.stopped), (start, None));
    /// # Ok::<(), Refusal>(())
    /// ```
    pub fn run(&self, event: &Event, steps: u32, direction: Direction) -> Result<Run, Refusal> {
        let back = u8::from(direction == Direction::Back);
        ran(|out, taken| raw::run(&self.0, event.as_bytes(), steps, back, out, taken))
    }

    /// Back to the door of the event: the nearest one, itself included, that calls the same goal with the same ancestors, tags too, whatever the bets
    /// are. It is found by single steps back, at most `limit`; where they are too few, the last event reached is kept and [`Run::stopped`] is
    /// [`Refusal::Limit`]. Of an event that a walk reaches there is always a door; of another one 7 to 10 may stop the way back. As many steps
    /// forward as were taken lead to the event again. An error occurs only where a record is refused, which a `Program` and an `Event` are not.
    ///
    /// ```
    /// # use fourport::{Direction, Event, Port, Program, Query, Refusal};
    /// let program = Program::from_bytes([0, 3, 1, 0, 0])?;
    /// // (true ; fail), fail
    /// let start = Event::first(&Query::from_bytes([0, 6, 1, 0x13, 0x14, 0x10, 0x11, 0x11])?)?;
    /// let redo = program.run(&start, 7, Direction::Forward)?.event;
    /// assert_eq!(redo.port(), Port::Redo);
    /// let door = program.door(&redo, u32::MAX)?;
    /// assert_eq!((door.event.port(), door.taken, door.stopped), (Port::Call, 6, None));
    /// assert_eq!(program.run(&door.event, door.taken, Direction::Forward)?.event, redo);
    ///
    /// let short = program.door(&redo, 5)?;
    /// assert_eq!((short.taken, short.stopped), (5, Some(Refusal::Limit)));
    /// assert_eq!(program.back(&short.event)?, door.event);
    /// # Ok::<(), Refusal>(())
    /// ```
    pub fn door(&self, event: &Event, limit: u32) -> Result<Run, Refusal> {
        ran(|out, taken| raw::door(&self.0, event.as_bytes(), limit, out, taken))
    }

    /// Every answer of a query, as an iterator that asks the desk for more steps and more room by itself. It ends after the last answer there is, or
    /// gives a [`Stop`](crate::Stop) as its last item: the list is whole exactly where there is none. A walk need not end: [`Answers::with_steps`]
    /// limits it.
    ///
    /// ```
    /// use fourport::{Half, Program, Query, Stop, Used};
    /// let program = Program::from_bytes([0, 3, 1, 0, 0])?;
    /// // V0 = a ; V0 = b
    /// let query = Query::from_bytes([0, 18, 1, 0x14, 0x12, 1, 0, 0, 2, 0, 2, 0, 0x12, 1, 0, 0, 2, 0, 3, 0])?;
    /// let all: Vec<_> = program.answers(&query).collect::<Result<_, _>>()?;
    /// assert_eq!(all[0].value(0).unwrap().as_bytes(), [2, 0, 2, 0]);
    /// assert_eq!(all[1].value(0).unwrap().as_bytes(), [2, 0, 3, 0]);
    /// assert_eq!((all.len(), &all[1].used[..]), (2, &[Used::Branch(Half::Second)][..]));
    ///
    /// let mut some = program.answers(&query).with_steps(4);
    /// assert_eq!(some.next().unwrap()?, all[0]);
    /// assert_eq!(some.next(), Some(Err(Stop::Steps)));
    /// assert_eq!((some.taken(), some.is_whole()), (4, false));
    /// # Ok::<(), Box<dyn std::error::Error>>(())
    /// ```
    pub fn answers<'a>(&'a self, query: &'a Query) -> Answers<'a> {
        Answers::new(self, query)
    }

    /// A walk that stands at the event.
    ///
    /// ```
    /// # use fourport::{Event, Port, Program, Query};
    /// let program = Program::from_bytes([0, 3, 1, 0, 0])?;
    /// let mut walk = program.walk(Event::first(&Query::from_bytes([0, 2, 1, 0x10])?)?);
    /// assert_eq!(walk.forward()?.port(), Port::Exit);
    /// # Ok::<(), fourport::Refusal>(())
    /// ```
    pub fn walk(&self, event: Event) -> Walk<'_> {
        Walk::new(Cow::Borrowed(self), event)
    }

    /// A walk that stands at the event and keeps the program, to be held in a struct or sent to another thread.
    ///
    /// ```
    /// # use fourport::{Clauses, Event, Query, Walk};
    /// fn started(rules: &str, query: &str) -> Result<Walk<'static>, Box<dyn std::error::Error>> {
    ///     let program = Clauses::from_text(rules)?.0.canonical()?;
    ///     let (query, _) = Query::from_text(rules, query)?;
    ///     Ok(program.into_walk(Event::first(&query)?))
    /// }
    ///
    /// let mut walk = started("taken(bay1).", "taken(Bay)")?;
    /// assert_eq!(std::thread::spawn(move || walk.forwards().count()).join().unwrap(), 7);
    /// # Ok::<(), Box<dyn std::error::Error>>(())
    /// ```
    pub fn into_walk(self, event: Event) -> Walk<'static> {
        Walk::new(Cow::Owned(self), event)
    }
}
