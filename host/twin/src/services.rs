//! The services from bytes to a number and bytes: the gate's order in each. A refusal writes nothing.

use crate::canonical as canonical_form;
use crate::gate::{room, second, Question, Refusal, RECORD_LIMIT};
use crate::records::{reader, writer, Event, GoalShape, Port, Program, Term};
use crate::rules::{step, Direction};
use crate::terms::value as values;
use std::ops::Range;

/// A number, and what is written: nothing after a refusal.
#[derive(Clone, Debug, PartialEq, Eq)]
pub struct Reply {
    pub number: u8,
    pub bytes: Vec<u8>,
}

/// A run's number, the steps made, and the record of the event it came to: no bytes where 1 to 5 or 11 to 14 refuse (SPECIFICATION 8.5). The way
/// back to a door is answered alike (SPECIFICATION 8.13).
#[derive(Clone, Debug, PartialEq, Eq)]
pub struct RunReply {
    pub number: u8,
    pub steps: u32,
    pub bytes: Vec<u8>,
}

/// How often each port was met: call, exit, fail, redo.
pub type Counts = [u32; 4];

fn reply(answer: Result<Vec<u8>, Refusal>) -> Reply {
    match answer {
        Ok(bytes) => Reply { number: 0, bytes },
        Err(Refusal(number)) => Reply { number, bytes: Vec::new() },
    }
}

/// Clauses to canonical program.
pub fn canonical(clauses: &[u8], out_len: usize) -> Reply {
    reply((|| {
        let clauses = reader::clauses(clauses)?;
        room(out_len)?;
        Ok(writer::program(&canonical_form::canonical(&clauses)?))
    })())
}

/// Query to first event.
pub fn first(query: &[u8], out_len: usize) -> Reply {
    reply(first_event(query, out_len).map(|event| writer::event(&event)))
}

pub(crate) fn first_event(query: &[u8], out_len: usize) -> Result<Event, Refusal> {
    let event = Event::first(second(reader::query(query))?);
    room(out_len)?;
    if event.length() > RECORD_LIMIT as u64 {
        return Err(Question::Fit.into());
    }
    Ok(event)
}

/// The questions that stand before a step: 1 to 4, 11 to 14, 5.
pub(crate) fn lent(program: &[u8], event: &[u8], out_len: usize) -> Result<(Program, Event), Refusal> {
    let program = reader::program(program)?;
    let event = second(reader::event(event))?;
    room(out_len)?;
    Ok((program, event))
}

fn one_step(direction: Direction, program: &[u8], event: &[u8], out_len: usize) -> Reply {
    reply((|| {
        let (program, mut event) = lent(program, event, out_len)?;
        step(direction, &program, &mut event)?;
        Ok(writer::event(&event))
    })())
}

/// One step forward.
pub fn forward(program: &[u8], event: &[u8], out_len: usize) -> Reply {
    one_step(Direction::Forward, program, event, out_len)
}

/// One step back.
pub fn back(program: &[u8], event: &[u8], out_len: usize) -> Reply {
    one_step(Direction::Back, program, event, out_len)
}

/// That many single steps, or as many as are accepted.
pub fn run(program: &[u8], event: &[u8], steps: u32, direction: Direction, out_len: usize) -> RunReply {
    let (program, mut event) = match lent(program, event, out_len) {
        Ok(lent) => lent,
        Err(Refusal(number)) => return RunReply { number, steps: 0, bytes: Vec::new() },
    };
    let (mut taken, mut number) = (0, 0);
    while taken < steps {
        if let Err(Refusal(refused)) = step(direction, &program, &mut event) {
            number = refused;
            break;
        }
        taken += 1;
    }
    RunReply { number, steps: taken, bytes: writer::event(&event) }
}

/// S(v), as bare term bytes.
pub fn value(event: &[u8], variable: u16, out_len: usize) -> Reply {
    reply((|| {
        let event = second(reader::event(event))?;
        room(out_len)?;
        let mut bytes = Vec::new();
        writer::term(&mut bytes, &*values::value(&Term::variable(variable), &event.bets, event.bets.count())?);
        Ok(bytes)
    })())
}

/// The definition of the predicate that the event's goal names, as a part of the program's own bytes. It is empty where a record is refused, where
/// the goal is not an atom, and where the program does not define its predicate (SPECIFICATION 8.7).
pub fn lookup<'p>(program: &'p [u8], event: &[u8]) -> &'p [u8] {
    place(program, event).map_or(&[], |place| &program[place])
}

/// The place of that definition in the program, from its first byte.
pub fn place(program: &[u8], event: &[u8]) -> Option<Range<usize>> {
    let program = reader::program(program).ok()?;
    let event = reader::event(event).ok()?;
    let GoalShape::Atom(predicate, arguments) = event.goal.shape() else { return None };
    program.definition(*predicate, arguments.len()).map(|definition| definition.place.clone())
}

/// The number; the first of bets (1), goal (2) and ancestors (3) that holds the event's greatest variable; and that variable. Both are 0 where the
/// event is refused and where it has no variable.
pub fn greatest(event: &[u8]) -> (u8, u32, u32) {
    match second(reader::event(event)) {
        Err(Refusal(number)) => (number, 0, 0),
        Ok(event) => {
            let m = event.above();
            let parts = [event.bets.above(), event.goal.above(), event.ancestors.above()];
            match parts.iter().position(|&above| above == m) {
                Some(part) if m > 0 => (0, 1 + part as u32, m - 1),
                _ => (0, 0, 0),
            }
        }
    }
}

/// Adds the event's port to the counts: the number, and the counts after it.
pub fn count(event: &[u8], mut counts: Counts) -> (u8, Counts) {
    match second(reader::event(event)) {
        Err(Refusal(number)) => (number, counts),
        Ok(event) => {
            let place = match event.port {
                Port::Call => 0,
                Port::Exit => 1,
                Port::Fail => 2,
                Port::Redo => 3,
            };
            counts[place] = counts[place].saturating_add(1);
            (0, counts)
        }
    }
}
