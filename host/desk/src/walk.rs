//! `desk walk`: the walk of a query in words, a line for each event.

use crate::diagnostic::refusal_words;
use crate::garage::{Garage, Predicate};
use crate::position::predicate;
use crate::status::{grouped, Status};
use fourport::{Direction, Event, Port, Refusal, Walk};
use std::io::{self, Write};

/// How many events behind the first one are shown unless more are asked for.
const USUAL_EVENTS: u64 = 100_000;

/// What is asked for.
#[derive(Clone, Debug)]
pub struct Order {
    /// past the first answer
    pub all: bool,
    /// the first event that is shown, and the last one where it was named
    pub from: u64,
    pub to: Option<u64>,
    /// goals that somebody typed alone
    pub goals: bool,
    /// the ports that are shown; all where none is named
    pub ports: Vec<Port>,
    /// the predicates whose atoms are shown; all goals where none is named
    pub spied: Vec<Predicate>,
}

impl Order {
    fn shows(&self, garage: &Garage, event: &Event) -> bool {
        let spied = || predicate(event.goal()).is_some_and(|of| self.spied.contains(&of));
        let port = self.ports.is_empty() || self.ports.contains(&event.port());
        port && (self.spied.is_empty() || spied()) && (!self.goals || garage.is_goal(event))
    }
}

/// Why a walk is not shown further.
enum End {
    Answer,
    /// the last event that was asked for
    Shown,
    /// as many events as are shown unless more are asked for
    Usual,
    /// the walk's last event, and whether there was an answer before it
    Last {
        answered: bool,
    },
    Refused(Refusal),
}

/// Prints the events.
pub fn walk(garage: &Garage, order: &Order, out: &mut dyn Write) -> io::Result<Status> {
    let to = order.to.unwrap_or(order.from.saturating_add(USUAL_EVENTS));
    if to < order.from {
        writeln!(out, "nothing is shown: --to stands before --from")?;
        return Ok(Status::Refused);
    }
    let mut walk = garage.program.walk(garage.first().clone());
    let (mut number, end) = skipped(garage, order, &mut walk);
    let end = match end {
        Some(end) => end,
        None => loop {
            if order.shows(garage, walk.event()) {
                writeln!(out, "{}", garage.event_line(number, walk.event()))?;
            }
            if !order.all && garage.is_answer(walk.event()) {
                break End::Answer;
            }
            if number >= to {
                break if order.to.is_some() { End::Shown } else { End::Usual };
            }
            if let Err(refusal) = walk.forward() {
                break refused(garage, refusal);
            }
            number += 1;
        },
    };
    writeln!(out, "{}", ending(order, number, &end))?;
    out.flush()?;
    Ok(match end {
        End::Answer | End::Shown | End::Last { answered: true } => Status::Done,
        End::Last { answered: false } => Status::NoAnswer,
        End::Usual | End::Refused(_) => Status::Stopped,
    })
}

/// A walk of 'Q, fail' that cannot go on has ended, or was stopped by a limit. A list of answers that is not empty starts with an answer, or with what
/// refused the first one.
fn refused(garage: &Garage, refusal: Refusal) -> End {
    match refusal {
        Refusal::Walk => End::Last { answered: garage.program.answers(&garage.query).next().is_some() },
        refusal => End::Refused(refusal),
    }
}

/// Goes to the first event that is shown. Without `--all` an answer before it ends the walk.
fn skipped(garage: &Garage, order: &Order, walk: &mut Walk<'_>) -> (u64, Option<End>) {
    let answer = if order.all { None } else { answer_before(garage, order.from) };
    let end = match ran(walk, answer.unwrap_or(order.from)) {
        Some(refusal) => Some(refused(garage, refusal)),
        None => answer.map(|_| End::Answer),
    };
    (u64::try_from(walk.net()).unwrap_or_default(), end)
}

/// The number of the first answer, where that comes before an event. The walk of the query alone has the same numbers, and ends there.
fn answer_before(garage: &Garage, number: u64) -> Option<u64> {
    let mut alone = garage.program.walk(Event::first(&garage.query).ok()?);
    ran(&mut alone, number);
    let is_answer = alone.event().port() == Port::Exit && alone.event().ancestor_count() == 0;
    u64::try_from(alone.net()).ok().filter(|&at| is_answer && at < number)
}

/// Runs to the event of a number; gives what refused a step on the way.
fn ran(walk: &mut Walk<'_>, number: u64) -> Option<Refusal> {
    loop {
        let left = number.saturating_sub(u64::try_from(walk.net()).unwrap_or_default());
        if left == 0 {
            return None;
        }
        if let Err(refusal) = walk.run(u32::try_from(left).unwrap_or(u32::MAX), Direction::Forward) {
            return Some(refusal);
        }
        if walk.stopped().is_some() {
            return walk.stopped();
        }
    }
}

/// The last line.
fn ending(order: &Order, number: u64, end: &End) -> String {
    let (at, from) = (grouped(number), grouped(order.from));
    let beyond = if number < order.from { format!("nothing is shown of event {from} and on: ") } else { String::new() };
    let words = match end {
        End::Answer => format!("an answer at event {at}; --all goes on from there"),
        End::Shown | End::Usual => format!("shown up to event {at}; --to goes further"),
        End::Last { answered } => format!("the walk ends at event {at} (number 6): there is no {}answer", if *answered { "other " } else { "" }),
        End::Refused(refusal) => format!("the walk stops at event {at} (number {}): {}", refusal.number(), refusal_words(*refusal)),
    };
    beyond + &words
}
