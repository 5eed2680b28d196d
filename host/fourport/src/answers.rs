//! Every answer of a query, and the branches and bodies that gave it.

use crate::{raw, Goal, Half, Program, Query, Refusal, Stop, Term, RECORD_LIMIT};
use layout::{byte_at, goal_end, number_at, term_end, BY};
use std::fmt;
use std::iter::FusedIterator;

/// The steps that are asked for first: a walk of so many costs little beside the call.
const FIRST_STEPS: u32 = 1_024;

/// So many times the steps are asked for next: all askings before the last one together cost little beside it, unless that one ends early.
const STEPS_GROWTH: u32 = 16;

/// The output that is lent first, and how many times as long the next one is.
const FIRST_ROOM: usize = 1 << 20;
const ROOM_GROWTH: usize = 4;

/// The most bytes that a list of answers may have unless [`Answers::with_room`] says otherwise. A single answer has fewer than 90 million.
pub const ANSWERS_ROOM: usize = 1 << 27;

/// What an answer was given by: a bet OR or BY of its exit.
#[derive(Clone, Debug, PartialEq, Eq, Hash)]
pub enum Used {
    /// the half of a disjunction that exited
    Branch(Half),
    /// the body that an atom exited by, as it stands in the bet, its variables numbered as in the walk
    Body(Goal),
}

/// An answer of a query: one exit of it.
#[derive(Clone, Debug, PartialEq, Eq, Hash)]
pub struct Answer {
    /// each variable of the query and its value, by rising number; the value of an unbound one is a variable
    pub values: Vec<(u16, Term)>,
    /// the branches and bodies that gave it, the oldest first
    pub used: Vec<Used>,
}

/// The answers of a query, one by one in the order of the walk: see [`Program::answers`].
///
/// The desk keeps nothing between calls, so whoever wants more asks again from the start. The answers within fewer steps, or in a shorter output, are
/// a front of those within more (SPECIFICATION 9.10), so those already given are passed over. Sixteen times the steps are asked for each time:
/// a walk of 1,024 steps or fewer is walked once, and no walk is walked for more than some twice its steps, save where the output was too short. No answer
/// waits for a walk of more than sixteen times the steps that lead to it, or of 1,024.
///
/// The output, of 1 MiB at first, is made longer, four times as long, only where 10 is answered and all answers before that are given, up to
/// [`ANSWERS_ROOM`] bytes for all answers together.
#[derive(Clone, Debug)]
pub struct Answers<'a> {
    program: &'a Program,
    query: &'a Query,
    most_steps: u32,
    most_room: usize,
    /// what the desk wrote when it was last asked, for so many steps, and what it answered
    out: Vec<u8>,
    steps: u32,
    number: u32,
    written: usize,
    taken: u32,
    /// the bytes of the answers given so far
    given: usize,
    end: Option<End>,
    progress: Progress<'a>,
}

/// Who is told how far the list is. A clone of a list tells nobody.
struct Progress<'a>(Option<Box<dyn FnMut(u32) + Send + Sync + 'a>>);

impl Clone for Progress<'_> {
    fn clone(&self) -> Self {
        Progress(None)
    }
}

impl fmt::Debug for Progress<'_> {
    fn fmt(&self, f: &mut fmt::Formatter<'_>) -> fmt::Result {
        f.write_str(if self.0.is_some() { "told" } else { "silent" })
    }
}

/// What there is behind the last answer written.
#[derive(Clone, Copy, Debug, PartialEq, Eq)]
enum End {
    Whole,
    Stopped(Stop),
    /// the stop has been given
    Told,
}

impl<'a> Answers<'a> {
    pub(crate) fn new(program: &'a Program, query: &'a Query) -> Answers<'a> {
        let (most_steps, most_room, out) = (u32::MAX, ANSWERS_ROOM, vec![0; FIRST_ROOM]);
        Answers {
            program,
            query,
            most_steps,
            most_room,
            out,
            steps: 0,
            number: 0,
            written: 0,
            taken: 0,
            given: 0,
            end: None,
            progress: Progress(None),
        }
    }

    /// At most so many steps of the walk; unless this is said, 4,294,967,295. To be said before the first answer is asked for.
    pub fn with_steps(self, most: u32) -> Answers<'a> {
        Answers { most_steps: most, ..self }
    }

    /// At most so many bytes for all answers together, but 32,768 at the least; unless this is said, [`ANSWERS_ROOM`]. To be said before the first
    /// answer is asked for.
    pub fn with_room(self, most: usize) -> Answers<'a> {
        let most_room = most.max(RECORD_LIMIT);
        Answers { most_room, out: vec![0; FIRST_ROOM.min(most_room)], ..self }
    }

    /// Before each asking, tells the steps that it is for: none of them are taken yet, and a walk that ends takes fewer. A clone of the list tells
    /// nobody.
    ///
    /// ```
    /// # use fourport::{Clauses, Query};
    /// let rules = "light(red). light(green). light(blue).";
    /// let program = Clauses::from_text(rules)?.0.canonical()?;
    /// let (query, _) = Query::from_text(rules, "light(A), light(B), light(C), light(D)")?;
    /// let mut told = Vec::new();
    /// assert_eq!(program.answers(&query).with_progress(|steps| told.push(steps)).count(), 81);
    /// assert_eq!(told, [1_024, 16_384]);
    /// # Ok::<(), Box<dyn std::error::Error>>(())
    /// ```
    pub fn with_progress(self, progress: impl FnMut(u32) + Send + Sync + 'a) -> Answers<'a> {
        Answers { progress: Progress(Some(Box::new(progress))), ..self }
    }

    /// The steps that the walk has taken. It may be ahead of the answers given.
    pub fn taken(&self) -> u32 {
        self.taken
    }

    /// Whether the walk has ended in fail: there are no answers but those given and those that are still to be given without another step, and all that
    /// the program gives for the query are instances of them (docs/SPECIFICATION.md, 9.12).
    pub fn is_whole(&self) -> bool {
        self.end == Some(End::Whole)
    }

    fn ask(&mut self, steps: u32) {
        self.steps = steps;
        if let Some(told) = &mut self.progress.0 {
            told(steps);
        }
        self.number = raw::answers(self.program.as_bytes(), self.query.as_bytes(), steps, &mut self.out, &mut self.written, &mut self.taken);
    }

    /// Asks for more steps; or, where something did not fit, for more room.
    fn ask_on(&mut self) {
        if self.number == Refusal::Fit.number() {
            self.end = self.ask_for_room();
        } else {
            self.ask(self.steps.saturating_mul(STEPS_GROWTH).max(FIRST_STEPS).min(self.most_steps));
            self.end = self.reached();
        }
    }

    /// Was it an answer that did not fit, or an event? The step that comes to an answer without room is taken, and one that 10 refuses is not: asked
    /// for the steps taken alone, the answer gets 10 again or is written, and the other gets 0.
    fn ask_for_room(&mut self) -> Option<End> {
        let (before, room) = (self.written, self.out.len());
        if room < self.most_room {
            self.out = vec![0; room.saturating_mul(ROOM_GROWTH).min(self.most_room)];
        }
        self.ask(self.taken);
        if self.number == 0 && self.written == before {
            return Some(End::Stopped(Stop::Refused(Refusal::Fit)));
        }
        if self.number != 0 && self.out.len() == room {
            return Some(End::Stopped(Stop::Room));
        }
        self.reached()
    }

    /// How the list ends, as far as the last asking tells.
    fn reached(&self) -> Option<End> {
        match Refusal::from_number(self.number) {
            None if self.steps < self.most_steps => None,
            None => Some(End::Stopped(Stop::Steps)),
            Some(Refusal::Walk) => Some(End::Whole),
            // a query without a first event, and a first step that is refused, take no step
            Some(Refusal::Fit) if self.taken > 0 => None,
            Some(refusal) => Some(End::Stopped(Stop::Refused(refusal))),
        }
    }
}

impl Iterator for Answers<'_> {
    type Item = Result<Answer, Stop>;

    fn next(&mut self) -> Option<Result<Answer, Stop>> {
        while self.given >= self.written && self.end.is_none() {
            self.ask_on();
        }
        if let Some(rest) = self.out.get(self.given..self.written).filter(|rest| !rest.is_empty()) {
            let (answer, length) = Answer::read(rest);
            self.given += length;
            return Some(Ok(answer));
        }
        let Some(End::Stopped(stop)) = self.end else { return None };
        self.end = Some(End::Told);
        Some(Err(stop))
    }
}

/// Behind the last answer or the stop there is nothing more.
impl FusedIterator for Answers<'_> {}

impl Answer {
    /// The value of one of the query's variables; nothing for any other.
    ///
    /// ```
    /// # use fourport::{Program, Query};
    /// let program = Program::from_bytes([0, 3, 1, 0, 0])?;
    /// // V0 = a
    /// let query = Query::from_bytes([0, 9, 1, 0x12, 1, 0, 0, 2, 0, 2, 0])?;
    /// let answer = program.answers(&query).next().unwrap()?;
    /// assert_eq!(answer.value(0).unwrap().as_bytes(), [2, 0, 2, 0]);
    /// assert_eq!(answer.value(1), None);
    /// # Ok::<(), Box<dyn std::error::Error>>(())
    /// ```
    pub fn value(&self, v: u16) -> Option<&Term> {
        let place = self.values.binary_search_by_key(&v, |(variable, _)| *variable).ok()?;
        self.values.get(place).map(|(_, term)| term)
    }

    /// The answer at the front of what the desk wrote, and its length.
    fn read(bytes: &[u8]) -> (Answer, usize) {
        let mut at = 2;
        let mut pair = || {
            let (variable, from) = (number_at(bytes, at), at + 2);
            at = term_end(bytes, from);
            (variable, Term::written(part(bytes, from, at)))
        };
        let values = (0..number_at(bytes, 0)).map(|_| pair()).collect();
        let (count, mut at) = (number_at(bytes, at), at + 2);
        let mut bet = || {
            let (kind, from) = (byte_at(bytes, at), at + 1);
            at = if kind == BY { goal_end(bytes, from, |_| ()) } else { from + 1 };
            match kind {
                BY => Used::Body(Goal::written(part(bytes, from, at))),
                _ => Used::Branch(Half::of(byte_at(bytes, from))),
            }
        };
        let used = (0..count).map(|_| bet()).collect();
        (Answer { values, used }, at)
    }
}

fn part(bytes: &[u8], from: usize, to: usize) -> Vec<u8> {
    bytes.get(from..to).unwrap_or_default().to_vec()
}
