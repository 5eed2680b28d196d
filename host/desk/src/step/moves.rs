//! Moves along the walk: each by the library's own steps and runs, in pieces, so that a long one can be stopped.

use super::inside::inside;
use crate::derivation::bets_below_its_own;
use crate::garage::Garage;
use fourport::{Ancestor, Direction, Event, Half, Port, Refusal, Walk};

/// The most steps of a move that has no number of steps.
pub const MOST_STEPS: u64 = 10_000_000;
/// The steps between two looks at whether the move is to be stopped: of runs, and of single steps, which take many times as long.
const PIECE: u64 = 20_000;
const STEPS_PIECE: u64 = 500;
/// The steps within which a door is looked for at first, and how many times more each time after.
const DOOR_STEPS: u32 = 100_000;
const DOOR_GROWTH: u32 = 4;
/// The ancestors of the query's own events: 1/Q,fail alone.
const QUERY_ANCESTORS: u16 = 1;

/// Asked between the pieces of a move, with the number of the event reached: whether the move is to stop there.
pub type Pulse<'p> = &'p mut dyn FnMut(u64) -> bool;

/// How a move ended.
#[derive(Clone, Copy, Debug, PartialEq, Eq)]
pub enum Ended {
    /// where it was to go
    There,
    /// at the first event, since nothing is before it
    First,
    /// at an event from which the next step is refused
    Refused(Refusal),
    /// after the most steps that such a move has
    Spent,
    /// where it was told to stop
    Stopped,
}

/// Where one stands in the walk of 'Q, fail': its number is 0 at the call of Q.
#[derive(Debug)]
pub struct Stand<'g> {
    garage: &'g Garage,
    walk: Walk<'g>,
}

impl<'g> Stand<'g> {
    pub fn new(garage: &'g Garage) -> Stand<'g> {
        Stand { garage, walk: garage.program.walk(garage.first().clone()) }
    }

    pub fn event(&self) -> &Event {
        self.walk.event()
    }

    /// The steps from the query's call.
    pub fn number(&self) -> u64 {
        u64::try_from(self.walk.net()).unwrap_or_default()
    }

    /// So many steps, by runs.
    pub fn run(&mut self, steps: u64, direction: Direction, pulse: Pulse) -> Ended {
        let within = if direction == Direction::Back { steps.min(self.number()) } else { steps };
        let mut left = within;
        while left > 0 {
            let piece = u32::try_from(left.min(PIECE)).unwrap_or(u32::MAX);
            match self.walk.run(piece, direction) {
                Ok(taken) => left = left.saturating_sub(u64::from(taken)),
                Err(refusal) => return Ended::Refused(refusal),
            }
            if let Some(refusal) = self.walk.stopped() {
                return Ended::Refused(refusal);
            }
            if left > 0 && pulse(self.number()) {
                return Ended::Stopped;
            }
        }
        if within < steps {
            Ended::First
        } else {
            Ended::There
        }
    }

    /// To the event of a number, or to the last one before it that the walk comes to.
    pub fn go_to(&mut self, number: u64, pulse: Pulse) -> Ended {
        match number.checked_sub(self.number()) {
            Some(ahead) => self.run(ahead, Direction::Forward, pulse),
            None => self.run(self.number() - number, Direction::Back, pulse),
        }
    }

    /// At least one step, and on to the first event that meets the condition.
    pub fn until(&mut self, direction: Direction, mut met: impl FnMut(&Event) -> bool, pulse: Pulse) -> Ended {
        let mut left = MOST_STEPS;
        while left > 0 {
            let before = self.number();
            let piece = STEPS_PIECE.min(left);
            let there = match direction {
                Direction::Forward => self.walk.forward_until(piece, &mut met),
                Direction::Back if before == 0 => return Ended::First,
                Direction::Back => self.walk.back_until(piece.min(before), &mut met),
            };
            match there {
                Ok(true) => return Ended::There,
                Ok(false) => left = left.saturating_sub(self.number().abs_diff(before)),
                Err(refusal) => return Ended::Refused(refusal),
            }
            if pulse(self.number()) {
                return Ended::Stopped;
            }
        }
        Ended::Spent
    }

    /// From an entry of the goal to its next end; elsewhere one step.
    pub fn over(&mut self, pulse: Pulse) -> Ended {
        match self.event().port() {
            Port::Call | Port::Redo => self.within(0, Direction::Forward, pulse),
            Port::Exit | Port::Fail => self.run(1, Direction::Forward, pulse),
        }
    }

    /// From an end of the goal back to the entry before it; elsewhere one step back.
    pub fn back_over(&mut self, pulse: Pulse) -> Ended {
        match self.event().port() {
            Port::Exit | Port::Fail if !self.is_last() => self.within(0, Direction::Back, pulse),
            _ => self.run(1, Direction::Back, pulse),
        }
    }

    /// From an entry of the goal to its next end; from an end to the next end of the atom around it, or of the query where there is none.
    pub fn finish(&mut self, pulse: Pulse) -> Ended {
        let around = self.event().ancestors().position(|ancestor| matches!(ancestor, Ancestor::Atom(_)));
        match (self.event().port(), around.and_then(|above| u16::try_from(above + 1).ok())) {
            (Port::Call | Port::Redo, _) => self.over(pulse),
            (Port::Exit | Port::Fail, Some(kept)) => self.within(kept, Direction::Forward, pulse),
            (Port::Exit | Port::Fail, None) => self.finish_the_query(pulse),
        }
    }

    /// To the next answer, or to the end of the walk.
    pub fn next_answer(&mut self, pulse: Pulse) -> Ended {
        loop {
            match self.finish_the_query(pulse) {
                Ended::There if self.event().port() != Port::Exit => (),
                ended => return ended,
            }
        }
    }

    /// To the answer before, or to the first event.
    pub fn previous_answer(&mut self, pulse: Pulse) -> Ended {
        loop {
            let ended = match self.event().port() {
                Port::Call | Port::Redo if self.is_around(Half::First) => self.run(1, Direction::Back, pulse),
                _ if self.is_around(Half::Second) || self.is_last() => self.run(1, Direction::Back, pulse),
                _ => self.within(self.event().ancestor_count() - QUERY_ANCESTORS, Direction::Back, pulse),
            };
            if ended != Ended::There || (self.event().port() == Port::Exit && self.is_around(Half::First)) {
                return ended;
            }
        }
    }

    /// From inside the query to its next end; from an end of it to the one after, or to the last event of all.
    fn finish_the_query(&mut self, pulse: Pulse) -> Ended {
        loop {
            let is_entry = matches!(self.event().port(), Port::Call | Port::Redo);
            let asks_on = self.is_around(Half::Second) || (self.is_around(Half::First) && !is_entry);
            if !asks_on && !self.is_last() {
                return self.within(self.event().ancestor_count() - QUERY_ANCESTORS, Direction::Forward, pulse);
            }
            let ended = self.run(1, Direction::Forward, pulse);
            if ended != Ended::There || self.is_last() {
                return ended;
            }
        }
    }

    /// Whether the event is of 'Q, fail' itself: of Q, its first half, or of the fail that asks for another answer.
    fn is_around(&self, half: Half) -> bool {
        let mut ancestors = self.event().ancestors();
        self.event().ancestor_count() == QUERY_ANCESTORS && ancestors.next().and_then(Ancestor::half) == Some(half)
    }

    /// Whether the event is the fail of 'Q, fail', behind which there is nothing.
    fn is_last(&self) -> bool {
        self.event().ancestor_count() < QUERY_ANCESTORS
    }

    /// To the next end, or back to the entry before, of the goal that stands under all but so many of the nearest ancestors: this goal, where none is
    /// kept. A run without what is around that goal finds how far it is.
    fn within(&mut self, kept: u16, direction: Direction, pulse: Pulse) -> Ended {
        let Some(mut alone) = inside(self.event(), kept) else { return self.within_by_steps(kept, direction, pulse) };
        let mut left = MOST_STEPS;
        while left > 0 {
            let Ok(found) = self.garage.program.run(&alone, u32::try_from(PIECE.min(left)).unwrap_or(u32::MAX), direction) else {
                return self.within_by_steps(kept, direction, pulse);
            };
            let ended = self.run(u64::from(found.taken), direction, &mut |_| false);
            match found.stopped {
                _ if ended != Ended::There => return ended,
                // an event that nothing goes on from is no end of a goal that one is inside
                Some(Refusal::Match) if found.taken == 0 && left == MOST_STEPS => return self.within_by_steps(kept, direction, pulse),
                Some(Refusal::Match) => return Ended::There,
                // the event as it is is no shorter, and refused no later
                Some(_) => return self.run(1, direction, pulse),
                None => (),
            }
            alone = found.event;
            left = left.saturating_sub(u64::from(found.taken));
            if pulse(self.number()) {
                return Ended::Stopped;
            }
        }
        Ended::Spent
    }

    /// The same by single steps, where [`inside`] gives no event to run.
    fn within_by_steps(&mut self, kept: u16, direction: Direction, pulse: Pulse) -> Ended {
        let around = self.event().ancestor_count().saturating_sub(kept);
        self.until(direction, |event| event.ancestor_count() <= around, pulse)
    }

    /// Back to the exit that put a bet on, with so many bets below it: by the doors of goals that did not put it on, whose calls have it too, and into the
    /// goal that did.
    pub fn back_to_bet(&mut self, below: u16, pulse: Pulse) -> Ended {
        while self.number() > 0 {
            let has_it_from_before = match self.event().port() {
                Port::Call => false,
                Port::Fail => true,
                Port::Exit | Port::Redo => usize::from(below) < bets_below_its_own(self.garage, self.event()),
            };
            let ended = if has_it_from_before { self.door(pulse) } else { self.run(1, Direction::Back, pulse) };
            if ended != Ended::There {
                return ended;
            }
            if self.event().bet_count() <= below {
                return self.run(1, Direction::Forward, pulse);
            }
            if pulse(self.number()) {
                return Ended::Stopped;
            }
        }
        Ended::First
    }

    /// Back to the door of the goal, as the library finds it. The last event of all is no goal of the planner's: its door is the query's call.
    pub fn door(&mut self, pulse: Pulse) -> Ended {
        if self.is_last() {
            return self.go_to(0, pulse);
        }
        let mut limit = DOOR_STEPS;
        loop {
            // the door of an event on the way is another goal's, so each trial starts anew
            let mut trial = self.walk.clone();
            match trial.door(limit) {
                Err(Refusal::Limit) if pulse(self.number()) => return Ended::Stopped,
                Err(Refusal::Limit) if limit < u32::MAX => limit = limit.saturating_mul(DOOR_GROWTH),
                Err(refusal) => return Ended::Refused(refusal),
                Ok(_) => {
                    self.walk = trial;
                    return Ended::There;
                }
            }
        }
    }
}
