//! A session: where one stands, the breaks, and the way back to where commands were given.

use super::binding::bets_below_the_binding;
use super::breaks::{Break, Breaks};
use super::command::Command;
use super::help;
use super::moves::{Ended, Pulse, Stand, MOST_STEPS};
use super::questions;
use super::reply::Reply;
use crate::diagnostic::refusal_words;
use crate::garage::Garage;
use crate::portrait::Portrait;
use crate::short::short;
use crate::status::grouped;
use fourport::{Direction, Port, Refusal};

/// The whole state of `desk step`. What is shown of an event depends on none of it but the event and its number.
#[derive(Debug)]
pub struct Session<'g> {
    garage: &'g Garage,
    stand: Stand<'g>,
    breaks: Breaks,
    /// the numbers of the events where moving commands were given
    trail: Vec<u64>,
}

impl<'g> Session<'g> {
    fn new(garage: &'g Garage) -> Session<'g> {
        Session { garage, stand: Stand::new(garage), breaks: Breaks::default(), trail: Vec::new() }
    }

    /// A session that starts at another event than the first; in words where the walk does not come so far.
    pub fn start_at(garage: &'g Garage, number: u64) -> (Session<'g>, Option<String>) {
        let mut session = Session::new(garage);
        let ended = session.stand.go_to(number, &mut |_| false);
        let words = session.words(ended);
        (session, words)
    }

    /// What is shown of the event where one stands.
    pub fn portrait(&self) -> Portrait {
        self.garage.portrait(self.stand.number(), self.stand.event())
    }

    /// A typed line, for an output of so many columns.
    pub fn obey_line(&mut self, line: &str, columns: usize, pulse: Pulse) -> Reply {
        match Command::read(line) {
            Ok(command) => self.obey(&command, columns, pulse),
            Err(words) => Reply::misunderstood(words),
        }
    }

    pub fn obey(&mut self, command: &Command, columns: usize, pulse: Pulse) -> Reply {
        match command {
            Command::Undo => self.undo(pulse),
            Command::Why(name) => self.why(name, pulse),
            Command::Break { predicate, ports } => self.set_break(predicate, ports),
            Command::Delete(predicate) => self.delete(predicate.as_deref()),
            Command::Breaks if self.breaks.is_empty() => Reply::said("there are no breaks"),
            Command::Breaks => Reply::listed(self.breaks.lines()),
            Command::Print(name) => questions::print(self.garage, &self.portrait(), self.stand.event(), name.as_deref()),
            Command::Where => questions::ancestors(self.garage, self.stand.event()),
            Command::Bets => questions::bets(self.garage, self.stand.event()),
            Command::List => questions::clause(self.garage, self.stand.event(), columns),
            Command::Screen => Reply::screen(),
            Command::Help(entry) => Reply::listed(help::lines(*entry)),
            Command::Quit => Reply::quit(),
            _ => self.moved(|session| session.go(command, pulse)),
        }
    }

    /// A move, whose start is kept for undo where it led away from it.
    fn moved(&mut self, go: impl FnOnce(&mut Self) -> Option<String>) -> Reply {
        let before = self.stand.number();
        let words = go(self);
        let moved = self.stand.number() != before;
        if moved {
            self.trail.push(before);
        }
        Reply::of_a_move(words, moved)
    }

    /// Makes a move and says what is to be said of its end.
    fn go(&mut self, command: &Command, pulse: Pulse) -> Option<String> {
        let (garage, stand) = (self.garage, &mut self.stand);
        let ended = match command {
            Command::Step(steps) | Command::Run(Some(steps)) => stand.run(*steps, Direction::Forward, pulse),
            Command::Back(steps) | Command::Reverse(Some(steps)) => stand.run(*steps, Direction::Back, pulse),
            Command::Goal => stand.until(Direction::Forward, |event| garage.is_goal(event), pulse),
            Command::GoalBack => stand.until(Direction::Back, |event| garage.is_goal(event), pulse),
            Command::Next => stand.over(pulse),
            Command::Previous => stand.back_over(pulse),
            Command::Finish => stand.finish(pulse),
            Command::Door => stand.door(pulse),
            Command::Goto(number) => stand.go_to(*number, pulse),
            Command::NextAnswer => stand.next_answer(pulse),
            Command::PreviousAnswer => stand.previous_answer(pulse),
            Command::Run(None) => return self.run_to_break(Direction::Forward, pulse),
            Command::Reverse(None) => return self.run_to_break(Direction::Back, pulse),
            _ => Ended::There,
        };
        match (command, ended) {
            (Command::NextAnswer, Ended::Refused(Refusal::Walk)) => Some("there is no other answer: the walk ends here (question 6)".into()),
            (Command::PreviousAnswer, Ended::First) => Some("there is no answer before: this is the first event".into()),
            (_, ended) => self.words(ended),
        }
    }

    fn run_to_break(&mut self, direction: Direction, pulse: Pulse) -> Option<String> {
        let (stand, breaks) = (&mut self.stand, &self.breaks);
        if !breaks.is_empty() {
            let ended = stand.until(direction, |event| breaks.met(event).is_some(), pulse);
            let met = breaks.met(stand.event()).filter(|_| ended == Ended::There);
            return met.map(|met| format!("break: {}", met.line())).or_else(|| self.words(ended));
        }
        // no event has to be looked at
        match (direction, stand.run(MOST_STEPS, direction, pulse)) {
            (_, Ended::There) => self.words(Ended::Spent),
            (_, ended) => self.words(ended),
        }
    }

    /// What is said where a move ended before or behind the place that was asked for.
    fn words(&self, ended: Ended) -> Option<String> {
        let number = grouped(self.stand.number());
        Some(match ended {
            Ended::There => return None,
            Ended::First => "this is the first event".into(),
            Ended::Refused(Refusal::Walk) => "the walk ends here (question 6): there is no other answer".into(),
            Ended::Refused(refusal) => format!("the walk cannot go on from here (question {}): {}", refusal.number(), refusal_words(refusal)),
            Ended::Spent => format!("stopped at event {number} after {} steps", grouped(MOST_STEPS)),
            Ended::Stopped => format!("stopped at event {number}"),
        })
    }

    fn undo(&mut self, pulse: Pulse) -> Reply {
        let Some(number) = self.trail.pop() else { return Reply::said("there is nothing to undo") };
        let ended = self.stand.go_to(number, pulse);
        if ended == Ended::Stopped {
            self.trail.push(number);
        }
        Reply::of_a_move(self.words(ended), true)
    }

    fn why(&mut self, name: &str, pulse: Pulse) -> Reply {
        let Some(variable) = self.garage.variable_named(self.stand.event(), name) else {
            return questions::no_variable(&self.portrait(), name);
        };
        let Some(below) = bets_below_the_binding(self.stand.event(), variable) else {
            return Reply::said(format!("{name} has no value here"));
        };
        self.moved(|session| {
            let ended = session.stand.back_to_bet(below, pulse);
            if ended != Ended::There {
                return session.words(ended);
            }
            let value = short(session.garage.value_shown(session.stand.event(), variable));
            let portrait = session.portrait();
            // the goal itself stands on the screen
            let by = portrait.clause.map_or(portrait.goal, |clause| clause.title);
            Some(format!("{name} = {value} since this event, by {by}"))
        })
    }

    fn set_break(&mut self, predicate: &str, ports: &[Port]) -> Reply {
        match self.garage.predicate_named(predicate) {
            Err(words) => Reply::misunderstood(words),
            Ok((number, arity)) => {
                let new = Break { predicate: number, arity, name: self.garage.shown_predicate((number, arity)), ports: ports.to_vec() };
                let words = format!("break at {}", new.line());
                self.breaks.set(new);
                Reply::said(words)
            }
        }
    }

    fn delete(&mut self, predicate: Option<&str>) -> Reply {
        let Some(predicate) = predicate else {
            self.breaks.clear();
            return Reply::said("there are no breaks");
        };
        match self.garage.predicate_named(predicate) {
            Err(words) => Reply::misunderstood(words),
            Ok(number) if self.breaks.delete(number) => Reply::said(format!("no break at {predicate}")),
            Ok(_) => Reply::said(format!("there was no break at {predicate}")),
        }
    }
}
