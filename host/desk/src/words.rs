//! Events and bets in words.

use crate::derivation::exited;
use crate::garage::Garage;
use crate::naming::EventNames;
use crate::position::Position;
use crate::short::short;
use fourport::{Ancestor, Bet, Event, GoalKind, Naming, Pairs, Port};

/// The deepest rule for which a line of a walk is moved further to the right.
const MOST_INDENT: usize = 20;

/// The column at which a line says where its goal stands, if it is not longer.
const PLACE_COLUMN: usize = 56;

impl Garage {
    /// Is the event an exit of the query itself?
    pub fn is_answer(&self, event: &Event) -> bool {
        event.port() == Port::Exit && event.ancestor_count() == 1 && Position::of(self, event) == Position::Query(Vec::new())
    }

    /// Is the goal of an event one that somebody typed? Clauses, heads and the `true` of a fact are not, and of what was typed conjunctions and
    /// disjunctions are left to their parts.
    pub fn is_goal(&self, event: &Event) -> bool {
        let typed = match Position::of(self, event) {
            Position::Query(_) => true,
            Position::Body(of, clause, _) => self.clause(of, clause).is_some_and(|outline| outline.body.is_some()),
            _ => false,
        };
        typed && !matches!(event.goal().kind(), GoalKind::Conjunction(..) | GoalKind::Disjunction(..))
    }

    /// The rules that an event stands in: its ancestors that are atoms.
    pub fn depth(&self, event: &Event) -> usize {
        event.ancestors().filter(|ancestor| matches!(ancestor, Ancestor::Atom(_))).count()
    }

    /// One line of a walk: the number, the port, the goal, where it stands, and what there is to say of it.
    pub fn event_line(&self, number: u64, event: &Event) -> String {
        let position = Position::of(self, event);
        let indent = "  ".repeat(self.depth(event).min(MOST_INDENT));
        let event_shown = format!("{number:>6} {indent}{:<4} {}", event.port().to_string(), self.goal_shown(event, &position));
        let at = self.at(&position).unwrap_or_default();
        let note = self.note(event).map(|note| format!("  {note}")).unwrap_or_default();
        format!("{event_shown:<PLACE_COLUMN$} {at}{note}").trim_end().into()
    }

    /// Where the goal of a position stands, as `rules.pl:14`.
    pub fn at(&self, position: &Position) -> Option<String> {
        position.span(self).map(|(source, span)| source.at(span.from))
    }

    /// What there is to say of an event beside its goal: an answer, what an equality has bound, that the walk has ended.
    pub fn note(&self, event: &Event) -> Option<String> {
        let names = || EventNames::of(self, event);
        if self.is_answer(event) {
            let listed: Vec<String> = self.query_values(event, &names()).iter().map(|(name, value)| format!("{name} = {value}")).collect();
            return Some(if listed.is_empty() { "an answer".into() } else { format!("an answer: {}", listed.join(", ")) });
        }
        match (event.port(), event.goal().kind(), event.bets().next()) {
            (Port::Exit, GoalKind::Equality(..), Some(Bet::Unifier(pairs))) => bound(pairs, &names()).map(|bound| format!("binds {bound}")),
            (Port::Fail, ..) if event.ancestor_count() == 0 => Some("there are no more answers".into()),
            _ => None,
        }
    }

    /// The goal of an event with its values; of what is no goal of a text, what it is.
    pub fn goal_shown(&self, event: &Event, position: &Position) -> String {
        let goal = event.goal();
        let with_values = || {
            let mut names = EventNames::of(self, event);
            names.add_values(event, goal);
            short(goal.shown(&names))
        };
        match *position {
            Position::Around if matches!(goal.kind(), GoalKind::Fail) => "fail: another answer is asked for".into(),
            Position::Around => "the query".into(),
            Position::Clauses(of, clause) => format!("clauses {} to {} of {}", clause + 1, self.clauses_of(of).len(), self.shown_predicate(of)),
            Position::Head(of, clause, 0) => format!("clause {} of {}", clause + 1, self.shown_predicate(of)),
            Position::Head(of, clause, argument) => {
                format!("clause {} of {} from argument {} on", clause + 1, self.shown_predicate(of), argument + 1)
            }
            Position::Argument(_, _, argument) => format!("argument {}: {}", argument + 1, with_values()),
            Position::Query(_) | Position::Body(..) => with_values(),
        }
    }

    /// The bets of an event, the last one first: what was bound, which half was taken, by which clause an atom exited.
    pub fn bets_shown(&self, event: &Event) -> Vec<String> {
        let (names, mut exits) = (EventNames::of(self, event), exited(self, event).into_iter());
        let mut shown = |bet| match bet {
            Bet::Unifier(pairs) => bound(pairs, &names).map_or("nothing was to be bound".into(), |bound| format!("binds {bound}")),
            Bet::Or(half) => format!("half {} of a disjunction", half as u8),
            Bet::By(body) => match exits.next() {
                Some(called) => {
                    let at = self.clause_at(called.predicate, called.clause).unwrap_or_default();
                    format!("{} by clause {}   {at}", short(called.atom.shown(&names)), called.clause + 1)
                }
                None => format!("an exit by {}", short(body.shown(&names))),
            },
        };
        event.bets().map(&mut shown).collect()
    }
}

/// The pairs of a unifier; nothing where there are none.
fn bound(pairs: Pairs<'_>, names: &EventNames<'_>) -> Option<String> {
    let listed: Vec<String> = pairs.map(|(variable, term)| format!("{} = {}", names.variable(variable), short(term.shown(names)))).collect();
    (!listed.is_empty()).then(|| listed.join(", "))
}
