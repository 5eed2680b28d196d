//! Where an event stands: in which clause, or in the query, and at which goal of it.

use crate::garage::{Garage, Predicate};
use crate::source::{Source, Span};
use fourport::{Ancestor, Event, GoalKind, GoalView, Half};

/// What the goal of an event is a part of.
#[derive(Clone, Debug, PartialEq, Eq)]
pub enum Position {
    /// a goal of the query
    Query(Vec<Half>),
    /// 'Q, fail' as a whole, or its fail
    Around,
    /// the clauses of a predicate from one on: none of them is chosen yet
    Clauses(Predicate, usize),
    /// the head's arguments from one on, and the body
    Head(Predicate, usize, usize),
    /// the equality of one argument
    Argument(Predicate, usize, usize),
    /// a goal of the body
    Body(Predicate, usize, Vec<Half>),
}

/// The predicate of an atom.
pub fn predicate(goal: GoalView<'_>) -> Option<Predicate> {
    match goal.kind() {
        GoalKind::Atom(predicate, arguments) => Some((predicate, arguments.arity())),
        _ => None,
    }
}

impl Position {
    /// The position of an event's goal.
    pub fn of(garage: &Garage, event: &Event) -> Position {
        Position::under(garage, event, 0)
    }

    /// The position of what stands under all ancestors but the nearest `passed`: of the event's goal with none, of the nearest ancestor with one, and so on.
    pub fn under(garage: &Garage, event: &Event, passed: usize) -> Position {
        let mut halves = Vec::new();
        for ancestor in event.ancestors().skip(passed) {
            match ancestor {
                Ancestor::Atom(atom) => {
                    halves.reverse();
                    return predicate(atom).map_or(Position::Around, |called| within(garage, called, &halves));
                }
                Ancestor::Conjunction { half, .. } | Ancestor::Disjunction { half, .. } => halves.push(half),
            }
        }
        halves.reverse();
        match halves.split_first() {
            Some((Half::First, rest)) => Position::Query(rest.to_vec()),
            _ => Position::Around,
        }
    }

    /// The clause that has been chosen, or the first of those that are left.
    pub fn clause(&self) -> Option<(Predicate, usize)> {
        match *self {
            Position::Clauses(of, clause) | Position::Head(of, clause, _) | Position::Argument(of, clause, _) | Position::Body(of, clause, _) => {
                Some((of, clause))
            }
            Position::Query(_) | Position::Around => None,
        }
    }

    /// The clause that has been chosen.
    pub fn chosen(&self) -> Option<(Predicate, usize)> {
        if matches!(self, Position::Clauses(..)) {
            None
        } else {
            self.clause()
        }
    }

    /// The text that the goal stands in, and where.
    pub fn span<'g>(&self, garage: &'g Garage) -> Option<(&'g Source, Span)> {
        if let Position::Query(path) = self {
            return Some((&garage.asked, garage.goals.part(path)?));
        }
        let (of, clause) = self.clause()?;
        let outline = garage.clause(of, clause)?;
        let span = match self {
            Position::Argument(_, _, argument) => *outline.arguments.get(*argument)?,
            Position::Head(_, _, argument) if *argument > 0 => {
                Span { from: outline.arguments.get(*argument)?.from, to: outline.arguments.last()?.to }
            }
            Position::Body(_, _, path) => outline.body.as_ref().map_or(Some(outline.span), |body| body.part(path))?,
            _ => outline.span,
        };
        Some((&garage.rules, span))
    }
}

/// The position that halves lead to in the body of a predicate: through the disjunction of its clauses, the equalities of the head, the clause's body.
fn within(garage: &Garage, called: Predicate, halves: &[Half]) -> Position {
    let last = garage.clauses_of(called).len().saturating_sub(1);
    let passed = halves.iter().take(last).take_while(|half| **half == Half::Second).count();
    let mut rest = halves.get(passed..).unwrap_or_default();
    if passed < last {
        match rest.split_first() {
            Some((_, behind)) => rest = behind,
            None => return Position::Clauses(called, passed),
        }
    }
    let arity = usize::from(called.1);
    let arguments = rest.iter().take(arity).take_while(|half| **half == Half::Second).count();
    match rest.get(arguments..) {
        Some([_, ..]) if arguments < arity => Position::Argument(called, passed, arguments),
        Some([]) if arguments < arity => Position::Head(called, passed, arguments),
        behind => Position::Body(called, passed, behind.unwrap_or_default().to_vec()),
    }
}
