//! Names of a walk's variables: those of the query as it names them, and the locals of a body by the names in their clause, with their numbers.

use crate::derivation::{exited, Called};
use crate::garage::{Garage, Predicate};
use crate::outline::ClauseOutline;
use crate::position::predicate;
use fourport::{Ancestor, Event, GoalKind, GoalView, Names, Naming, Term};
use layout::{number_at, term_end, ATOM, SYMBOL, VARIABLE};
use std::borrow::Cow;
use std::collections::HashMap;

/// The locals of a body: numbers from `first` on.
#[derive(Clone, Copy, Debug, PartialEq, Eq, PartialOrd, Ord)]
struct Locals {
    first: u16,
    predicate: Predicate,
}

/// The body that an atom is walked by: a goal, or the two halves of one.
#[derive(Clone, Copy)]
enum Body<'b> {
    Whole(GoalView<'b>),
    Halves(GoalView<'b>, GoalView<'b>),
}

/// How the numbers of an event, or of an answer, are shown.
pub struct EventNames<'g> {
    garage: &'g Garage,
    /// by rising number: the locals of two bodies do not overlap, since locals are new
    locals: Vec<Locals>,
    values: HashMap<u16, Term>,
}

impl<'g> EventNames<'g> {
    /// Of an event: the bodies that are being walked, and those that bets hold.
    pub fn of(garage: &'g Garage, event: &Event) -> EventNames<'g> {
        let walked = walked(event).into_iter().filter_map(|(atom, body)| locals(garage, predicate(atom)?, body));
        EventNames::new(garage, walked.chain(locals_of(garage, &exited(garage, event))).collect())
    }

    /// Of an answer, by the atoms that gave it.
    pub fn of_answer(garage: &'g Garage, gave: &[Called<'_>]) -> EventNames<'g> {
        EventNames::new(garage, locals_of(garage, gave).collect())
    }

    fn new(garage: &'g Garage, mut locals: Vec<Locals>) -> EventNames<'g> {
        locals.sort_unstable();
        EventNames { garage, locals, values: HashMap::new() }
    }

    /// From now on the variables of a goal are shown by their values. One whose value the library refuses keeps its name.
    pub fn add_values(&mut self, event: &Event, goal: GoalView<'_>) {
        let mut unknown: Vec<u16> = goal.variables().filter(|variable| !self.values.contains_key(variable)).collect();
        unknown.sort_unstable();
        unknown.dedup();
        unknown.retain(|variable| event.is_bound(*variable));
        self.values.extend(unknown.into_iter().filter_map(|variable| Some((variable, event.value(variable).ok()?))));
    }

    /// Where the locals of the body of the nearest atom that is being walked start.
    pub fn nearest_locals(garage: &Garage, event: &Event) -> Option<u16> {
        let (atom, body) = walked(event).into_iter().next()?;
        locals(garage, predicate(atom)?, body).map(|locals| locals.first)
    }

    /// The name of a local in its clause.
    fn local(&self, variable: u16) -> Option<&'g str> {
        let place = self.locals.partition_point(|locals| locals.first <= variable).checked_sub(1)?;
        let locals = self.locals.get(place)?;
        let mut left = usize::from(variable - locals.first);
        for &clause in self.garage.clauses_of(locals.predicate) {
            let variables = &self.garage.outlines.get(clause)?.variables;
            match variables.get(left) {
                Some(variable) => return Some(&variable.name),
                None => left -= variables.len(),
            }
        }
        None
    }
}

impl Naming for EventNames<'_> {
    fn name(&self, number: u16) -> Cow<'_, str> {
        Naming::name(&self.garage.names, number)
    }

    fn variable(&self, number: u16) -> Cow<'_, str> {
        let of_query = number < self.garage.variables;
        let lone = of_query && self.garage.names.variable(number).is_none();
        match if lone { Some("_") } else { self.local(number).filter(|_| !of_query) } {
            Some(name) => Cow::Owned(format!("{}{}{number}", if name == "_" { "" } else { name }, self.garage.parting)),
            None => Naming::variable(&self.garage.names, number),
        }
    }

    fn value(&self, variable: u16) -> Option<&Term> {
        self.values.get(&variable)
    }
}

/// What stands between a local's name and its number: as many underscores as it takes for query and clauses to have no such name.
pub fn parting(names: &Names, variables: u16, outlines: &[ClauseOutline]) -> String {
    let clashes = |parting: &str, name: &str| {
        let front = name.trim_end_matches(|letter: char| letter.is_ascii_digit());
        front.len() < name.len() && front.ends_with(parting)
    };
    let mut parting = String::from("_");
    let of_clauses = || outlines.iter().flat_map(|outline| &outline.variables).map(|variable| variable.name.as_str());
    while (0..variables).filter_map(|number| names.variable(number)).chain(of_clauses()).any(|name| clashes(&parting, name)) {
        parting.push('_');
    }
    parting
}

fn locals_of<'c>(garage: &'c Garage, called: &'c [Called<'_>]) -> impl Iterator<Item = Locals> + 'c {
    called.iter().filter_map(|called| locals(garage, called.predicate, Body::Whole(called.body)))
}

/// The atoms that are being walked, the nearest first, each with its body: what stands directly above it.
fn walked(event: &Event) -> Vec<(GoalView<'_>, Body<'_>)> {
    let mut above = Body::Whole(event.goal());
    let mut found = Vec::new();
    for ancestor in event.ancestors() {
        above = match ancestor {
            Ancestor::Atom(atom) => {
                found.push((atom, above));
                Body::Whole(atom)
            }
            Ancestor::Conjunction { left, right, .. } | Ancestor::Disjunction { left, right, .. } => Body::Halves(left, right),
        };
    }
    found
}

/// The locals of a body, by the first of them that its definition has.
fn locals(garage: &Garage, predicate: Predicate, body: Body<'_>) -> Option<Locals> {
    let goal = garage.goal_with_locals(predicate)?;
    let arity = u16::from(predicate.1);
    let (local, variable) = match (goal.kind(), body) {
        (GoalKind::Conjunction(a, b) | GoalKind::Disjunction(a, b), Body::Halves(left, right)) => {
            first_local(a.as_bytes(), left.as_bytes(), arity).or_else(|| first_local(b.as_bytes(), right.as_bytes(), arity))?
        }
        (_, Body::Whole(body)) => first_local(goal.as_bytes(), body.as_bytes(), arity)?,
        _ => return None,
    };
    Some(Locals { first: variable.checked_sub(local)?, predicate })
}

/// The bytes of a variable; and of a symbol or an atom without its arguments: kind, number, arity.
const VARIABLE_BYTES: usize = 3;
const NAMED_BYTES: usize = 4;

/// The first local in the definition, counted from 0, and the variable that stands in its place in the body. Parts stand behind what they are parts of, in
/// both alike, so that both are read once from front to back.
fn first_local(mut definition: &[u8], mut body: &[u8], arity: u16) -> Option<(u16, u16)> {
    loop {
        let (here, there) = match *definition.first()? {
            VARIABLE => match number_at(definition, 1).checked_sub(arity) {
                Some(local) => return Some((local, number_at(body, 1))),
                None => (VARIABLE_BYTES, term_end(body, 0)),
            },
            SYMBOL | ATOM => (NAMED_BYTES, NAMED_BYTES),
            _ => (1, 1),
        };
        (definition, body) = (definition.get(here..)?, body.get(there..)?);
    }
}
