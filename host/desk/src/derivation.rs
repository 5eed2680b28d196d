//! Which atom each body of the bets belongs to, and which clause was used. Bets lie on a stack in the order of the exits, so the goals that have exited
//! say, read from the last to the first, whose each bet is.

use crate::garage::{Garage, Predicate};
use crate::position::predicate;
use fourport::{Ancestor, Answer, Bet, Event, GoalKind, GoalView, Half, Port, Used};

/// A bet that says how a goal exited.
#[derive(Clone, Copy, Debug)]
enum Laid<'b> {
    Unifier,
    Or(Half),
    By(GoalView<'b>),
}

/// An atom that exited, or is being walked, and the body by which.
#[derive(Clone, Copy, Debug)]
pub struct Called<'b> {
    pub atom: GoalView<'b>,
    pub predicate: Predicate,
    pub body: GoalView<'b>,
    /// the clause used
    pub clause: usize,
    /// how many atoms that exited this one stands within
    pub depth: usize,
}

/// A goal whose bets come next.
#[derive(Clone, Copy)]
struct Due<'b> {
    goal: GoalView<'b>,
    depth: usize,
    /// of a body, or of what is left of it: the atom's place in the list, and the clause that it starts with
    choosing: Option<(usize, usize)>,
}

struct Reading<'g, 'b, I> {
    garage: &'g Garage,
    laid: I,
    /// whether unifiers are among them; those that gave an answer leave them out
    unifiers: bool,
    due: Vec<Due<'b>>,
    found: Vec<Called<'b>>,
}

impl<'b, I: Iterator<Item = Laid<'b>>> Reading<'_, 'b, I> {
    /// Reads the bets of a goal that exited, the last one first; nothing where they are not a walk's.
    fn read(&mut self, goal: GoalView<'b>) -> Option<()> {
        self.due.push(Due { goal, depth: 0, choosing: None });
        while let Some(due) = self.due.pop() {
            let choosing = due.choosing.filter(|&(atom, clause)| !self.is_last(atom, clause));
            match due.goal.kind() {
                GoalKind::Equality(..) if self.unifiers => {
                    let Laid::Unifier = self.laid.next()? else { return None };
                }
                GoalKind::True | GoalKind::Fail | GoalKind::Equality(..) => (),
                GoalKind::Conjunction(left, right) => self.due.extend([left, right].map(|goal| Due { goal, choosing: None, ..due })),
                GoalKind::Disjunction(left, right) => {
                    let Laid::Or(half) = self.laid.next()? else { return None };
                    self.chosen(due, choosing, half, if half == Half::First { left } else { right });
                }
                GoalKind::Atom(..) => {
                    let Laid::By(body) = self.laid.next()? else { return None };
                    self.called(due, body)?;
                }
            }
        }
        Some(())
    }

    /// Is this the last clause of the atom's predicate? Then what is left of the body is that clause.
    fn is_last(&self, atom: usize, clause: usize) -> bool {
        self.found.get(atom).is_none_or(|called| clause + 1 >= self.garage.clauses_of(called.predicate).len())
    }

    fn chosen(&mut self, due: Due<'b>, choosing: Option<(usize, usize)>, half: Half, goal: GoalView<'b>) {
        let next = choosing.filter(|_| half == Half::Second).map(|(atom, clause)| (atom, clause + 1));
        if let Some(called) = next.and_then(|(atom, _)| self.found.get_mut(atom)) {
            called.clause += 1;
        }
        self.due.push(Due { goal, choosing: next, ..due });
    }

    fn called(&mut self, due: Due<'b>, body: GoalView<'b>) -> Option<()> {
        let atom = self.found.len();
        self.found.push(Called { atom: due.goal, predicate: predicate(due.goal)?, body, clause: 0, depth: due.depth });
        self.due.push(Due { goal: body, depth: due.depth + 1, choosing: Some((atom, 0)) });
        Some(())
    }
}

/// The bets of a reached event, none read yet.
fn reading<'g, 'e>(garage: &'g Garage, event: &'e Event) -> Reading<'g, 'e, impl ExactSizeIterator<Item = Laid<'e>>> {
    let laid = event.bets().map(|bet| match bet {
        Bet::Unifier(_) => Laid::Unifier,
        Bet::Or(half) => Laid::Or(half),
        Bet::By(body) => Laid::By(body),
    });
    Reading { garage, laid, unifiers: true, due: Vec::new(), found: Vec::new() }
}

/// The atoms whose exits the bets of a reached event hold, the last one first.
pub fn exited<'e>(garage: &Garage, event: &'e Event) -> Vec<Called<'e>> {
    let mut reading = reading(garage, event);
    let own = matches!(event.port(), Port::Exit | Port::Redo).then(|| event.goal());
    let passed = event.ancestors().filter_map(|ancestor| match ancestor {
        Ancestor::Conjunction { half: Half::Second, left, .. } => Some(left),
        _ => None,
    });
    _ = own.into_iter().chain(passed).try_for_each(|goal| reading.read(goal));
    reading.found
}

/// How many bets of a reached event lie below those of its goal, where that exits or is redone.
pub fn bets_below_its_own(garage: &Garage, event: &Event) -> usize {
    let mut reading = reading(garage, event);
    _ = reading.read(event.goal());
    reading.laid.len()
}

/// The atoms that gave an answer, in the order in which they were called.
pub fn gave<'a>(garage: &'a Garage, answer: &'a Answer) -> Vec<Called<'a>> {
    let laid = answer.used.iter().rev().map(|used| match used {
        Used::Branch(half) => Laid::Or(*half),
        Used::Body(body) => Laid::By(body.view()),
    });
    let mut reading = Reading { garage, laid, unifiers: false, due: Vec::new(), found: Vec::new() };
    _ = reading.read(garage.query.goal());
    by_call(reading.found)
}

/// Atoms that are listed each before what it called, the last of these first, in the order of their calls.
fn by_call(listed: Vec<Called<'_>>) -> Vec<Called<'_>> {
    let mut within: Vec<Vec<usize>> = vec![Vec::new(); listed.len()];
    let (mut around, mut due): (Vec<usize>, Vec<usize>) = Default::default();
    for (place, called) in listed.iter().enumerate() {
        around.truncate(called.depth);
        match around.last().and_then(|&caller| within.get_mut(caller)) {
            Some(calls) => calls.push(place),
            None => due.push(place),
        }
        around.push(place);
    }
    let mut ordered = Vec::with_capacity(listed.len());
    while let Some(place) = due.pop() {
        ordered.extend(listed.get(place).copied());
        due.extend(within.get(place).into_iter().flatten());
    }
    ordered
}
