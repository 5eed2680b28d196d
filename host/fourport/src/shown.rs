//! Records with names, in the form that the reader reads: what is printed of clauses and goals that were read from text is read back as the same
//! record and the same names.

use crate::names::Numbers;
use crate::printer::{Ahead, Loosest, Printer, Variables};
use crate::{Ancestor, Answer, Bet, Clause, Clauses, Definition, Event, Goal, GoalView, Half, Naming, Program, Query, Term, TermView};
use std::fmt;

/// Something with its names, as text.
///
/// Variables of a walk have the names that the query gave them, others are `V` and their number, with underscores between where the query has such a
/// name itself; in clauses and definitions all are `V` and their number. A number that has no name is `n` and that number, likewise. An event shows
/// its port and its goal; with `{:#}` it shows its ancestors and bets below, top first, each ancestor with the half that it is asked for, and each
/// unifier as a goal. A [`Naming`] of one's own gives other names, or values in place of variables; `Display` of the things themselves has no names.
///
/// ```
/// use fourport::{Clauses, Event, Query};
/// let rules = "light(Bay, red) :- taken(Bay) ; reserved(Bay). taken(bay1).";
/// let (clauses, names) = Clauses::from_text(rules)?;
/// assert_eq!(clauses.shown(&names).to_string(), "light(V0, red) :- taken(V0) ; reserved(V0).\ntaken(bay1).");
///
/// let (query, names) = Query::from_text(rules, "light(bay1, Light)")?;
/// let program = clauses.canonical()?;
/// let mut walk = program.walk(Event::first(&query)?);
/// assert_eq!(walk.event().shown(&names).to_string(), "call light(bay1, Light)");
/// walk.forwards().take(6).for_each(drop);
/// assert_eq!(walk.event().shown(&names).to_string(), "exit Light = red");
/// assert_eq!(
///     format!("{:#}", walk.event().shown(&names)),
///     "exit Light = red\n  under 1 of Light = red, (taken(V1) ; reserved(V1))\n  under 2 of bay1 = V1, Light = red, (taken(V1) ; reserved(V1))\n  \
///      under light(bay1, Light)\n  bet Light = red\n  bet V1 = bay1"
/// );
/// # Ok::<(), Box<dyn std::error::Error>>(())
/// ```
#[derive(Clone, Copy)]
pub struct Shown<'a> {
    what: What<'a>,
    naming: &'a dyn Naming,
}

#[derive(Clone, Copy, Debug)]
pub(crate) enum What<'a> {
    Term(TermView<'a>),
    Goal(GoalView<'a>),
    Clauses(&'a Clauses),
    Clause(Clause<'a>),
    Program(&'a Program),
    Definition(Definition<'a>),
    Event(&'a Event),
    Ancestor(Ancestor<'a>),
    Bet(Bet<'a>),
    Answer(&'a Answer),
}

macro_rules! whats {
    ($($what:ident $type:ty;)*) => {
        $(impl<'a> From<$type> for What<'a> {
            fn from(what: $type) -> What<'a> {
                What::$what(what)
            }
        })*
    };
}

whats! {
    Term TermView<'a>;
    Goal GoalView<'a>;
    Clauses &'a Clauses;
    Clause Clause<'a>;
    Program &'a Program;
    Definition Definition<'a>;
    Event &'a Event;
    Ancestor Ancestor<'a>;
    Bet Bet<'a>;
    Answer &'a Answer;
}

macro_rules! shown {
    ($($type:ty, $what:expr;)*) => {
        $(impl $type {
            /// With its names, as text: see [`Shown`].
            pub fn shown<'a>(&'a self, naming: &'a dyn Naming) -> Shown<'a> {
                let what: fn(&'a $type) -> _ = $what;
                Shown::new(what(self), naming)
            }
        })*
    };
}

shown! {
    Term, |term| term.view();
    Goal, |goal| goal.view();
    Query, |query| query.goal();
    Clauses, |clauses| clauses;
    Program, |program| program;
    Event, |event| event;
    Answer, |answer| answer;
}

macro_rules! displayed {
    ($($type:ty),*) => {
        /// Without names: names are `n` and their number, variables `V` and theirs. See [`Shown`].
        $(impl fmt::Display for $type {
            fn fmt(&self, f: &mut fmt::Formatter<'_>) -> fmt::Result {
                self.shown(&Numbers).fmt(f)
            }
        })*
    };
}

displayed!(Term, TermView<'_>, Goal, GoalView<'_>, Query, Clauses, Clause<'_>, Program, Definition<'_>, Event, Ancestor<'_>, Bet<'_>, Answer);

impl fmt::Debug for Shown<'_> {
    fn fmt(&self, f: &mut fmt::Formatter<'_>) -> fmt::Result {
        f.debug_tuple("Shown").field(&self.what).finish()
    }
}

impl fmt::Display for Shown<'_> {
    fn fmt(&self, f: &mut fmt::Formatter<'_>) -> fmt::Result {
        match self.what {
            What::Term(term) => self.term(f, term),
            What::Goal(goal) => self.goal(f, goal, Loosest::Disjunction),
            What::Clauses(clauses) => self.lines(f, clauses.iter()),
            What::Program(program) => self.lines(f, program.definitions()),
            What::Clause(clause) => self.printer(clause.as_bytes(), Variables::Numbered).clause(f),
            What::Definition(definition) => self.printer(definition.as_bytes(), Variables::Numbered).definition(f),
            What::Event(event) => self.event(f, event),
            What::Ancestor(ancestor) => self.ancestor(f, ancestor),
            What::Bet(bet) => self.bet(f, bet),
            What::Answer(answer) => self.equalities(f, answer.values.iter().map(|(variable, term)| (*variable, term.view()))),
        }
    }
}

impl<'a> Shown<'a> {
    pub(crate) fn new(what: impl Into<What<'a>>, naming: &'a dyn Naming) -> Shown<'a> {
        Shown { what: what.into(), naming }
    }

    fn printer<'b>(&'b self, bytes: &'b [u8], variables: Variables) -> Printer<'b> {
        Printer { bytes, at: 0, naming: self.naming, variables }
    }

    fn term(&self, f: &mut fmt::Formatter<'_>, term: TermView<'_>) -> fmt::Result {
        self.printer(term.as_bytes(), Variables::Valued).print(f, Ahead::Term)
    }

    fn goal(&self, f: &mut fmt::Formatter<'_>, goal: GoalView<'_>, loosest: Loosest) -> fmt::Result {
        self.printer(goal.as_bytes(), Variables::Valued).print(f, Ahead::Goal(loosest))
    }

    /// A line for each.
    fn lines<T: Into<What<'a>>>(&self, f: &mut fmt::Formatter<'_>, all: impl Iterator<Item = T>) -> fmt::Result {
        for (i, one) in all.enumerate() {
            f.write_str(if i == 0 { "" } else { "\n" })?;
            fmt::Display::fmt(&Shown::new(one, self.naming), f)?;
        }
        Ok(())
    }

    fn event(&self, f: &mut fmt::Formatter<'_>, event: &Event) -> fmt::Result {
        write!(f, "{} ", event.port())?;
        self.goal(f, event.goal(), Loosest::Disjunction)?;
        if !f.alternate() {
            return Ok(());
        }
        for ancestor in event.ancestors() {
            f.write_str("\n  under ")?;
            self.ancestor(f, ancestor)?;
        }
        for bet in event.bets() {
            f.write_str("\n  bet ")?;
            self.bet(f, bet)?;
        }
        Ok(())
    }

    /// An atom; or a conjunction or disjunction, with the number of the half that is asked for.
    fn ancestor(&self, f: &mut fmt::Formatter<'_>, ancestor: Ancestor<'_>) -> fmt::Result {
        use Loosest::{Conjunction, Disjunction, Primary};
        let (half, parts, between) = match ancestor {
            Ancestor::Atom(atom) => return self.goal(f, atom, Disjunction),
            Ancestor::Conjunction { half, left, right } => (half, [(left, Primary), (right, Conjunction)], ", "),
            Ancestor::Disjunction { half, left, right } => (half, [(left, Conjunction), (right, Disjunction)], " ; "),
        };
        write!(f, "{half} of ")?;
        let [(left, loosest), (right, loosest_right)] = parts;
        self.goal(f, left, loosest)?;
        f.write_str(between)?;
        self.goal(f, right, loosest_right)
    }

    fn bet(&self, f: &mut fmt::Formatter<'_>, bet: Bet<'_>) -> fmt::Result {
        match bet {
            Bet::Unifier(pairs) => self.equalities(f, pairs),
            Bet::Or(half) => write!(f, "or {half}"),
            Bet::By(goal) => {
                f.write_str("by ")?;
                self.goal(f, goal, Loosest::Disjunction)
            }
        }
    }

    /// An equality for each variable, which is shown by name; true where there is none.
    fn equalities<'b>(&self, f: &mut fmt::Formatter<'_>, pairs: impl ExactSizeIterator<Item = (u16, TermView<'b>)>) -> fmt::Result {
        if pairs.len() == 0 {
            return f.write_str("true");
        }
        for (i, (variable, term)) in pairs.enumerate() {
            f.write_str(if i == 0 { "" } else { ", " })?;
            write!(f, "{} = ", self.naming.variable(variable))?;
            self.term(f, term)?;
        }
        Ok(())
    }
}

/// 1 or 2.
impl fmt::Display for Half {
    fn fmt(&self, f: &mut fmt::Formatter<'_>) -> fmt::Result {
        write!(f, "{}", *self as u8)
    }
}
