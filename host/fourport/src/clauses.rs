//! Clause records, and each clause of one.

use crate::record::record_type;
use crate::{raw, Arguments, GoalView, Naming, Program, Refusal, Shown};
use layout::{byte_at, clause_end, number_at, ARITY_AT, BODY_AT, HEAD_AT, LIST_AT, PREDICATE_AT, VARIABLE_COUNT_AT};

record_type! {
    /// A clause record that passed questions 1 to 4.
    ///
    /// ```
    /// use fourport::Clauses;
    /// // one clause: the fact p
    /// let clauses = Clauses::from_bytes([0, 8, 1, 0, 1, 0, 5, 0, 0, 0x10])?;
    /// assert_eq!(clauses.canonical()?.as_bytes(), [0, 8, 1, 0, 1, 0, 5, 0, 0, 0x10]);
    /// # Ok::<(), fourport::Refusal>(())
    /// ```
    Clauses,
    /// The record, if it passes questions 1 to 4. They are put by the canonical form itself; that it may be too large is no matter here.
    ///
    /// ```
    /// use fourport::{Clauses, Refusal, Which};
    /// assert_eq!(Clauses::from_bytes([0, 3, 1, 0, 1]), Err(Refusal::Grammar(Which::Program)));
    /// ```
    puts: raw::canonical
}

impl Clauses {
    /// The canonical program of the clauses; refused by [`Refusal::Locals`] or [`Refusal::Fit`] only.
    ///
    /// ```
    /// # use fourport::Clauses;
    /// let none = Clauses::from_bytes([0, 3, 1, 0, 0])?;
    /// assert_eq!(none.canonical()?.as_bytes(), [0, 3, 1, 0, 0]);
    /// # Ok::<(), fourport::Refusal>(())
    /// ```
    pub fn canonical(&self) -> Result<Program, Refusal> {
        Program::canonical(self)
    }

    /// The clauses as they stand.
    ///
    /// ```
    /// # use fourport::Clauses;
    /// let (clauses, names) = Clauses::from_text("taken(bay1). light(Bay, red) :- taken(Bay).")?;
    /// let heads: Vec<_> = clauses.iter().map(|clause| (names.name(clause.predicate()), clause.arity())).collect();
    /// assert_eq!(heads, [(Some("taken"), 1), (Some("light"), 2)]);
    /// # Ok::<(), fourport::TextRefusal>(())
    /// ```
    pub fn iter(&self) -> impl Iterator<Item = Clause<'_>> {
        let mut at = LIST_AT;
        (0..number_at(&self.0, BODY_AT)).map(move |_| {
            let from = at;
            at = clause_end(&self.0, from);
            Clause(self.0.get(from..at).unwrap_or_default())
        })
    }

    /// A record that the desk wrote.
    pub(crate) fn written(bytes: Vec<u8>) -> Clauses {
        Clauses(bytes)
    }
}

/// A clause of a clause record. Its variables are numbered from 0, apart from those of other clauses.
///
/// ```
/// # use fourport::Clauses;
/// let (clauses, names) = Clauses::from_text("light(Bay, red) :- taken(Bay), lit(_).")?;
/// let clause = clauses.iter().next().unwrap();
/// let head: Vec<String> = clause.head().map(|term| term.shown(&names).to_string()).collect();
/// assert_eq!((head.join(" "), clause.variable_count()), ("V0 red".into(), 2));
/// assert_eq!(clause.body().shown(&names).to_string(), "taken(V0), lit(V1)");
/// assert_eq!(clause.shown(&names).to_string(), "light(V0, red) :- taken(V0), lit(V1).");
/// # Ok::<(), fourport::TextRefusal>(())
/// ```
#[derive(Clone, Copy, Debug, PartialEq, Eq, Hash)]
pub struct Clause<'a>(&'a [u8]);

impl<'a> Clause<'a> {
    /// The clause's bytes: predicate, arity, number of variables, head terms, body.
    pub fn as_bytes(self) -> &'a [u8] {
        self.0
    }

    /// The predicate's number.
    pub fn predicate(self) -> u16 {
        number_at(self.0, PREDICATE_AT)
    }

    /// The number of terms in the head.
    pub fn arity(self) -> u8 {
        byte_at(self.0, ARITY_AT)
    }

    /// How many variables the clause has.
    pub fn variable_count(self) -> u8 {
        byte_at(self.0, VARIABLE_COUNT_AT)
    }

    /// The terms of the head.
    pub fn head(self) -> Arguments<'a> {
        Arguments::new(self.arity(), self.0.get(HEAD_AT..).unwrap_or_default())
    }

    /// The body; a fact has the body true.
    pub fn body(self) -> GoalView<'a> {
        GoalView::split(self.head().behind()).0
    }

    /// With its names, as text: see [`Shown`].
    pub fn shown<'n>(self, naming: &'n dyn Naming) -> Shown<'n>
    where
        'a: 'n,
    {
        Shown::new(self, naming)
    }
}
