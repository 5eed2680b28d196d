//! Views of terms and goals: bytes that the library accepted, borrowed from what holds them.

use crate::listed::listed;
use crate::{Goal, Naming, Shown, Term};
use layout::{byte_at, goal_end, number_at, term_end, ATOM, CONJUNCTION, DISJUNCTION, EQUALITY, FAILURE, SYMBOL, TRUTH, VARIABLE};

/// A term within a record, or of a [`Term`].
///
/// ```
/// use fourport::{Query, TermKind};
/// let (query, names) = Query::from_text("", "light(bay(7), Light)")?;
/// let fourport::GoalKind::Atom(_, mut arguments) = query.goal().kind() else { panic!("an atom") };
/// let bay = arguments.next().unwrap();
/// assert_eq!(bay.shown(&names).to_string(), "bay(7)");
/// let TermKind::Symbol(name, numbers) = bay.kind() else { panic!("a symbol") };
/// assert_eq!((names.name(name), numbers.arity()), (Some("bay"), 1));
/// assert_eq!(arguments.next().unwrap().kind(), TermKind::Variable(0));
/// # Ok::<(), fourport::TextRefusal>(())
/// ```
#[derive(Clone, Copy, Debug, PartialEq, Eq, Hash)]
pub struct TermView<'a>(&'a [u8]);

/// What a term is.
#[derive(Clone, Copy, Debug, PartialEq, Eq, Hash)]
pub enum TermKind<'a> {
    /// a variable, by its number
    Variable(u16),
    /// a symbol, by its number, and its arguments; a constant has none
    Symbol(u16, Arguments<'a>),
}

/// A goal within a record, or of a [`Goal`].
///
/// ```
/// use fourport::{GoalKind, Query};
/// // the goals of a conjunction, one after the other
/// let (query, names) = Query::from_text("", "bay(Bay), sensor(Bay, _), Bay = deck(1)")?;
/// let (mut goals, mut ahead) = (Vec::new(), query.goal());
/// while let GoalKind::Conjunction(goal, rest) = ahead.kind() {
///     goals.push(goal.shown(&names).to_string());
///     ahead = rest;
/// }
/// assert_eq!(goals, ["bay(Bay)", "sensor(Bay, V1)"]);
/// assert_eq!(ahead.shown(&names).to_string(), "Bay = deck(1)");
/// # Ok::<(), fourport::TextRefusal>(())
/// ```
#[derive(Clone, Copy, Debug, PartialEq, Eq, Hash)]
pub struct GoalView<'a>(&'a [u8]);

/// What a goal is.
#[derive(Clone, Copy, Debug, PartialEq, Eq, Hash)]
pub enum GoalKind<'a> {
    /// true
    True,
    /// fail
    Fail,
    /// the left side and the right side
    Equality(TermView<'a>, TermView<'a>),
    /// the first half and the second half
    Conjunction(GoalView<'a>, GoalView<'a>),
    /// the first half and the second half
    Disjunction(GoalView<'a>, GoalView<'a>),
    /// a predicate, by its number, and the arguments
    Atom(u16, Arguments<'a>),
}

listed! {
    /// The arguments of a symbol or an atom, or the terms of a head, as an iterator.
    #[derive(PartialEq, Eq, Hash)]
    Arguments, u8, TermView<'a>, TermView::split
}

impl<'a> Arguments<'a> {
    /// How many arguments are left.
    pub fn arity(self) -> u8 {
        self.left
    }

    /// The bytes behind the last one.
    pub(crate) fn behind(mut self) -> &'a [u8] {
        self.by_ref().for_each(drop);
        self.bytes
    }
}

macro_rules! view {
    ($name:ident, $what:literal, $owned:ident, $to_owned:ident, $end:expr) => {
        impl<'a> $name<'a> {
            #[doc = concat!("The ", $what, " at the front, and the bytes behind it.")]
            pub(crate) fn split(bytes: &'a [u8]) -> ($name<'a>, &'a [u8]) {
                let end: fn(&[u8]) -> usize = $end;
                let (front, rest) = bytes.split_at(end(bytes).min(bytes.len()));
                ($name(front), rest)
            }

            #[doc = concat!("The ", $what, "'s bytes.")]
            pub fn as_bytes(self) -> &'a [u8] {
                self.0
            }

            #[doc = concat!("The ", $what, " by itself.")]
            pub fn $to_owned(self) -> $owned {
                $owned::written(self.0.to_vec())
            }

            /// Its variables as they occur, each as often as it does.
            pub fn variables(self) -> impl Iterator<Item = u16> + 'a {
                variables(self.0)
            }

            /// With its names, as text: see [`Shown`].
            pub fn shown<'n>(self, naming: &'n dyn Naming) -> Shown<'n>
            where
                'a: 'n,
            {
                Shown::new(self, naming)
            }
        }

        impl AsRef<[u8]> for $name<'_> {
            fn as_ref(&self) -> &[u8] {
                self.0
            }
        }
    };
}

view!(TermView, "term", Term, to_term, |bytes| term_end(bytes, 0));
view!(GoalView, "goal", Goal, to_goal, |bytes| goal_end(bytes, 0, |_| ()));

impl<'a> TermView<'a> {
    /// What the term is.
    pub fn kind(self) -> TermKind<'a> {
        match byte_at(self.0, 0) {
            VARIABLE => TermKind::Variable(number_at(self.0, 1)),
            _ => TermKind::Symbol(number_at(self.0, 1), applied(self.0)),
        }
    }
}

impl<'a> GoalView<'a> {
    /// What the goal is. It takes time in proportion to the first half.
    pub fn kind(self) -> GoalKind<'a> {
        let parts = self.0.get(1..).unwrap_or_default();
        match byte_at(self.0, 0) {
            TRUTH => GoalKind::True,
            FAILURE => GoalKind::Fail,
            EQUALITY => {
                let (left, rest) = TermView::split(parts);
                GoalKind::Equality(left, TermView::split(rest).0)
            }
            kind @ (CONJUNCTION | DISJUNCTION) => {
                let (left, rest) = GoalView::split(parts);
                let right = GoalView::split(rest).0;
                if kind == CONJUNCTION {
                    GoalKind::Conjunction(left, right)
                } else {
                    GoalKind::Disjunction(left, right)
                }
            }
            _ => GoalKind::Atom(number_at(self.0, 1), applied(self.0)),
        }
    }
}

/// The arguments of the symbol or atom.
fn applied(bytes: &[u8]) -> Arguments<'_> {
    Arguments::new(byte_at(bytes, 3), bytes.get(4..).unwrap_or_default())
}

/// The terms and goals of which terms or goals are made, each without its parts: these stand behind it, so no tree has to be followed.
pub(crate) fn nodes(mut bytes: &[u8]) -> impl Iterator<Item = &[u8]> + '_ {
    std::iter::from_fn(move || {
        let length = match *bytes.first()? {
            VARIABLE => 3,
            SYMBOL | ATOM => 4,
            _ => 1,
        };
        let (node, rest) = bytes.split_at(length.min(bytes.len()));
        bytes = rest;
        Some(node)
    })
}

/// The variables of the terms or goals.
fn variables(bytes: &[u8]) -> impl Iterator<Item = u16> + '_ {
    nodes(bytes).filter(|node| node.first() == Some(&VARIABLE)).map(|node| number_at(node, 1))
}
