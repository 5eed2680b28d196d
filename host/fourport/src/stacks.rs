//! Views of an event's two stacks: its ancestors and its bets.

use crate::listed::listed;
use crate::{GoalView, Naming, Shown, TermView};
use layout::{bet_end, byte_at, number_at, IN_CONJUNCTION, IN_DISJUNCTION, OR, UNIFIER};

/// A half of a conjunction or disjunction.
#[derive(Clone, Copy, Debug, PartialEq, Eq, Hash)]
pub enum Half {
    /// the left one
    First = 1,
    /// the right one
    Second = 2,
}

/// A goal that an event stands under.
#[derive(Clone, Copy, Debug, PartialEq, Eq, Hash)]
pub enum Ancestor<'a> {
    /// an atom whose body is being walked
    Atom(GoalView<'a>),
    /// a conjunction
    Conjunction {
        /// the half that is being walked
        half: Half,
        /// the first half
        left: GoalView<'a>,
        /// the second half
        right: GoalView<'a>,
    },
    /// a disjunction
    Disjunction {
        /// the half that is being walked
        half: Half,
        /// the first half
        left: GoalView<'a>,
        /// the second half
        right: GoalView<'a>,
    },
}

/// What an exit leaves behind, so that a redo can take it back.
#[derive(Clone, Copy, Debug, PartialEq, Eq, Hash)]
pub enum Bet<'a> {
    /// an equality exited with these pairs
    Unifier(Pairs<'a>),
    /// a disjunction exited by this half
    Or(Half),
    /// an atom exited by this body
    By(GoalView<'a>),
}

listed! {
    /// The ancestors of an event, the topmost one first: see [`Event::ancestors`](crate::Event::ancestors).
    Ancestors, u16, Ancestor<'a>, Ancestor::split
}

listed! {
    /// The bets of an event, the topmost one first: see [`Event::bets`](crate::Event::bets).
    Bets, u16, Bet<'a>, Bet::split
}

listed! {
    /// The pairs of a unifier: each variable that it binds, by rising number, and the term.
    #[derive(PartialEq, Eq, Hash)]
    Pairs, u16, (u16, TermView<'a>), pair
}

impl<'a> Ancestors<'a> {
    /// The bytes behind the last one.
    pub(crate) fn behind(mut self) -> &'a [u8] {
        self.by_ref().for_each(drop);
        self.bytes
    }
}

fn pair(bytes: &[u8]) -> ((u16, TermView<'_>), &[u8]) {
    let (term, rest) = TermView::split(bytes.get(2..).unwrap_or_default());
    ((number_at(bytes, 0), term), rest)
}

impl Half {
    /// The half that a tag means.
    pub(crate) fn of(tag: u8) -> Half {
        if tag == Half::First as u8 {
            Half::First
        } else {
            Half::Second
        }
    }
}

impl<'a> Ancestor<'a> {
    fn split(bytes: &'a [u8]) -> (Ancestor<'a>, &'a [u8]) {
        let kind = byte_at(bytes, 0);
        if kind != IN_CONJUNCTION && kind != IN_DISJUNCTION {
            let (atom, rest) = GoalView::split(bytes);
            return (Ancestor::Atom(atom), rest);
        }
        let half = Half::of(byte_at(bytes, 1));
        let (left, rest) = GoalView::split(bytes.get(2..).unwrap_or_default());
        let (right, rest) = GoalView::split(rest);
        let ancestor = if kind == IN_CONJUNCTION { Ancestor::Conjunction { half, left, right } } else { Ancestor::Disjunction { half, left, right } };
        (ancestor, rest)
    }

    /// The half that is being walked; nothing for an atom.
    ///
    /// ```
    /// # use fourport::{Event, Half};
    /// // redo true, the first half of `true, fail`
    /// let event = Event::from_bytes([0, 11, 1, 4, 0x10, 0, 1, 0x30, 1, 0x10, 0x11, 0, 0])?;
    /// let ancestor = event.ancestors().next().unwrap();
    /// assert_eq!((ancestor.half(), ancestor.to_string()), (Some(Half::First), "1 of true, fail".into()));
    /// # Ok::<(), fourport::Refusal>(())
    /// ```
    pub fn half(self) -> Option<Half> {
        match self {
            Ancestor::Atom(_) => None,
            Ancestor::Conjunction { half, .. } | Ancestor::Disjunction { half, .. } => Some(half),
        }
    }

    /// With its names, as text: see [`Shown`].
    pub fn shown<'n>(self, naming: &'n dyn Naming) -> Shown<'n>
    where
        'a: 'n,
    {
        Shown::new(self, naming)
    }
}

impl<'a> Bet<'a> {
    fn split(bytes: &'a [u8]) -> (Bet<'a>, &'a [u8]) {
        let (bet, rest) = bytes.split_at(bet_end(bytes, 0).min(bytes.len()));
        let bet = match byte_at(bet, 0) {
            UNIFIER => Bet::Unifier(Pairs::new(number_at(bet, 1), bet.get(3..).unwrap_or_default())),
            OR => Bet::Or(Half::of(byte_at(bet, 1))),
            _ => Bet::By(GoalView::split(bet.get(1..).unwrap_or_default()).0),
        };
        (bet, rest)
    }

    /// With its names, as text: see [`Shown`].
    pub fn shown<'n>(self, naming: &'n dyn Naming) -> Shown<'n>
    where
        'a: 'n,
    {
        Shown::new(self, naming)
    }
}
