//! Terms and goals by themselves: bytes without length or version, that the desk wrote or accepted.

use crate::{raw, GoalView, Refusal, TermView};

/// A term that stands by itself.
///
/// ```
/// use fourport::{Refusal, Term, Which};
/// let term = Term::try_from(vec![2, 0, 6, 1, 1, 0, 4])?;
/// assert_eq!(term.to_string(), "n6(V4)");
/// assert_eq!(term.into_bytes(), [2, 0, 6, 1, 1, 0, 4]);
/// // cut short, and one behind the other
/// assert_eq!(Term::try_from(vec![2, 0, 6, 1]), Err(Refusal::Grammar(Which::Event)));
/// assert_eq!(Term::try_from(vec![1, 0, 4, 1, 0, 4]), Err(Refusal::Grammar(Which::Event)));
/// # Ok::<(), Refusal>(())
/// ```
#[derive(Clone, Debug, PartialEq, Eq, Hash)]
pub struct Term(Vec<u8>);

/// A goal that stands by itself.
///
/// ```
/// use fourport::{Goal, Refusal, Which};
/// let goal = Goal::try_from(&[0x13, 0x10, 0x11][..])?;
/// assert_eq!(goal.to_string(), "true, fail");
/// assert_eq!(Goal::try_from(vec![0x13, 0x10]), Err(Refusal::Grammar(Which::Event)));
/// # Ok::<(), Refusal>(())
/// ```
#[derive(Clone, Debug, PartialEq, Eq, Hash)]
pub struct Goal(Vec<u8>);

macro_rules! part_type {
    ($name:ident, $what:literal, $view:ident, $goal:expr) => {
        impl $name {
            #[doc = concat!("A ", $what, " of what the desk wrote.")]
            pub(crate) fn written(bytes: Vec<u8>) -> $name {
                $name(bytes)
            }

            #[doc = concat!("The ", $what, "'s bytes.")]
            pub fn as_bytes(&self) -> &[u8] {
                &self.0
            }

            #[doc = concat!("The ", $what, "'s bytes, without a copy.")]
            pub fn into_bytes(self) -> Vec<u8> {
                self.0
            }

            #[doc = concat!("The ", $what, ", to be looked into.")]
            pub fn view(&self) -> $view<'_> {
                $view::split(&self.0).0
            }
        }

        impl AsRef<[u8]> for $name {
            fn as_ref(&self) -> &[u8] {
                &self.0
            }
        }

        #[doc = concat!("The ", $what, ", if the desk accepts a query that holds it: refused by 11 or 13 only.")]
        impl TryFrom<Vec<u8>> for $name {
            type Error = Refusal;

            fn try_from(bytes: Vec<u8>) -> Result<$name, Refusal> {
                let goal: fn(&[u8]) -> Vec<u8> = $goal;
                crate::record::passed(raw::first, &layout::record(&goal(&bytes)))?;
                Ok($name(bytes))
            }
        }

        impl TryFrom<&[u8]> for $name {
            type Error = Refusal;

            fn try_from(bytes: &[u8]) -> Result<$name, Refusal> {
                $name::try_from(bytes.to_vec())
            }
        }
    };
}

// what stands before the term ends by itself, so that the rest is one term exactly where the whole is one goal
part_type!(Term, "term", TermView, |term| layout::equality(&layout::constant(0), term));
part_type!(Goal, "goal", GoalView, |goal| goal.to_vec());
