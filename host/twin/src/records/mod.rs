//! What a record is: trees, their reader with questions 1 to 4, their writer. Kinds and places are stated here a second time on purpose: the twin
//! shares no line with the code, host code too, that it is held against.

pub mod ancestors;
pub mod bets;
pub mod event;
pub mod goal;
pub mod program;
pub mod reader;
pub mod term;
pub mod writer;

pub use ancestors::{Ancestor, Ancestors};
pub use bets::{Bet, Bets, Unifier};
pub use event::{Event, Port};
pub use goal::{Goal, GoalRef, GoalShape, Half};
pub use program::{Clause, Definition, Program};
pub use term::{Shape, Term, TermRef};
