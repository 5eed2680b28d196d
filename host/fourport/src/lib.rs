//! The rule desk for Rust: safe calls into its proved archive (`host/archive` makes it).
//!
//! The desk walks a query through pure Prolog clauses, one port event after another (call, exit, fail, redo), forward and back. Every answer is the
//! proved code's; this crate lends it memory and gives its numbers names.
//!
//! - [`Clauses::from_text`] and [`Query::from_text`] read what a partner types. [`Names`] has the names that belong to the numbers of a record, `shown` of
//!   each type gives its text again ([`Shown`]), and a [`TextRefusal`] says where a text is refused, and why.
//! - [`Clauses`], [`Program`], [`Query`] and [`Event`] hold the bytes of a record that passed the gate's questions 1 to 4, so a program cannot be
//!   lent as an event and what is lent later is never refused as a record.
//! - [`Event::goal`], [`Event::ancestors`], [`Event::bets`], [`Program::definitions`] and [`Clauses::iter`] look into a record without copying it:
//!   [`GoalView::kind`] and [`TermView::kind`] say what a goal or a term is made of. [`Event::value`] and [`Event::goal_value`] have what the bets make
//!   of a variable and of the goal.
//! - [`Walk`] stands at an event and steps forward and back from there: one step, many, to an event that is looked for, back to the door of its goal,
//!   back to where a variable was bound.
//! - [`Answers`] gives every answer of a query, with the branches and bodies that gave it.
//! - [`Refusal`] is a no to one of the questions; its [`number`](Refusal::number) is the specification's.
//! - [`raw`] is the same over byte slices with an output lent by the caller: any bytes, any length, no allocation.
//!
//! ```
//! use fourport::{Clauses, Event, Port, Query, Refusal};
//!
//! // which light has bay 1?
//! let rules = "
//!     taken(bay1).
//!     light(Bay, red) :- taken(Bay).
//!     light(Bay, green) :- free(Bay).
//! ";
//! let (query, names) = Query::from_text(rules, "light(bay1, Light)")?;
//! let program = Clauses::from_text(rules)?.0.canonical()?;
//! let mut walk = program.walk(Event::first(&query)?);
//!
//! assert_eq!(walk.forwards().count(), 19);
//! assert_eq!((walk.stopped(), walk.event().port()), (Some(Refusal::Walk), Port::Exit));
//! let answer = walk.event().value(0)?;
//! assert_eq!(answer.shown(&names).to_string(), "red");
//!
//! // back to event 7, where the light was chosen, and on again
//! assert_eq!(walk.backs().take(12).count(), 12);
//! assert_eq!((walk.net(), walk.event().shown(&names).to_string()), (7, "exit Light = red".into()));
//! assert_eq!(walk.forwards().count(), 12);
//! # Ok::<(), Box<dyn std::error::Error>>(())
//! ```
//!
//! # Records
//! The desk keeps nothing between calls: what it is lent and what it writes are records. A record is a row of 3 to 32,768 bytes: a length field of two
//! bytes, high byte first, that says how many stand behind it; the version, 1; and a body. There are four kinds of body, and nothing in a record says
//! which it has: whoever lends it knows.
//!
//! | kind | body | made by |
//! |---|---|---|
//! | [`Clauses`] | the clauses of a text, in its order | [`Clauses::from_text`] |
//! | [`Program`] | one definition for each predicate, its clauses joined | [`Clauses::canonical`] |
//! | [`Query`] | a goal | [`Query::from_text`] |
//! | [`Event`] | a port, a goal, its ancestors and the bets | [`Event::first`], and each step from the event before or behind it |
//!
//! A record has numbers for names: [`Names`] has those that belong to them. It may be kept or sent as bytes (`as_bytes`, `into_bytes`), and `from_bytes`
//! or `try_from` puts the questions to them again; [`split_record`] cuts the first record off a buffer. Equal records are equal bytes.
//! `docs/SPECIFICATION.md`, section 1, has every byte.
//!
//! Keep beside events that are stored: the text of the rules and the text of the query, since no record has names and [`Names`] has no bytes of its
//! own, and the number of the event if it matters, since a walk that is made at a stored event counts from 0. Both texts read again give the same
//! program, query and names. The crate `layout`, on which this one stands, lays records out for the repository's own crates; to make terms, goals and
//! programs of your own, read them from text.
//!
//! # Stack
//! The desk recurses on nested terms. The deepest calls that we know need 1,128 KiB of native stack; a thread of [`STACK`] bytes has enough. The main thread of a
//! Linux program usually has 8 MiB, Rust's other threads 2 MiB unless asked for more. A call that runs out of stack ends the process.
//!
//! # Panics
//! Nothing in this crate panics, on any input. (An allocator that fails ends the process, as everywhere in Rust.)
#![deny(missing_docs)]
#![deny(unsafe_op_in_unsafe_fn)]
#![deny(unsafe_code)]

mod answers;
mod clauses;
mod comments;
mod counts;
mod definition;
mod event;
mod goal_value;
mod listed;
mod misplaced;
mod names;
mod printer;
mod program;
mod query;
pub mod raw;
mod record;
mod refusal;
mod scanner;
mod shown;
mod signs;
mod stacks;
mod stop;
#[allow(unsafe_code)]
mod sys;
mod terms;
mod text;
mod text_refusal;
mod tokens;
mod views;
mod walk;
mod ways;

pub use answers::{Answer, Answers, Used, ANSWERS_ROOM};
pub use clauses::{Clause, Clauses};
pub use comments::without_comments;
pub use counts::Counts;
pub use definition::Definition;
pub use event::{Event, Part, Port};
pub use names::{Names, Naming};
pub use program::{Direction, Program, Run};
pub use query::Query;
pub use record::split_record;
pub use refusal::{Refusal, Which};
pub use shown::Shown;
pub use stacks::{Ancestor, Ancestors, Bet, Bets, Half, Pairs};
pub use stop::Stop;
pub use terms::{Goal, Term};
pub use text::{NAMES_LIMIT, TEXT_LIMIT};
pub use text_refusal::{Place, TextRefusal, WhichText};
pub use tokens::{tokens, Token, TokenKind};
pub use views::{Arguments, GoalKind, GoalView, TermKind, TermView};
pub use walk::{Backs, Forwards, Walk};

/// The longest record, and the least output that question 5 lets pass.
pub const RECORD_LIMIT: usize = layout::RECORD_LIMIT;

/// Native stack, in bytes, that is enough for any call.
///
/// ```
/// let answer = std::thread::Builder::new().stack_size(fourport::STACK).spawn(|| {
///     let mut out = vec![0; fourport::RECORD_LIMIT];
///     fourport::raw::first(&[0, 2, 1, 0x10], &mut out)
/// });
/// assert_eq!(answer.unwrap().join().unwrap(), 0);
/// ```
pub const STACK: usize = 4 << 20;
