//! The desk's services over byte slices, with an output lent by the caller: any bytes, any length. Nothing is allocated.
//!
//! The result is the number of SPECIFICATION 7, 0 for done. With any other number the output stays as it was, except after a run, a way back to a
//! door or a list of answers that 6 to 10, or 32, stopped; so do the bytes behind what is written (SPECIFICATION 7.8). A written record's length is
//! its first two bytes, big-endian, and 2.

use crate::{sys, Counts};

/// Clauses to canonical program: 0, 1 to 5, 9 or 10.
///
/// ```
/// let mut out = vec![7; 32_768];
/// assert_eq!(fourport::raw::canonical(&[0, 3, 1, 0, 0], &mut out), 0);
/// assert_eq!(out[..6], [0, 3, 1, 0, 0, 7]);
/// assert_eq!(fourport::raw::canonical(&[0, 3, 1, 0, 0], &mut out[1..]), 5);
/// ```
pub fn canonical(clauses: &[u8], out: &mut [u8]) -> u32 {
    sys::canonical(clauses, out)
}

/// A text of clauses to its clause record: 0, 20, 21, 22, 3, 5 or 10. The record stands at the start of `out`; at the start of `names` stands each
/// name behind its length of two bytes, in order of first appearance, and `named` becomes the number of these bytes: a name's place in the list, from
/// 0, is its number in the record. After a refusal `names` and `out` stay as they were, and `named` is 0.
///
/// ```
/// let (mut names, mut out, mut named) = (vec![7; 20], vec![7; 32_768], 99);
/// assert_eq!(fourport::raw::read(b"red(bay) :- true.", &mut names, &mut out, &mut named), 0);
/// assert_eq!((named, &names[..11]), (10, &b"\0\x03red\0\x03bay\x07"[..]));
/// assert_eq!(out[..15], [0, 12, 1, 0, 1, 0, 0, 1, 0, 2, 0, 1, 0, 0x10, 7]);
/// assert_eq!(fourport::raw::read(b"red(bay).", &mut names[..9], &mut out, &mut named), 22);
/// assert_eq!(named, 0);
/// ```
pub fn read(text: &[u8], names: &mut [u8], out: &mut [u8], named: &mut usize) -> u32 {
    sys::read(text, names, out, named)
}

/// A goal, read as the body of one more clause behind those of `rules`, to its query record: 0, 20, 21, 22, 3, 5 or 10. The list of names has those
/// of the rules first, so that a number means the same in the record of the rules and in that of the query. The query has no full stop. The two
/// texts together have at most 65,535 bytes. After a refusal `names` and `out` stay as they were, and `named` is 0.
///
/// ```
/// let (mut names, mut out, mut named) = (vec![7; 20], vec![7; 32_768], 99);
/// assert_eq!(fourport::raw::read_query(b"red(bay).", b"red(X)", &mut names, &mut out, &mut named), 0);
/// assert_eq!((named, &names[..11]), (10, &b"\0\x03red\0\x03bay\x07"[..]));
/// assert_eq!(out[..11], [0, 8, 1, 0x15, 0, 0, 1, 1, 0, 0, 7]);
/// assert_eq!(fourport::raw::read_query(b"red(bay).", b"red(X).", &mut names, &mut out, &mut named), 21);
/// ```
pub fn read_query(rules: &[u8], query: &[u8], names: &mut [u8], out: &mut [u8], named: &mut usize) -> u32 {
    sys::read_query(rules, query, names, out, named)
}

/// Query to first event: 0, 11 to 13, 5 or 10.
///
/// ```
/// let mut out = vec![7; 32_768];
/// assert_eq!(fourport::raw::first(&[0, 2, 1, 0x10], &mut out), 0);
/// assert_eq!(out[..10], [0, 7, 1, 1, 0x10, 0, 0, 0, 0, 7]);
/// assert_eq!(fourport::raw::first(&[], &mut out), 11);
/// ```
pub fn first(query: &[u8], out: &mut [u8]) -> u32 {
    sys::first(query, out)
}

/// One step forward: 0 to 14.
///
/// ```
/// let (program, call) = ([0, 3, 1, 0, 0], [0, 7, 1, 1, 0x10, 0, 0, 0, 0]);
/// let mut out = vec![7; 32_768];
/// assert_eq!(fourport::raw::forward(&program, &call, &mut out), 0);
/// assert_eq!(out[..10], [0, 7, 1, 2, 0x10, 0, 0, 0, 0, 7]);
/// ```
pub fn forward(program: &[u8], event: &[u8], out: &mut [u8]) -> u32 {
    sys::forward(program, event, out)
}

/// One step back: 0 to 14.
///
/// ```
/// let (program, call) = ([0, 3, 1, 0, 0], [0, 7, 1, 1, 0x10, 0, 0, 0, 0]);
/// let mut out = vec![7; 32_768];
/// assert_eq!(fourport::raw::back(&program, &call, &mut out), 6);
/// assert!(out.iter().all(|&byte| byte == 7));
/// ```
pub fn back(program: &[u8], event: &[u8], out: &mut [u8]) -> u32 {
    sys::back(program, event, out)
}

/// A run, forward where `back` is 0, else back: 0 to 14. The event reached is written, also where 6 to 10 stopped the run; `taken` becomes the steps
/// taken, 0 where nothing is written.
///
/// ```
/// let (program, call) = ([0, 3, 1, 0, 0], [0, 7, 1, 1, 0x10, 0, 0, 0, 0]);
/// let (mut out, mut taken) = (vec![7; 32_768], 99);
/// assert_eq!(fourport::raw::run(&program, &call, u32::MAX, 0, &mut out, &mut taken), 6);
/// assert_eq!((taken, out[3]), (1, 2));
/// ```
pub fn run(program: &[u8], event: &[u8], steps: u32, back: u8, out: &mut [u8], taken: &mut u32) -> u32 {
    sys::run(program, event, steps, back, out, taken)
}

/// Back to the door of an event: 0 to 14, or 32. The event come to is written, also where 7 to 10 or 32 stopped the way back; `taken` becomes the
/// steps taken, 0 where nothing is written (SPECIFICATION 8.13).
///
/// ```
/// // redo true, the first half of `true, fail`: its call is four steps back, beyond the call of fail
/// let (program, redo) = ([0, 3, 1, 0, 0], [0, 11, 1, 4, 0x10, 0, 1, 0x30, 1, 0x10, 0x11, 0, 0]);
/// let (mut out, mut taken) = (vec![7; 32_768], 99);
/// assert_eq!(fourport::raw::door(&program, &redo, 3, &mut out, &mut taken), 32);
/// assert_eq!((taken, out[3]), (3, 2));
/// assert_eq!(fourport::raw::door(&program, &redo, 4, &mut out, &mut taken), 0);
/// assert_eq!((taken, out[3]), (4, 1));
/// ```
pub fn door(program: &[u8], event: &[u8], limit: u32, out: &mut [u8], taken: &mut u32) -> u32 {
    sys::door(program, event, limit, out, taken)
}

/// Every answer of a query within so many steps: 0 to 13. The answers (SPECIFICATION 8.12) are written one behind the other, those before a refused
/// one too; `written` becomes the number of their bytes and `taken` the steps taken, both 0 where 1 to 5 or 11 to 13 refuse, or 10 the first event of
/// 'Q, fail'.
///
/// ```
/// let (program, query) = ([0, 3, 1, 0, 0], [0, 9, 1, 0x12, 1, 0, 0, 2, 0, 2, 0]);
/// let (mut out, mut written, mut taken) = (vec![7; 32_768], 99, 99);
/// // V0 = a has one answer: one variable, which is a, and no branch or body
/// assert_eq!(fourport::raw::answers(&program, &query, 100, &mut out, &mut written, &mut taken), 6);
/// assert_eq!((written, taken, &out[..11]), (10, 7, &[0, 1, 0, 0, 2, 0, 2, 0, 0, 0, 7][..]));
/// ```
pub fn answers(program: &[u8], query: &[u8], steps: u32, out: &mut [u8], written: &mut usize, taken: &mut u32) -> u32 {
    sys::answers(program, query, steps, out, written, taken)
}

/// S(v) as bare term bytes: 0, 11 to 14, 5 or 8. `written` becomes their number, 0 after a refusal.
///
/// ```
/// let call = [0, 7, 1, 1, 0x10, 0, 0, 0, 0];
/// let (mut out, mut written) = (vec![7; 32_768], 99);
/// assert_eq!(fourport::raw::value(&call, 258, &mut out, &mut written), 0);
/// assert_eq!((written, &out[..4]), (3, &[1, 1, 2, 7][..]));
/// ```
pub fn value(event: &[u8], v: u16, out: &mut [u8], written: &mut u32) -> u32 {
    sys::value(event, v, out, written)
}

/// The definition of the predicate that the event's goal names: the length of the part, and in `at` its place in the program. Both are 0 where a
/// record is refused, where the goal is not an atom, and where the program does not define its predicate, and nowhere else (SPECIFICATION 8.7).
///
/// ```
/// let (program, event) = ([0, 8, 1, 0, 1, 0, 5, 0, 0, 0x10], [0, 10, 1, 1, 0x15, 0, 5, 0, 0, 0, 0, 0]);
/// let mut at = 99;
/// assert_eq!(fourport::raw::lookup(&program, &event, &mut at), 5);
/// assert_eq!(program[at..], [0, 5, 0, 0, 0x10]);
/// ```
pub fn lookup(program: &[u8], event: &[u8], at: &mut usize) -> usize {
    sys::lookup(program, event, at)
}

/// The greatest variable of an event, and the first of bets (1), goal (2) and ancestors (3) that holds it. Answers 0, or 11 to 14; `part` and
/// `greatest` are both 0 after a refusal, and where the event has no variable.
///
/// ```
/// // call V4 = V9, under no ancestors, with the unifier V9/a
/// let call = [0, 22, 1, 1, 0x12, 1, 0, 4, 1, 0, 9, 0, 0, 0, 1, 0x20, 0, 1, 0, 9, 2, 0, 1, 0];
/// let (mut part, mut greatest) = (99, 99);
/// assert_eq!(fourport::raw::greatest(&call, &mut part, &mut greatest), 0);
/// assert_eq!((part, greatest), (1, 9));
/// ```
pub fn greatest(event: &[u8], part: &mut u32, greatest: &mut u32) -> u32 {
    sys::greatest(event, part, greatest)
}

/// Adds the event's port to the counts: 0, or 11 to 14 and the counts stay.
///
/// ```
/// let mut counts = fourport::Counts::default();
/// assert_eq!(fourport::raw::count(&mut counts, &[0, 7, 1, 2, 0x10, 0, 0, 0, 0]), 0);
/// assert_eq!(fourport::raw::count(&mut counts, &[0, 7, 1, 2, 0x10, 0, 0, 0]), 11);
/// assert_eq!(counts.exit, 1);
/// ```
pub fn count(counts: &mut Counts, event: &[u8]) -> u32 {
    sys::count(counts, event)
}
