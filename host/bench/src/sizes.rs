//! Nanoseconds a step against the length of the event, and against a copy of the same bytes: one small search over stacks of any size.

use crate::clock::nanoseconds;
use crate::desk::Desk;
use crate::walks::Walk;
use layout::{
    atom, by, conjunction, constant, definition, disjunction, equality, event, half, or, program, unifier, variable, FAIL, IN_CONJUNCTION,
    IN_DISJUNCTION, RECORD_LIMIT as ROOM, TRUE,
};
use std::hint::black_box;

/// The mean length of the search's events where nothing is below them.
const MEAN_BARE: usize = 83;
const LENGTHS: [usize; 6] = [100, 300, 1_000, 3_000, 10_000, 30_000];

type Bytes = Vec<u8>;

/// V = a and V = b.
fn halves(v: u16) -> [Bytes; 2] {
    [0, 1].map(|symbol| equality(&variable(v), &constant(symbol)))
}

/// bay(V) :- V = a ; V = b.
pub fn bays() -> Bytes {
    let [first, second] = halves(0);
    program(&[definition(1, 1, 0, &disjunction(&first, &second))])
}

/// bay(V0), (bay(V1), fail).
fn search() -> Bytes {
    conjunction(&atom(1, &[variable(0)]), &conjunction(&atom(1, &[variable(1)]), &FAIL))
}

/// What a call of bay leaves among the ancestors, as often as it fits.
pub fn ancestors(room: usize) -> Vec<Bytes> {
    let [first, second] = halves(2);
    let call = atom(1, &[variable(2)]);
    filled(&[half(IN_DISJUNCTION, 2, &first, &second), call.clone(), half(IN_CONJUNCTION, 1, &call, &TRUE)], room)
}

/// What it leaves among the bets.
pub fn bets(room: usize) -> Vec<Bytes> {
    let [first, second] = halves(2);
    filled(&[by(&disjunction(&first, &second)), or(1), unifier(&[(2, constant(0))])], room)
}

fn filled(parts: &[Bytes], room: usize) -> Vec<Bytes> {
    let mut left = room;
    parts.iter().cycle().take_while(|part| left.checked_sub(part.len()).map(|rest| left = rest).is_some()).cloned().collect()
}

/// The search above stacks that fill so many bytes, half of them ancestors: so many times forward and back, for a profile.
pub fn repeated(desk: &dyn Desk, length: usize, times: usize) {
    let steps = Walk::of(desk, &bays(), &event(1, &search(), &[], &[]), u32::MAX).steps;
    let room = length.saturating_sub(MEAN_BARE) / 2;
    let walk = Walk::of(desk, &bays(), &event(1, &search(), &ancestors(room), &bets(room)), steps);
    (0..times).for_each(|_| walk.there_and_back(desk));
}

/// Nanoseconds a step of the search above these stacks, forward and back, and the mean length of an event.
fn measured(desk: &dyn Desk, steps: u32, ancestors: &[Bytes], bets: &[Bytes]) -> [f64; 3] {
    let walk = Walk::of(desk, &bays(), &event(1, &search(), ancestors, bets), steps);
    assert_eq!(walk.steps, steps);
    [walk.run(desk, false), walk.run(desk, true), walk.mean_length(desk)]
}

/// Nanoseconds to copy so many bytes.
fn copied(length: usize) -> f64 {
    let (from, mut to) = (vec![7u8; ROOM], vec![0u8; ROOM]);
    nanoseconds(|| black_box(&mut to[..length]).copy_from_slice(black_box(&from[..length])))
}

pub fn table(desk: &dyn Desk) {
    let bare = Walk::of(desk, &bays(), &event(1, &search(), &[], &[]), u32::MAX);
    println!("Nanoseconds a step through `run` ({} steps of a small search above stacks of any length), and of a copy of the event:\n", bare.steps);
    println!("| mean event, bytes | ancestors below: forward | back | bets below: forward | back | copy | forward in copies |");
    println!("|{}", "---|".repeat(7));
    for length in LENGTHS {
        let room = length.saturating_sub(MEAN_BARE);
        let under_ancestors = measured(desk, bare.steps, &ancestors(room), &[]);
        let over_bets = measured(desk, bare.steps, &[], &bets(room));
        let copy = copied(length);
        let [[a, b, mean], [c, d, _]] = [under_ancestors, over_bets];
        println!("| {mean:.0} | {a:.0} | {b:.0} | {c:.0} | {d:.0} | {copy:.1} | {:.0} |", a / copy);
    }
    println!();
}
