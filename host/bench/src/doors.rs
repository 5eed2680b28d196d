//! The way back to a door beside a plain run back over the same steps: where no call on the way stands under as many ancestors as the door, and where
//! as many do as we know to make.

use crate::clock::least;
use crate::desk::Desk;
use crate::sizes::{ancestors, bays, bets};
use crate::walks::Walk;
use layout::{
    atom, byte_at, conjunction, disjunction, event, goal_end, half, number_at, port, record_at, variable, EVENT_GOAL_AT, FAIL, IN_CONJUNCTION,
    PORT_AT, RECORD_LIMIT as ROOM, TRUE,
};

type Bytes = Vec<u8>;

/// Of so many bays and choices the searches have some 100,000 steps.
const BAYS: u16 = 12;
const CHOICES: usize = 8;

/// So many bytes of ancestors and of bets lie below the searches. The bets bind V2, which no bay is.
const BELOW: [(usize, usize); 4] = [(0, 0), (900, 0), (9_000, 0), (0, 9_000)];
const FIRST_BAY: u16 = 10;

/// Times that each call is made.
const TIMES: u32 = 5;

/// A goal, what it is called under, and the steps from its call to its last fail.
struct Search {
    words: &'static str,
    goal: Bytes,
    under: Vec<Bytes>,
    steps: u32,
}

/// bay(V10), (bay(V11), .. fail): all that is called on the way stands under more ancestors.
fn deeper(desk: &dyn Desk) -> Search {
    let goal = (0..BAYS).rev().fold(FAIL.to_vec(), |rest, bay| conjunction(&atom(1, &[variable(FIRST_BAY + bay)]), &rest));
    let steps = Walk::of(desk, &bays(), &event(port::CALL, &goal, &[], &[]), u32::MAX).steps;
    Search { words: "a search", goal, under: vec![], steps }
}

/// G, fail with G = ((D, D), D), .. and D = true ; (true ; true): for each answer of G fail is called under as many ancestors as G. The last choice,
/// which is asked again each time, is at hand, so that there is an answer for 18 steps; no long walk that we know has more.
fn beside(desk: &dyn Desk) -> Search {
    let choice = disjunction(&TRUE, &disjunction(&TRUE, &TRUE));
    let goal = (1..CHOICES).fold(choice.clone(), |goal, _| conjunction(&goal, &choice));
    let whole = Walk::of(desk, &bays(), &event(port::CALL, &conjunction(&goal, &FAIL), &[], &[]), u32::MAX).steps;
    // less the step to the call of G, and the one from its fail
    Search { words: "a goal with an answer every few steps", under: vec![half(IN_CONJUNCTION, 1, &goal, &FAIL)], goal, steps: whole - 2 }
}

fn ancestor_count(event: &[u8]) -> u16 {
    number_at(event, goal_end(event, EVENT_GOAL_AT, |_| ()))
}

/// How many calls under as many ancestors as the first event has come after it.
fn passed(walk: &Walk, desk: &dyn Desk) -> usize {
    let (count, mut met) = (ancestor_count(&walk.first), 0);
    walk.each(desk, false, |event| met += usize::from(byte_at(event, PORT_AT) == port::CALL && ancestor_count(event) == count));
    met
}

/// Milliseconds of the door of the last event, which is the first one.
fn door(walk: &Walk, desk: &dyn Desk) -> f64 {
    let mut out = vec![0; ROOM];
    let time = least(TIMES, || assert_eq!(desk.door(&walk.program, &walk.last, u32::MAX, &mut out), (0, walk.steps)));
    assert_eq!(record_at(&out), walk.first);
    time.as_secs_f64() * 1e3
}

/// Milliseconds of a run back over as many steps.
fn run(walk: &Walk, desk: &dyn Desk) -> f64 {
    let mut out = vec![0; ROOM];
    let time = least(TIMES, || assert_eq!(desk.run(&walk.program, &walk.last, walk.steps, true, &mut out), (0, walk.steps)));
    time.as_secs_f64() * 1e3
}

fn row(search: &Search, below: (usize, usize), desk: &dyn Desk, twin: &dyn Desk) -> String {
    let first = event(port::CALL, &search.goal, &[&search.under[..], &ancestors(below.0)].concat(), &bets(below.1));
    let walk = Walk::of(desk, &bays(), &first, search.steps);
    assert_eq!(walk.steps, search.steps);
    let (door_time, run_time, twin_time) = (door(&walk, desk), run(&walk, desk), door(&walk, twin));
    let (mean, ratio) = (walk.mean_length(desk), door_time / run_time);
    let (words, steps, passed) = (search.words, walk.steps, passed(&walk, desk));
    format!("| {words} | {} | {} | {steps} | {mean:.0} | {passed} | {door_time:.1} | {run_time:.1} | {ratio:.2} | {twin_time:.1} |", below.0, below.1)
}

pub fn table(desk: &dyn Desk, twin: &dyn Desk) {
    println!("Milliseconds of the way back to a door, from the last fail of a goal, beside a run back over the same steps:\n");
    println!("| goal | ancestors below, bytes | bets below, bytes | steps | mean event, bytes | calls under as many ancestors | door | run back | door to run | twin |");
    println!("|{}", "---|".repeat(10));
    for search in [deeper(desk), beside(desk)] {
        BELOW.iter().for_each(|&below| println!("{}", row(&search, below, desk, twin)));
    }
    println!();
}
