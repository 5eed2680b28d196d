//! The last question 7 (SPECIFICATION 7.7): what a step back gives steps forward to the event, and where the two rules that compare
//! refuse, what they would have given does not.

use std::fs;
use std::path::PathBuf;
use twin::records::event::{Change, Move};
use twin::records::{reader, Ancestor, Bet, GoalShape, Port, Program};
use twin::rules::{step, Direction::Back, Direction::Forward};

/// The candidate of the two rules that compare: call P for call B under P, call T1=T2 for exit T1=T2 with a unifier on S.
fn candidate(record: &[u8]) -> Option<Change> {
    let event = reader::event(record).ok()?;
    match (event.port, event.goal.shape(), event.ancestors.top(), event.bets.top()) {
        (Port::Call, _, Some(Ancestor::Atom(p)), _) => Some(Change { port: Port::Call, goal: p.clone(), ancestors: Move::Drop, bets: Move::Keep }),
        (Port::Exit, GoalShape::Equality(..), _, Some(Bet::Unifier(_))) => {
            Some(Change { port: Port::Call, goal: event.goal.clone(), ancestors: Move::Keep, bets: Move::Drop })
        }
        _ => None,
    }
}

/// Whether the step back was accepted, and whether it was refused by the last 7 alone.
fn checked(program: &Program, record: &[u8]) -> (bool, bool) {
    let (Ok(given), Ok(mut event)) = (reader::event(record), reader::event(record)) else { return (false, false) };
    match step(Back, program, &mut event) {
        Ok(()) => {
            step(Forward, program, &mut event).expect("a source steps forward");
            assert!(event.same(&given));
            (true, false)
        }
        Err(refusal) => {
            let Some(change) = candidate(record) else { return (false, false) };
            event.apply(change);
            let arrives = step(Forward, program, &mut event).is_ok() && event.same(&given);
            assert!(!arrives, "refused by {}", refusal.0);
            (false, refusal.0 == 7)
        }
    }
}

#[test]
fn sources_step_forward() {
    let path = PathBuf::from(env!("CARGO_MANIFEST_DIR")).join("../../crates/stepper_cases/stdin");
    let input = fs::read(path).expect("the stored cases");
    let (mut at, mut accepted, mut last) = (0, 0, 0);
    while at < input.len() {
        let kind = input[at];
        at += 1;
        let fields = match kind {
            b'q' | b'l' | b'c' => 2,
            b'f' | b'b' | b'w' => 3,
            _ => 4,
        };
        let mut parts = Vec::new();
        for _ in 0..fields {
            let length = input[at..at + 4].iter().fold(0, |sum, &byte| sum << 8 | usize::from(byte));
            parts.push(&input[at + 4..at + 4 + length]);
            at += 4 + length;
        }
        if let (b'f' | b'b' | b'r' | b's', Ok(program)) = (kind, reader::program(parts[0])) {
            let (yes, seven) = checked(&program, parts[1]);
            accepted += u32::from(yes);
            last += u32::from(seven);
        }
    }
    println!("{accepted} steps back accepted, {last} refused by the last question 7");
    assert!(accepted > 0 && last > 0);
}
