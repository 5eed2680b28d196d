//! The walk program's text: a line per event, then "stop" and the number.

use crate::gate::{second, Question, Refusal, RECORD_LIMIT};
use crate::records::{reader, Event, Port};
use crate::rules::{step, Direction};
use crate::services::first_event;

const MOST_STEPS: u32 = 100_000;

/// What the walk program prints for this standard input.
pub fn walk(input: &[u8]) -> String {
    let mut text = String::new();
    let number = match walked(input, &mut text) {
        Ok(()) => 0,
        Err(Refusal(number)) => number,
    };
    text + &format!("stop {number}\n")
}

fn walked(input: &[u8], text: &mut String) -> Result<(), Refusal> {
    let (program, rest) = record(input)?;
    let program = reader::program(program)?;
    let (query, _) = second(record(rest))?;
    let mut event = first_event(query, RECORD_LIMIT)?;
    print(text, 0, &event);
    for taken in 1..=MOST_STEPS {
        step(Direction::Forward, &program, &mut event)?;
        print(text, taken, &event);
    }
    Ok(())
}

/// The record at the start of the input, and what stands behind it. Question 1 refuses a record that the input does not hold whole, and one whose
/// length field says more than 32,766 (SPECIFICATION 8.10).
fn record(input: &[u8]) -> Result<(&[u8], &[u8]), Question> {
    let field = input.get(..2).ok_or(Question::Frame)?;
    let length = 2 + usize::from(field[0]) * 256 + usize::from(field[1]);
    if length > RECORD_LIMIT || length > input.len() {
        return Err(Question::Frame);
    }
    Ok(input.split_at(length))
}

fn print(text: &mut String, taken: u32, event: &Event) {
    let port = match event.port {
        Port::Call => "call",
        Port::Exit => "exit",
        Port::Fail => "fail",
        Port::Redo => "redo",
    };
    text.push_str(&format!("{taken} {port} {} {}\n", event.ancestors.count(), event.bets.count()));
}
