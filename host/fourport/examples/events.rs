//! events MOST: the walks of many queries, for a reader that is no Rust program.
//!
//! Standard input holds clause records, each with a query record behind it. For each pair there is a line with the canonical program, then a line per
//! event, at most MOST: port, number of ancestors, goal, and for each variable of the goal its number and value; then a line `stop` with the number
//! that ended the walk, or `cut`. Records, goals and values are in hexadecimal; all of them are the desk's own answers.

use fourport::{raw, RECORD_LIMIT, STACK};
use layout::{goal_end, number_at, record_at, split_record, EVENT_GOAL_AT, PORT_AT};
use std::collections::BTreeSet;
use std::io::{self, BufWriter, Read, Write};

fn main() -> io::Result<()> {
    let most = std::env::args().nth(1).and_then(|word| word.parse().ok()).unwrap_or(usize::MAX);
    std::thread::Builder::new().stack_size(STACK).spawn(move || walks(most))?.join().expect("the desk does not panic")
}

fn walks(most: usize) -> io::Result<()> {
    let (mut input, mut out) = (Vec::new(), BufWriter::new(io::stdout().lock()));
    io::stdin().lock().read_to_end(&mut input)?;
    let mut rest = &input[..];
    while !rest.is_empty() {
        let (clauses, behind) = split_record(rest);
        let (query, behind) = split_record(behind);
        match walk(clauses, query, most, &mut out)? {
            0 => writeln!(out, "cut")?,
            number => writeln!(out, "stop {number}")?,
        }
        rest = behind;
    }
    out.flush()
}

/// The number that ended the walk, 0 where it is cut.
fn walk(clauses: &[u8], query: &[u8], most: usize, out: &mut impl Write) -> io::Result<u32> {
    let (mut program, mut event, mut next) = (vec![0; RECORD_LIMIT], vec![0; RECORD_LIMIT], vec![0; RECORD_LIMIT]);
    let number = raw::canonical(clauses, &mut program);
    if number != 0 {
        return Ok(number);
    }
    let program = record_at(&program);
    writeln!(out, "program {}", hex(program))?;
    let mut number = raw::first(query, &mut event);
    for _ in 0..most {
        if number != 0 || !printed(record_at(&event), out)? {
            return Ok(number);
        }
        number = raw::forward(program, record_at(&event), &mut next);
        if number == 0 {
            std::mem::swap(&mut event, &mut next);
        }
    }
    Ok(number)
}

/// The event's line; false, and no line, where a value is refused.
fn printed(event: &[u8], out: &mut impl Write) -> io::Result<bool> {
    let mut variables = BTreeSet::new();
    let end = goal_end(event, EVENT_GOAL_AT, |v| _ = variables.insert(v));
    let (mut line, mut value, mut written) = (String::new(), vec![0; RECORD_LIMIT], 0);
    for v in variables {
        if raw::value(event, v, &mut value, &mut written) != 0 {
            return Ok(false);
        }
        line += &format!(" {v} {}", hex(&value[..written as usize]));
    }
    writeln!(out, "{} {} {}{line}", event[PORT_AT], number_at(event, end), hex(&event[EVENT_GOAL_AT..end]))?;
    Ok(true)
}

fn hex(bytes: &[u8]) -> String {
    bytes.iter().map(|byte| format!("{byte:02x}")).collect()
}
