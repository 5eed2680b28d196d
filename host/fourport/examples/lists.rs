//! lists STEPS: the answers of many queries, for a reader that is no Rust program.
//!
//! Standard input holds clause records, each with a query record behind it. For each pair there is a line per answer that the desk gives within STEPS
//! steps: the number and the value of each variable of the query; then a line `stop` with the number that ended the list, 6 where it is whole. Values
//! are in hexadecimal.

use fourport::{Answer, Clauses, Query, STACK};
use layout::split_record;
use std::error::Error;
use std::io::{self, BufWriter, Read, Write};

type Done = Result<(), Box<dyn Error + Send + Sync>>;

fn main() -> Done {
    let steps = std::env::args().nth(1).and_then(|word| word.parse().ok()).unwrap_or(u32::MAX);
    std::thread::Builder::new().stack_size(STACK).spawn(move || lists(steps))?.join().expect("the desk does not panic")
}

fn lists(steps: u32) -> Done {
    let (mut input, mut out) = (Vec::new(), BufWriter::new(io::stdout().lock()));
    io::stdin().lock().read_to_end(&mut input)?;
    let mut rest = &input[..];
    while !rest.is_empty() {
        let (clauses, behind) = split_record(rest);
        let (query, behind) = split_record(behind);
        list(clauses, query, steps, &mut out)?;
        rest = behind;
    }
    Ok(out.flush()?)
}

fn list(clauses: &[u8], query: &[u8], steps: u32, out: &mut impl Write) -> Done {
    let (program, query) = (Clauses::from_bytes(clauses)?.canonical()?, Query::from_bytes(query)?);
    for item in program.answers(&query).with_steps(steps) {
        match item {
            Ok(answer) => writeln!(out, "answer{}", values(&answer))?,
            Err(stop) => return Ok(writeln!(out, "stop {}", stop.number())?),
        }
    }
    Ok(writeln!(out, "stop 6")?)
}

fn values(answer: &Answer) -> String {
    let hex = |bytes: &[u8]| bytes.iter().map(|byte| format!("{byte:02x}")).collect::<String>();
    answer.values.iter().map(|(v, term)| format!(" {v} {}", hex(term.as_bytes()))).collect()
}
