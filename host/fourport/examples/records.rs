//! records [--clauses] RULES QUERY: the records of a text of clauses and of a query, on standard output: the canonical program, or with --clauses the
//! clause record, and behind it the query record. Without --clauses that is the walk program's input.

use fourport::{Clauses, Query, STACK};
use std::error::Error;
use std::io::{self, Write};
use std::{env, fs, thread};

type Done = Result<(), Box<dyn Error + Send + Sync>>;

fn main() -> Done {
    thread::Builder::new().stack_size(STACK).spawn(written)?.join().expect("the desk does not panic")
}

fn written() -> Done {
    let mut words: Vec<String> = env::args().skip(1).collect();
    let as_clauses = words.first().is_some_and(|word| word == "--clauses");
    words.drain(..usize::from(as_clauses));
    let [rules, query] = &words[..] else { return Err("records [--clauses] RULES QUERY".into()) };
    let (rules, query) = (fs::read(rules)?, fs::read(query)?);
    let (clauses, _) = Clauses::from_text(&rules)?;
    let (query, _) = Query::from_text(&rules, query)?;
    let first = if as_clauses { clauses.as_bytes().to_vec() } else { clauses.canonical()?.as_bytes().to_vec() };
    Ok(io::stdout().lock().write_all(&[&first, query.as_bytes()].concat())?)
}
