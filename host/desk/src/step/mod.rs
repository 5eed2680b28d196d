//! `desk step`: along the walk of a query, forward and back, by typed commands, by keys, or by a script from a pipe.

mod binding;
mod breaks;
mod canvas;
mod clause;
mod command;
mod extent;
mod fit;
mod help;
mod inside;
mod keys;
mod moves;
mod picture;
mod questions;
mod reply;
mod screen;
mod script;
mod session;
mod terminal;
mod verbs;

use crate::garage::Garage;
use crate::status::Status;
use crate::style::Style;
use extent::Extent;
use screen::Size;
use session::Session;
use std::env;
use std::io::{self, IsTerminal, Write};

/// What stands before a typed command.
const PROMPT: &str = "(desk) ";
/// The columns of what is written to a pipe, unless `COLUMNS` says otherwise.
const COLUMNS: usize = 80;
/// The rows of a screen that is written to a pipe: those that a terminal of 24 rows has for it.
const ROWS: usize = 24 - canvas::BELOW;

/// Commands from the standard input until it ends, from the event of a number on. A script with a command that is not understood is refused input.
pub fn step(garage: &Garage, at: u64) -> io::Result<Status> {
    let extent = Extent::of(garage);
    let (mut session, words) = Session::start_at(garage, at);
    if is_interactive() {
        let predicates = garage.program.definitions().map(|known| garage.shown_predicate((known.predicate(), known.arity()))).collect();
        let warnings = garage.warnings().iter().map(|warning| warning.lines(Style::PLAIN)).collect::<String>();
        return terminal::run(&mut session, &extent, predicates, &warnings, words).map(|()| Status::Done);
    }
    let columns = env::var("COLUMNS").ok().and_then(|columns| columns.parse().ok()).filter(|&columns| columns > 0).unwrap_or(COLUMNS);
    let mut output = io::stdout().lock();
    if let Some(words) = words {
        writeln!(output, "{words}")?;
    }
    let is_typed = io::stdin().is_terminal();
    let writing = script::Writing { extent: &extent, size: Size { columns, rows: ROWS }, is_typed };
    let understood = writing.run(&mut session, &mut io::stdin().lock(), &mut output)?;
    Ok(if understood || is_typed { Status::Done } else { Status::Refused })
}

/// Whether somebody types, in a terminal whose screen can be drawn on.
fn is_interactive() -> bool {
    io::stdin().is_terminal() && io::stdout().is_terminal() && env::var("TERM").map_or(true, |name| name != "dumb")
}
