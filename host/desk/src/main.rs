//! desk: a planner's program over the proved rule desk. Every answer and every event is the library's; what stands here reads files, finds names and
//! places, and prints.
#![forbid(unsafe_code)]

mod ancestors;
mod answers;
mod arguments;
mod derivation;
mod diagnostic;
mod extract;
mod garage;
mod goals;
mod naming;
mod near;
mod outline;
mod portrait;
mod position;
mod progress;
mod reach;
mod sheet;
mod short;
mod source;
mod status;
mod step;
mod style;
mod values;
mod walk;
mod warnings;
mod words;

use arguments::{Arguments, Asked};
use diagnostic::Diagnostic;
use fourport::Port;
use garage::Garage;
use source::Source;
use status::Status;
use std::io::{self, BufWriter, ErrorKind, Write};
use std::process::ExitCode;
use std::{env, thread};
use style::Style;

fn main() -> ExitCode {
    let arguments = match arguments::read(env::args_os()) {
        Ok(arguments) => arguments,
        Err(error) => {
            _ = error.print();
            return if error.use_stderr() { Status::Refused.into() } else { Status::Done.into() };
        }
    };
    // the library needs more stack than some threads have
    let desk = thread::Builder::new().stack_size(fourport::STACK).spawn(move || ended(run(arguments)));
    let ended =
        desk.map_err(|error| format!("the desk cannot be started: {error}")).and_then(|desk| desk.join().map_err(|_| "the desk has failed".into()));
    ended.unwrap_or_else(|words: String| told(&Diagnostic::plain(words))).into()
}

/// The status; a mistake is told first.
fn ended(status: Result<Status, Failure>) -> Status {
    match status {
        Ok(status) => status,
        // whoever reads has seen enough
        Err(Failure::Output(error)) if error.kind() == ErrorKind::BrokenPipe => Status::Done,
        Err(Failure::Output(error)) => told(&Diagnostic::plain(format!("nothing more can be written: {error}"))),
        Err(Failure::Refused(refused)) => told(&refused),
    }
}

fn told(diagnostic: &Diagnostic) -> Status {
    // where standard error is closed there is nobody to tell
    _ = io::stderr().write_all(diagnostic.lines(Style::of(&io::stderr())).as_bytes());
    Status::Refused
}

/// Why the program ends early.
enum Failure {
    Refused(Diagnostic),
    Output(io::Error),
}

impl From<Diagnostic> for Failure {
    fn from(refused: Diagnostic) -> Failure {
        Failure::Refused(refused)
    }
}

impl From<io::Error> for Failure {
    fn from(error: io::Error) -> Failure {
        Failure::Output(error)
    }
}

fn file(path: &str) -> Result<Source, Diagnostic> {
    Source::from_file(path).map_err(|error| Diagnostic::of_file(path, format!("this file cannot be read: {error}")))
}

fn run(Arguments { rules, query, asked }: Arguments) -> Result<Status, Failure> {
    let rules = file(&rules)?;
    let query = match query.strip_prefix('@') {
        Some(path) => file(path)?,
        None => Source::new("query", query.into_bytes()),
    };
    let garage = Garage::read(rules, query)?;
    garage.warnings().iter().for_each(|warning| _ = told(warning));
    let mut out = BufWriter::new(io::stdout().lock());
    Ok(match asked {
        Asked::Answers { limit, steps, form } => answers::answers(&garage, answers::Order { limit, steps, form }, &mut out)?,
        Asked::Walk { all, goals, from, to, ports, spied } => {
            let spied = spied.iter().map(|name| garage.predicate_named(name).map_err(Diagnostic::plain)).collect::<Result<_, _>>()?;
            let ports = [Port::Call, Port::Exit, Port::Fail, Port::Redo].into_iter().filter(|port| ports.contains(&port.to_string())).collect();
            walk::walk(&garage, &walk::Order { all, goals, from, to, ports, spied }, &mut out)?
        }
        Asked::Step { at } => {
            drop(out);
            step::step(&garage, at)?
        }
    })
}
