//! `desk answers`: every answer of a query, with the clauses that gave it, and whether these are all.

use crate::derivation::{gave, Called};
use crate::diagnostic::refusal_words;
use crate::garage::Garage;
use crate::naming::EventNames;
use crate::progress::Progress;
use crate::sheet::{Ending, Form, Row, UsedClause};
use crate::status::{counted, grouped, Status};
use fourport::{Answer, Stop, TermKind};
use std::collections::HashSet;
use std::io::{self, Write};

/// What is asked for.
#[derive(Clone, Copy, Debug)]
pub struct Order {
    /// the most answers
    pub limit: u64,
    /// the most steps
    pub steps: u32,
    pub form: Form,
}

/// Prints the list.
pub fn answers(garage: &Garage, order: Order, out: &mut dyn Write) -> io::Result<Status> {
    let variables = garage.query_variables();
    let (progress, mut given, mut stop) = (Progress::new(), 0, None);
    let mut list = garage.program.answers(&garage.query).with_steps(order.steps).with_progress(Box::new(progress.asking()));
    let names: Vec<String> = variables.iter().map(|(name, _)| name.clone()).collect();
    order.form.head(out, &garage.asked.typed(), &names)?;
    while given < order.limit {
        match list.next() {
            Some(Ok(answer)) => {
                let row = row(garage, &variables, &answer);
                let _quiet = progress.answer();
                order.form.row(out, &row, given == 0)?;
                out.flush()?;
                given += 1;
            }
            Some(Err(stopped)) => {
                stop = Some(stopped);
                break;
            }
            None => break,
        }
    }
    // no step is made to find out whether there is one more
    let cut = given == order.limit && !(list.is_whole() && list.next().is_none());
    drop(progress);
    let ending = ending(given, list.taken(), if cut { Cut::Limit } else { stop.map_or(Cut::Whole, Cut::Stopped) });
    order.form.tail(out, &ending)?;
    out.flush()?;
    Ok(match (ending.stopped, given) {
        (None, 0) => Status::NoAnswer,
        (None, _) => Status::Done,
        (Some(_), _) => Status::Stopped,
    })
}

/// What ended a list.
#[derive(Clone, Copy)]
enum Cut {
    Whole,
    Limit,
    Stopped(Stop),
}

fn ending(answers: u64, steps: u32, cut: Cut) -> Ending {
    let (given, at) = (counted(answers, "answer"), event_after(steps));
    let (number, stopped, words) = match cut {
        Cut::Whole => (Some(6), None, format!("the list is whole: the walk ends {at} (number 6)")),
        Cut::Limit => (None, Some("limit"), "stopped by --limit: there may be more".into()),
        Cut::Stopped(Stop::Steps) => (Some(0), Some("steps"), format!("stopped by --steps {at} (number 0): there may be more")),
        Cut::Stopped(Stop::Refused(refusal)) => {
            let why = refusal_words(refusal);
            (Some(refusal.number()), Some("refused"), format!("stopped {at} (number {}): {why}; there may be more answers", refusal.number()))
        }
        Cut::Stopped(stop) => {
            (Some(stop.number()), Some("room"), format!("stopped {at} (number {}): {stop}; there may be more answers", stop.number()))
        }
    };
    Ending { answers, steps, number, stopped, words: format!("{given}; {words}") }
}

/// Where a walk of so many steps stands. Event 0 is one step behind the first event of 'Q, fail'.
fn event_after(steps: u32) -> String {
    steps.checked_sub(1).map_or("before its first event".into(), |number| format!("at event {}", grouped(number.into())))
}

fn row(garage: &Garage, variables: &[(String, u16)], answer: &Answer) -> Row {
    let gave = gave(garage, answer);
    let names = EventNames::of_answer(garage, &gave);
    let value = |number| match answer.value(number) {
        Some(term) if term.view().kind() != TermKind::Variable(number) => term.shown(&names).to_string(),
        _ => "_".into(),
    };
    let values = variables.iter().map(|(name, number)| (name.clone(), value(*number))).collect();
    Row { values, clauses: used(garage, &gave) }
}

/// The clauses in the order in which they were called, each once.
fn used(garage: &Garage, gave: &[Called<'_>]) -> Vec<UsedClause> {
    let mut met = HashSet::new();
    let first = gave.iter().filter(|called| met.insert((called.predicate, called.clause)));
    let shown = first.filter_map(|called| {
        let outline = garage.clause(called.predicate, called.clause)?;
        let (predicate, place) = (garage.shown_predicate(called.predicate), garage.rules.place(outline.span.from));
        Some(UsedClause { predicate, file: garage.rules.name().into(), line: place.line, column: place.column })
    });
    shown.collect()
}
