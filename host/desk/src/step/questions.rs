//! Questions about the event where one stands.

use super::clause::rows;
use super::reply::Reply;
use crate::garage::Garage;
use crate::portrait::Portrait;
use crate::position::Position;
use fourport::Event;

/// The value of one variable, or of all that the screen shows.
pub fn print(garage: &Garage, portrait: &Portrait, event: &Event, name: Option<&str>) -> Reply {
    let Some(name) = name else { return print_all(portrait) };
    match garage.variable_named(event, name) {
        Some(variable) => Reply::listed(vec![format!("{name} = {}", garage.value_shown(event, variable))]),
        None => no_variable(portrait, name),
    }
}

fn print_all(portrait: &Portrait) -> Reply {
    let of_query = if portrait.values.is_empty() { "" } else { "   of the query" };
    let own = portrait.values.iter().map(|(name, value)| format!("{name} = {value}"));
    let lines: Vec<String> = own.chain(portrait.query_values.iter().map(|(name, value)| format!("{name} = {value}{of_query}"))).collect();
    if lines.is_empty() {
        return Reply::said("there are no variables here");
    }
    Reply::listed(lines)
}

/// The names of the variables that the screen shows, each once.
pub fn names(portrait: &Portrait) -> Vec<&str> {
    let mut names: Vec<&str> = portrait.values.iter().chain(&portrait.query_values).map(|(name, _)| name.as_str()).collect();
    names.sort_unstable();
    names.dedup();
    names
}

/// Says that there is no such variable, and which there are.
pub fn no_variable(portrait: &Portrait, name: &str) -> Reply {
    let known = names(portrait);
    match known.is_empty() {
        true => Reply::misunderstood(format!("no variable is called `{name}` here, and there is no other")),
        false => Reply::misunderstood(format!("no variable is called `{name}` here; there are {}", known.join(", "))),
    }
}

pub fn ancestors(garage: &Garage, event: &Event) -> Reply {
    let (lines, _) = garage.ancestors_shown(event, usize::MAX);
    if lines.is_empty() {
        return Reply::said("there are no ancestors");
    }
    Reply::listed(lines)
}

pub fn bets(garage: &Garage, event: &Event) -> Reply {
    let lines = garage.bets_shown(event);
    if lines.is_empty() {
        return Reply::said("there are no bets");
    }
    Reply::listed(lines)
}

/// The whole clause in so many columns, with the current goal marked.
pub fn clause(garage: &Garage, event: &Event, columns: usize) -> Reply {
    match garage.whole_extract(&Position::of(garage, event)) {
        None => Reply::said("this goal stands in no clause"),
        Some(extract) => {
            let lines = rows(&extract, columns).into_iter().flat_map(|row| [Some(row.text.clone()), row.below()]).flatten();
            Reply::listed([extract.title].into_iter().chain(lines).collect())
        }
    }
}
