//! Values of variables, by name.

use crate::garage::Garage;
use crate::naming::EventNames;
use crate::position::Position;
use crate::short::short;
use fourport::{Event, Naming, TermKind};

/// What is shown in place of the value of a variable that is free.
const FREE: &str = "_";

impl Garage {
    /// The named variables of the clause that the event is in, with their values.
    pub fn clause_values(&self, event: &Event, position: &Position, names: &EventNames<'_>) -> Vec<(String, String)> {
        let named = self.clause_variables(event, position).into_iter().filter(|(name, _)| name != "_");
        named.map(|(name, number)| (name, self.value_in_line(event, number, names))).collect()
    }

    /// The variables of the query with their values; not those whose names begin with an underscore.
    pub fn query_values(&self, event: &Event, names: &EventNames<'_>) -> Vec<(String, String)> {
        let own = self.query_variables().into_iter();
        own.map(|(name, number)| (name, self.value_in_line(event, number, names))).collect()
    }

    /// The variables of the query that answers speak of: those whose names do not begin with an underscore.
    pub fn query_variables(&self) -> Vec<(String, u16)> {
        let named = (0..self.variables).filter_map(|number| Some((self.names.variable(number)?.to_string(), number)));
        named.filter(|(name, _)| !name.starts_with('_')).collect()
    }

    /// The variables of the clause that has been chosen, with their numbers in the walk.
    fn clause_variables(&self, event: &Event, position: &Position) -> Vec<(String, u16)> {
        let Some((of, clause)) = position.chosen() else { return Vec::new() };
        let (Some(first), Some(outline)) = (EventNames::nearest_locals(self, event), self.clause(of, clause)) else { return Vec::new() };
        let before: usize = (0..clause).filter_map(|earlier| self.clause(of, earlier)).map(|outline| outline.variables.len()).sum();
        let numbers = (usize::from(first) + before..).map_while(|number| u16::try_from(number).ok());
        outline.variables.iter().map(|variable| variable.name.clone()).zip(numbers).collect()
    }

    /// The variable that a name means at an event: one of the clause, else one of the query, else one by the name that the desk shows it by.
    pub fn variable_named(&self, event: &Event, name: &str) -> Option<u16> {
        let own = self.clause_variables(event, &Position::of(self, event));
        let of_clause = own.into_iter().find(|(known, _)| known == name && name != "_").map(|(_, number)| number);
        of_clause.or_else(|| self.names.variable_number(name)).or_else(|| {
            let names = EventNames::of(self, event);
            let front = name.trim_end_matches(|letter: char| letter.is_ascii_digit());
            let number = name.strip_prefix(front)?.parse().ok()?;
            (names.variable(number) == name).then_some(number)
        })
    }

    /// The value of a variable, whole: an underscore where it is free; where the library refuses it, why.
    pub fn value_shown(&self, event: &Event, variable: u16) -> String {
        self.value_by(event, variable, &EventNames::of(self, event), &|shown| shown.to_string())
    }

    fn value_in_line(&self, event: &Event, variable: u16, names: &EventNames<'_>) -> String {
        self.value_by(event, variable, names, &|shown| short(shown))
    }

    fn value_by(&self, event: &Event, variable: u16, names: &EventNames<'_>, shown: &dyn Fn(fourport::Shown<'_>) -> String) -> String {
        match event.value(variable) {
            Ok(term) if term.view().kind() == TermKind::Variable(variable) => FREE.into(),
            Ok(term) => shown(term.shown(names)),
            Err(refusal) => format!("a value of over 8,192 bytes (question {})", refusal.number()),
        }
    }
}
