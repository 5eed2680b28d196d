//! What the library says of a garage: the list that the program is held against.

use fourport::{Clauses, Names, Program, Query, TermKind};

/// The values of one answer by the names of the query's variables.
pub type Values = Vec<(String, String)>;

/// A list of answers, and how it ended.
#[derive(Clone, Debug, PartialEq, Eq)]
pub struct Listed {
    pub answers: Vec<Values>,
    pub is_whole: bool,
    pub taken: u32,
}

pub fn read(rules: &str, query: &str) -> (Program, Query, Names) {
    let (query, names) = Query::from_text(rules, query).expect("a query that the library reads");
    let program = Clauses::from_text(rules).expect("rules that the library reads").0.canonical().expect("rules with a canonical form");
    (program, query, names)
}

/// The answers within so many steps. Variables whose names begin with an underscore are left out; a free one has the value `_`.
pub fn answers(rules: &str, query: &str, steps: u32) -> Listed {
    let (program, goal, names) = read(rules, query);
    let named = |number| names.variable(number).filter(|name| !name.starts_with('_'));
    let mut list = program.answers(&goal).with_steps(steps);
    let mut answers = Vec::new();
    while let Some(Ok(answer)) = list.next() {
        let shown = |(number, term): &(u16, fourport::Term)| {
            let is_free = term.view().kind() == TermKind::Variable(*number);
            Some((named(*number)?.to_string(), if is_free { "_".into() } else { term.shown(&names).to_string() }))
        };
        answers.push(answer.values.iter().filter_map(shown).collect());
    }
    Listed { answers, is_whole: list.is_whole(), taken: list.taken() }
}
