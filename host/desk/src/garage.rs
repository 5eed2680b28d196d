//! Rules and a query, read by the library, with the texts that they are from.

use crate::diagnostic::{Diagnostic, Level};
use crate::goals::{goals, Goals};
use crate::naming::parting;
use crate::near::nearest;
use crate::outline::{self, ClauseOutline};
use crate::reach;
use crate::source::Source;
use crate::warnings;
use fourport::{tokens, Clauses, Event, Goal, GoalView, Names, Program, Query, Refusal, TextRefusal, Token, WhichText};
use std::collections::HashMap;

/// The most variables that the clauses of one predicate have together (question 9 of the canonical form).
const MOST_LOCALS: usize = 255;

/// A predicate's number and arity.
pub type Predicate = (u16, u8);

/// Rules and a query.
#[derive(Clone, Debug)]
pub struct Garage {
    pub rules: Source,
    pub asked: Source,
    pub program: Program,
    pub query: Query,
    pub names: Names,
    /// the clauses in the order of the text
    pub outlines: Vec<ClauseOutline>,
    /// the query's goals
    pub goals: Goals,
    /// how many variables the query has
    pub variables: u16,
    /// what stands between the name of a local and its number
    pub parting: String,
    /// the clauses of each predicate, in their order
    clauses: HashMap<Predicate, Vec<usize>>,
    /// the goals of the definitions that have locals
    definitions: HashMap<Predicate, Goal>,
    start: Event,
}

impl Garage {
    /// What the library makes of the texts, or why it refuses them.
    pub fn read(rules: Source, asked: Source) -> Result<Garage, Diagnostic> {
        let told = |refused: TextRefusal| Diagnostic::refused(if refused.text == WhichText::Rules { &rules } else { &asked }, &refused);
        let (query, names) = Query::from_text(rules.text(), asked.text()).map_err(told)?;
        let (record, _) = Clauses::from_text(rules.text()).map_err(told)?;
        let outlines = outline::clauses(rules.text());
        let clauses = by_predicate(&record);
        let program = record.canonical().map_err(|refusal| no_program(refusal, &rules, &outlines, &clauses))?;
        let start = start(&program, &query).map_err(|refusal| {
            let words =
                format!("the query is too long (question {}): an event of its walk holds it twice, and has at most 32,768 bytes", refusal.number());
            Diagnostic::of_file(asked.name(), words)
        })?;
        let asked_tokens: Vec<Token<'_>> = tokens(asked.text()).collect();
        let variables = u16::try_from(outline::variables(&asked_tokens).len()).unwrap_or(u16::MAX);
        let (goals, parting) = (goals(&asked_tokens), parting(&names, variables, &outlines));
        let with_locals = program.definitions().filter(|definition| definition.locals() > 0);
        let definitions = with_locals.map(|definition| ((definition.predicate(), definition.arity()), definition.goal().to_goal())).collect();
        Ok(Garage { program, query, names, outlines, goals, variables, parting, clauses, definitions, start, rules, asked })
    }

    /// Event number 0: the query is called, in the walk of 'Q, fail'.
    pub fn first(&self) -> &Event {
        &self.start
    }

    /// The clauses of a predicate, by their places in the text.
    pub fn clauses_of(&self, predicate: Predicate) -> &[usize] {
        self.clauses.get(&predicate).map_or(&[], Vec::as_slice)
    }

    /// The goal of a predicate's definition, where that has locals.
    pub fn goal_with_locals(&self, predicate: Predicate) -> Option<GoalView<'_>> {
        self.definitions.get(&predicate).map(Goal::view)
    }

    /// A clause of a predicate.
    pub fn clause(&self, predicate: Predicate, clause: usize) -> Option<&ClauseOutline> {
        self.outlines.get(*self.clauses_of(predicate).get(clause)?)
    }

    /// Where a clause of a predicate stands, as `rules.pl:14`.
    pub fn clause_at(&self, predicate: Predicate, clause: usize) -> Option<String> {
        self.clause(predicate, clause).map(|outline| self.rules.at(outline.span.from))
    }

    /// A predicate as `light/2`.
    pub fn shown_predicate(&self, (predicate, arity): Predicate) -> String {
        format!("{}/{arity}", self.names.name(predicate).unwrap_or("?"))
    }

    /// The predicate that `light/2` means. Of a name that has clauses of one arity alone the arity may be left out.
    pub fn predicate_named(&self, text: &str) -> Result<Predicate, String> {
        let (name, arity) = text.split_once('/').map_or((text, None), |(name, arity)| (name, Some(arity)));
        let Some(number) = self.names.number(name) else {
            let heads: Vec<String> = self.outlines.iter().map(|outline| self.rules.part(outline.name)).collect();
            let near = nearest(name, heads.iter().map(String::as_str));
            return Err(format!("no rule or query names `{name}`{}", near.map(|near| format!("; did you mean `{near}`?")).unwrap_or_default()));
        };
        let arities = self.arities(name, number);
        let listed = arities.iter().map(|arity| format!("{name}/{arity}")).collect::<Vec<_>>().join(", ");
        match (arity.map(str::parse::<u8>), arities.as_slice()) {
            (Some(Ok(arity)), known) if known.contains(&arity) => Ok((number, arity)),
            (_, []) => Err(format!("`{name}` is no predicate")),
            (None, [arity]) => Ok((number, *arity)),
            (None, _) => Err(format!("which one: {listed}?")),
            (Some(_), _) => Err(format!("no rule or query names `{text}`; there is {listed}")),
        }
    }

    /// The arities with which clauses or goals have a name.
    fn arities(&self, name: &str, number: u16) -> Vec<u8> {
        let used = |source: &Source, goals: &Goals| -> Vec<u8> {
            let named = goals.atoms().filter(|(span, _)| source.part(*span) == name);
            named.filter_map(|(_, arity)| u8::try_from(arity).ok()).collect()
        };
        let bodies = self.outlines.iter().filter_map(|outline| outline.body.as_ref()).flat_map(|body| used(&self.rules, body));
        let heads = self.clauses.keys().filter(|(predicate, _)| *predicate == number).map(|(_, arity)| *arity);
        let mut arities: Vec<u8> = heads.chain(bodies).chain(used(&self.asked, &self.goals)).collect();
        arities.sort_unstable();
        arities.dedup();
        arities
    }

    pub fn warnings(&self) -> Vec<Diagnostic> {
        let mut told = warnings::warnings(&self.rules, &self.outlines, &self.asked, &self.goals);
        told.extend(reach::warnings(self));
        told
    }
}

fn by_predicate(record: &Clauses) -> HashMap<Predicate, Vec<usize>> {
    let mut clauses: HashMap<Predicate, Vec<usize>> = HashMap::new();
    for (place, clause) in record.iter().enumerate() {
        clauses.entry((clause.predicate(), clause.arity())).or_default().push(place);
    }
    clauses
}

/// The event after the first one of 'Q, fail'.
fn start(program: &Program, query: &Query) -> Result<Event, Refusal> {
    program.forward(&Event::first(&query.then_fail()?)?)
}

/// Why clauses have no canonical form, and for question 9 of which predicate.
fn no_program(refusal: Refusal, rules: &Source, outlines: &[ClauseOutline], clauses: &HashMap<Predicate, Vec<usize>>) -> Diagnostic {
    let number = refusal.number();
    if refusal != Refusal::Locals {
        return Diagnostic::of_file(rules.name(), format!("the canonical form of the rules has over 32,768 bytes (question {number})"));
    }
    let of = |places: &[usize]| places.iter().filter_map(|&place| outlines.get(place)).map(|outline| outline.variables.len()).sum::<usize>();
    let over = clauses.values().filter(|places| of(places) > MOST_LOCALS).filter_map(|places| places.first()).min();
    let words = format!("the clauses of this predicate have over {MOST_LOCALS} variables together (question {number})");
    match over.and_then(|&place| outlines.get(place)) {
        Some(outline) => Diagnostic::at(Level::Error, rules, outline.name, words),
        None => Diagnostic::of_file(rules.name(), words),
    }
}
