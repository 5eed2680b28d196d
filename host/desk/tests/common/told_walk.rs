//! The walk of 'Q, fail' by the library's single steps, and what a line about each event has to say. The names of locals are noted when a call makes
//! them, and forgotten when another call makes the same numbers.

use super::library::read;
use fourport::{tokens, Ancestor, Bet, Event, GoalKind, GoalView, Half, Names, Naming, Port, Program, Query, Refusal, Term, TokenKind};
use std::borrow::Cow;
use std::collections::HashMap;

/// What is expected of the line of an event.
#[derive(Clone, Debug)]
pub struct Expected {
    pub port: Port,
    /// the rules that the event stands in
    pub depth: usize,
    /// what stands behind the port
    pub goal: String,
    /// the file, and the line, of the goal
    pub place: Option<String>,
    /// what the exit of an equality binds
    pub binds: Option<String>,
    /// the goal's predicate, if it is an atom
    pub predicate: Option<String>,
    pub is_answer: bool,
}

/// Names and values at an event.
struct Known<'k> {
    names: &'k Names,
    locals: &'k HashMap<u16, String>,
    values: HashMap<u16, Term>,
}

impl Naming for Known<'_> {
    fn name(&self, number: u16) -> Cow<'_, str> {
        Naming::name(self.names, number)
    }

    fn variable(&self, number: u16) -> Cow<'_, str> {
        match (self.names.variable(number), self.locals.get(&number)) {
            (None, Some(name)) => name.into(),
            _ => Naming::variable(self.names, number),
        }
    }

    fn value(&self, variable: u16) -> Option<&Term> {
        self.values.get(&variable)
    }
}

/// A clause: its line, and the names of its variables by number.
#[derive(Clone, Debug)]
struct Clause {
    line: usize,
    variables: Vec<String>,
}

/// A garage, one clause in each line, and its walk.
pub struct ToldWalk {
    program: Program,
    query: Query,
    names: Names,
    file: String,
    asked: String,
    clauses: HashMap<(u16, u8), Vec<Clause>>,
    /// the query's variables that are `_`, as they are shown
    lone: HashMap<u16, String>,
}

/// The variables of a clause by first appearance; each `_` is another one.
fn variables(clause: &str) -> Vec<String> {
    let mut listed: Vec<String> = Vec::new();
    for token in tokens(clause.as_bytes()).filter(|token| token.kind == TokenKind::Variable) {
        let name = String::from_utf8_lossy(token.bytes).into_owned();
        if name == "_" || !listed.contains(&name) {
            listed.push(name);
        }
    }
    listed
}

impl ToldWalk {
    /// `file` and `asked` are how the program names the two texts.
    pub fn new(rules: &str, query: &str, file: &str, asked: &str) -> ToldWalk {
        let (program, goal, names) = read(rules, query);
        let mut clauses: HashMap<(u16, u8), Vec<Clause>> = HashMap::new();
        for (text, line) in rules.lines().zip(1..).filter(|(text, _)| !text.trim().is_empty()) {
            let record = fourport::Clauses::from_text(text).expect("a clause").0;
            let clause = record.iter().next().expect("one clause in each line");
            let name = text.split(['(', ' ', '.', ':']).next().expect("a name");
            let predicate = (names.number(name).expect("a name that is known"), clause.arity());
            clauses.entry(predicate).or_default().push(Clause { line, variables: variables(text) });
        }
        let lone = (0..).zip(variables(query)).filter(|(_, name)| name == "_").map(|(number, _)| (number, format!("_{number}"))).collect();
        ToldWalk { program, query: goal, names, file: file.into(), asked: asked.into(), clauses, lone }
    }

    /// The events up to a number, and what refused the next step where there are no more.
    pub fn events(&self, most: usize) -> (Vec<Expected>, Option<Refusal>) {
        let first = Event::first(&self.query.then_fail().expect("a short query")).expect("a short query");
        let mut walk = self.program.walk(first);
        let (mut locals, mut listed) = (self.lone.clone(), Vec::new());
        while listed.len() <= most {
            let before = walk.event().clone();
            match walk.forward() {
                Ok(event) => {
                    self.note_locals(&before, event, &mut locals);
                    listed.push(self.expected(event, &locals));
                }
                Err(refusal) => return (listed, Some(refusal)),
            }
        }
        (listed, None)
    }

    /// The ports of the query's own walk, up to its first exit.
    pub fn own_ports(&self, most: usize) -> Vec<Port> {
        let first = Event::first(&self.query).expect("a short query");
        let mut walk = self.program.walk(first.clone());
        std::iter::once(first).chain(walk.forwards()).take(most).map(|event| event.port()).collect()
    }

    /// A call of an atom makes its locals, from the number behind the greatest one of the event on.
    fn note_locals(&self, before: &Event, after: &Event, locals: &mut HashMap<u16, String>) {
        let (Port::Call, Port::Call, GoalKind::Atom(number, arguments)) = (before.port(), after.port(), before.goal().kind()) else { return };
        let names = self.clauses.get(&(number, arguments.arity())).into_iter().flatten().flat_map(|clause| &clause.variables);
        let first = before.greatest().map_or(0, |(_, greatest)| greatest + 1);
        locals.extend((first..).zip(names.map(String::as_str)).map(|(number, name)| (number, format!("{}_{number}", name.trim_end_matches('_')))));
    }

    fn expected(&self, event: &Event, locals: &HashMap<u16, String>) -> Expected {
        let known = Known { names: &self.names, locals, values: HashMap::new() };
        let values = event.goal().variables().filter_map(|variable| Some((variable, event.value(variable).ok()?))).collect();
        let (goal, place) = self.described(event, &event.goal().shown(&Known { values, ..known }).to_string());
        let is_answer =
            event.port() == Port::Exit && event.ancestor_count() == 1 && event.ancestors().all(|around| around.half() == Some(Half::First));
        // of an answer the line says the values instead
        let binds = self.binds(event, &known).filter(|_| !is_answer);
        let depth = event.ancestors().filter(|ancestor| matches!(ancestor, Ancestor::Atom(_))).count();
        Expected { port: event.port(), depth, goal, place, binds, predicate: self.predicate(event.goal()), is_answer }
    }

    fn predicate(&self, goal: GoalView<'_>) -> Option<String> {
        let GoalKind::Atom(number, arguments) = goal.kind() else { return None };
        Some(format!("{}/{}", self.names.name(number)?, arguments.arity()))
    }

    fn binds(&self, event: &Event, known: &Known<'_>) -> Option<String> {
        let (Port::Exit, GoalKind::Equality(..), Some(Bet::Unifier(pairs))) = (event.port(), event.goal().kind(), event.bets().next()) else {
            return None;
        };
        let listed: Vec<String> = pairs.map(|(variable, term)| format!("{} = {}", known.variable(variable), term.shown(known))).collect();
        (!listed.is_empty()).then(|| format!("binds {}", listed.join(", ")))
    }

    /// What stands for the goal in a line, and where it stands. The body of a predicate is the disjunction of its clauses, each the equalities of its
    /// head with the clause's own body last.
    fn described(&self, event: &Event, goal: &str) -> (String, Option<String>) {
        let mut path: Vec<Half> = event.ancestors().map_while(Ancestor::half).collect();
        path.reverse();
        let Some(Ancestor::Atom(atom)) = event.ancestors().find(|ancestor| ancestor.half().is_none()) else {
            let within = path.first() == Some(&Half::First);
            return (if within { goal.into() } else { String::new() }, within.then(|| format!("{}:1", self.asked)));
        };
        let predicate = self.predicate(atom).expect("an atom");
        let GoalKind::Atom(number, arguments) = atom.kind() else { panic!("no atom") };
        let clauses = &self.clauses[&(number, arguments.arity())];
        let (mut clause, mut path) = (0, &path[..]);
        while clause + 1 < clauses.len() {
            let place = Some(format!("{}:{}", self.file, clauses[clause].line));
            let Some((half, rest)) = path.split_first() else {
                return (format!("clauses {} to {} of {predicate}", clause + 1, clauses.len()), place);
            };
            path = rest;
            if *half == Half::First {
                break;
            }
            clause += 1;
        }
        let place = Some(format!("{}:{}", self.file, clauses[clause].line));
        for argument in 0..arguments.arity() {
            match path.split_first() {
                None if argument == 0 => return (format!("clause {} of {predicate}", clause + 1), place),
                None => return (format!("clause {} of {predicate} from argument {} on", clause + 1, argument + 1), place),
                Some((Half::First, _)) => return (format!("argument {}: {goal}", argument + 1), place),
                Some((Half::Second, rest)) => path = rest,
            }
        }
        (goal.into(), place)
    }
}
