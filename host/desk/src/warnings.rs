//! What Prolog systems warn of and a walk alone does not tell: an atom that no clause defines, a variable that stands once, clauses of one predicate
//! that are not together.

use crate::diagnostic::{Diagnostic, Level};
use crate::goals::Goals;
use crate::near::nearest;
use crate::outline::ClauseOutline;
use crate::source::{Source, Span};
use std::collections::{BTreeSet, HashMap};

/// The most atoms for which a name that is spelt alike is looked for.
const MOST_HINTS: usize = 200;

/// Names that people know from Prolog systems.
const BUILT_IN: [&str; 20] = [
    "append", "assert", "asserta", "assertz", "atom", "call", "dif", "findall", "forall", "format", "functor", "length", "member", "nl", "once",
    "print", "repeat", "retract", "var", "write",
];

/// A predicate by its name in the text, and its arity.
type Predicate = (String, usize);

fn predicate(rules: &Source, clause: &ClauseOutline) -> Predicate {
    (rules.part(clause.name), clause.arguments.len())
}

/// The warnings of rules and a query, in the order of the text.
pub fn warnings(rules: &Source, clauses: &[ClauseOutline], query: &Source, goal: &Goals) -> Vec<Diagnostic> {
    let defined: BTreeSet<Predicate> = clauses.iter().map(|clause| predicate(rules, clause)).collect();
    let (mut found, mut hints) = (apart(rules, clauses), MOST_HINTS);
    for clause in clauses {
        found.extend(clause.body.iter().flat_map(|body| undefined(rules, body, &defined, &mut hints)));
        found.extend(alone(rules, clause));
    }
    found.sort_by_key(|(at, _)| *at);
    found.extend(undefined(query, goal, &defined, &mut hints));
    found.into_iter().map(|(_, warning)| warning).collect()
}

fn warning(source: &Source, span: Span, words: String) -> (usize, Diagnostic) {
    (span.from, Diagnostic::at(Level::Warning, source, span, words))
}

/// Atoms that no clause defines: they fail, however they are spelt.
fn undefined(source: &Source, goals: &Goals, defined: &BTreeSet<Predicate>, hints: &mut usize) -> Vec<(usize, Diagnostic)> {
    let missing =
        goals.atoms().map(|(name, arity)| (name, source.part(name), arity)).filter(|(_, name, arity)| !defined.contains(&(name.clone(), *arity)));
    let told = missing.map(|(span, name, arity)| {
        let (at, told) = warning(source, span, format!("no clause defines {name}/{arity}, so it fails"));
        let near = hints.checked_sub(1).and_then(|left| {
            *hints = left;
            meant(&name, arity, defined)
        });
        let notes = near.into_iter().chain(built_in(&name));
        (at, notes.fold(told, Diagnostic::with_note))
    });
    told.collect()
}

/// The same name with another arity, or a name that is spelt alike.
fn meant(name: &str, arity: usize, defined: &BTreeSet<Predicate>) -> Option<String> {
    let arities: Vec<String> = defined.iter().filter(|(other, _)| other == name).map(|(other, arity)| format!("{other}/{arity}")).collect();
    if !arities.is_empty() {
        return Some(format!("there is {}", arities.join(", ")));
    }
    let same_arity = defined.iter().filter(|(_, other)| *other == arity).map(|(name, _)| name.as_str());
    nearest(name, same_arity).map(|near| format!("did you mean {near}/{arity}?"))
}

/// What is to be said of a name that Prolog systems have built in.
fn built_in(name: &str) -> Option<String> {
    let what = match name {
        "not" => "there is no negation",
        "is" | "succ" | "plus" | "between" => "there is no arithmetic",
        _ if BUILT_IN.contains(&name) => "it is not built in",
        _ => return None,
    };
    Some(format!("{what}: {name} is a predicate like any other here"))
}

/// Variables that stand once in their clause, and whose names do not begin with an underscore.
fn alone(rules: &Source, clause: &ClauseOutline) -> Vec<(usize, Diagnostic)> {
    let once = clause.variables.iter().filter(|variable| variable.count == 1 && !variable.name.starts_with('_'));
    let told = once.map(|variable| {
        let (at, told) = warning(rules, variable.span, format!("{} is used once in this clause", variable.name));
        (at, told.with_note(format!("write _ or _{} if that is meant", variable.name)))
    });
    told.collect()
}

/// Clauses of a predicate behind clauses of another one.
fn apart(rules: &Source, clauses: &[ClauseOutline]) -> Vec<(usize, Diagnostic)> {
    let (mut last, mut found): (HashMap<Predicate, usize>, Vec<(usize, Diagnostic)>) = Default::default();
    for (i, clause) in clauses.iter().enumerate() {
        let key = predicate(rules, clause);
        let words = format!("the clauses of {}/{} are not together", key.0, key.1);
        let before = last.insert(key, i).filter(|before| before + 1 < i).and_then(|before| clauses.get(before));
        found.extend(before.map(|before| {
            let (at, told) = warning(rules, clause.name, words);
            (at, told.with_note(format!("the one before stands in line {}", rules.line_of(before.span.from))))
        }));
    }
    found
}
