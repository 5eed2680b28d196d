//! Clauses to canonical program (SPECIFICATION 2); questions 9 and 10.

use crate::gate::{Question, Refusal, LOCALS_LIMIT, RECORD_LIMIT};
use crate::records::{writer, Clause, Definition, Goal, GoalRef, GoalShape, Program, Term, TermRef};
use crate::terms::rebuild::{self, Image};
use std::collections::BTreeMap;

/// The canonical program of the clauses.
pub fn canonical(clauses: &[Clause]) -> Result<Program, Refusal> {
    let mut predicates: BTreeMap<(u16, usize), Vec<&Clause>> = BTreeMap::new();
    for clause in clauses {
        predicates.entry((clause.predicate, clause.head.len())).or_default().push(clause);
    }
    let locals = |of: &[&Clause]| of.iter().map(|clause| u32::from(clause.variables)).sum::<u32>();
    if predicates.values().any(|of| locals(of) > LOCALS_LIMIT) {
        return Err(Question::Locals.into());
    }
    let definitions = predicates.iter().map(|(&(predicate, arity), of)| Definition {
        predicate,
        arity: arity as u8,
        locals: locals(of) as u8,
        goal: definition_goal(arity, of),
        place: 0..0,
    });
    let program = Program { definitions: definitions.collect() };
    if writer::program_length(&program) > RECORD_LIMIT as u64 {
        return Err(Question::Fit.into());
    }
    Ok(program)
}

/// The branches of the clauses, one after the other, under disjunctions nested on the right (SPECIFICATION 2).
fn definition_goal(arity: usize, clauses: &[&Clause]) -> GoalRef {
    let mut before = arity as u16;
    let mut branches = Vec::with_capacity(clauses.len());
    for clause in clauses {
        branches.push(branch(clause, before));
        before += u16::from(clause.variables);
    }
    joined(branches, GoalShape::Disjunction)
}

/// The equalities of the head and then the body, under conjunctions nested on the right; variable i of the clause is renamed to `before` + i.
fn branch(clause: &Clause, before: u16) -> GoalRef {
    let renamed =
        |term: &TermRef| rebuild::term(term, 0, u32::MAX, |variable, _| Image::Is(Term::variable(before + variable))).unwrap_or_else(|| term.clone());
    let head = clause.head.iter().enumerate();
    let mut parts: Vec<GoalRef> = head.map(|(i, term)| Goal::new(GoalShape::Equality(Term::variable(i as u16), renamed(term)))).collect();
    parts.push(rebuild::goal(&clause.goal, renamed));
    joined(parts, GoalShape::Conjunction)
}

fn joined(parts: Vec<GoalRef>, join: impl Fn(GoalRef, GoalRef) -> GoalShape) -> GoalRef {
    let right_first = parts.into_iter().rev();
    right_first.reduce(|rest, part| Goal::new(join(part, rest))).unwrap_or_else(|| Goal::new(GoalShape::Fail))
}
