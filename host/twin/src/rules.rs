//! The rules, one arm for each line of SPECIFICATION 3.3, read from left to right and from right to left; questions 6 to 10.
//!
//! A rule is read as a change of the event that is there: what port and goal come, and what happens at the top of each stack.

use crate::gate::{Question, Refusal, RECORD_LIMIT};
use crate::records::event::{Change, Move};
use crate::records::goal::same_goal;
use crate::records::{Ancestor, Bet, Event, GoalRef, GoalShape, Half, Port, Program, TermRef, Unifier};
use crate::terms::{body, unifier, value};
use Half::{First, Second};
use Move::{Drop, Keep, Put};
use Port::{Call, Exit, Fail, Redo};

#[derive(Clone, Copy, Debug, PartialEq, Eq)]
pub enum Direction {
    Forward,
    Back,
}

/// What a step would do to the event, or the number that refuses it.
pub fn asked(direction: Direction, program: &Program, event: &Event) -> Result<Change, Refusal> {
    let change = match direction {
        Direction::Forward => forward(program, event)?,
        Direction::Back => back(program, event)?,
    };
    if event.length_after(&change) > RECORD_LIMIT as u64 {
        return Err(Question::Fit.into());
    }
    Ok(change)
}

/// One step: the event becomes the next one, or stays as it is and the refusing number is given.
pub fn step(direction: Direction, program: &Program, event: &mut Event) -> Result<(), Refusal> {
    let change = asked(direction, program, event)?;
    event.apply(change);
    Ok(())
}

fn no_rule<T>() -> Result<T, Refusal> {
    Err(Question::Match.into())
}

fn change(port: Port, goal: &GoalRef, ancestors: Move<Ancestor>, bets: Move<Bet>) -> Result<Change, Refusal> {
    Ok(Change { port, goal: goal.clone(), ancestors, bets })
}

/// N/A,B or N/A;B on U.
fn under(half: Half, join: &GoalRef) -> Move<Ancestor> {
    Put(Ancestor::Join(half, join.clone()))
}

/// The other half's tag on the ancestor that is there.
fn now_under(half: Half, join: &GoalRef) -> Move<Ancestor> {
    Move::Change(Ancestor::Join(half, join.clone()))
}

/// The unifier of S(T1) and S(T2) for the lowest `count` bets as S; question 8.
fn unified(event: &Event, left: &TermRef, right: &TermRef, count: usize) -> Result<Option<Unifier>, Refusal> {
    let (left, right) = (value::value(left, &event.bets, count)?, value::value(right, &event.bets, count)?);
    Ok(unifier::unifier(&left, &right))
}

/// The body of the atom, its locals numbered from m; question 9. Nothing for an atom without a definition.
fn body_of(program: &Program, atom: &GoalRef, m: u32) -> Result<Option<GoalRef>, Refusal> {
    let GoalShape::Atom(predicate, arguments) = atom.shape() else { return Ok(None) };
    match program.definition(*predicate, arguments.len()) {
        None => Ok(None),
        Some(definition) => body::body(definition, arguments, m).map(Some),
    }
}

/// The rules from left to right: what the event becomes.
fn forward(program: &Program, event: &Event) -> Result<Change, Refusal> {
    match event.port {
        Call => called(program, event),
        Exit | Fail => left(event),
        Redo => redone(event),
    }
}

/// Left sides with call.
fn called(program: &Program, event: &Event) -> Result<Change, Refusal> {
    let goal = &event.goal;
    match goal.shape() {
        // call A,B → call A, 1/A,B on U
        GoalShape::Conjunction(a, _) => change(Call, a, under(First, goal), Keep),
        // call A;B → call A, 1/A;B on U
        GoalShape::Disjunction(a, _) => change(Call, a, under(First, goal), Keep),
        // call true → exit true
        GoalShape::True => change(Exit, goal, Keep, Keep),
        // call fail → fail fail
        GoalShape::Fail => change(Fail, goal, Keep, Keep),
        // call T1=T2 → exit with the unifier of S(T1) and S(T2) put on S, else fail
        GoalShape::Equality(s, t) => match unified(event, s, t, event.bets.count())? {
            Some(unifier) => change(Exit, goal, Keep, Put(Bet::Unifier(unifier))),
            None => change(Fail, goal, Keep, Keep),
        },
        // call P → call of P's body, P on U; P without a definition → fail P
        GoalShape::Atom(..) => match body_of(program, goal, event.above())? {
            Some(body) => change(Call, &body, Put(Ancestor::Atom(goal.clone())), Keep),
            None => change(Fail, goal, Keep, Keep),
        },
    }
}

/// Left sides with exit and fail; they have an ancestor.
fn left(event: &Event) -> Result<Change, Refusal> {
    let goal = &event.goal;
    let (half, join) = match event.ancestors.top() {
        None => return Err(Question::Walk.into()),
        // exit B under P → exit P, BY B on S
        Some(Ancestor::Atom(p)) if event.port == Exit => return change(Exit, p, Drop, Put(Bet::By(goal.clone()))),
        // fail B under P → fail P
        Some(Ancestor::Atom(p)) => return change(Fail, p, Drop, Keep),
        Some(Ancestor::Join(half, join)) => (*half, join),
    };
    if !join.half(half).is_some_and(|part| same_goal(part, goal)) {
        return no_rule();
    }
    match (event.port, half, join.shape()) {
        // exit A under 1 → call B under 2
        (Exit, First, GoalShape::Conjunction(_, b)) => change(Call, b, now_under(Second, join), Keep),
        // fail A under 1 → fail A,B
        (Fail, First, GoalShape::Conjunction(..)) => change(Fail, join, Drop, Keep),
        // exit B under 2 → exit A,B
        (Exit, Second, GoalShape::Conjunction(..)) => change(Exit, join, Drop, Keep),
        // fail B under 2 → redo A under 1
        (Fail, Second, GoalShape::Conjunction(a, _)) => change(Redo, a, now_under(First, join), Keep),
        // fail A under 1 → call B under 2
        (Fail, First, GoalShape::Disjunction(_, b)) => change(Call, b, now_under(Second, join), Keep),
        // fail B under 2 → fail A;B
        (Fail, Second, GoalShape::Disjunction(..)) => change(Fail, join, Drop, Keep),
        // exit A under 1 → exit A;B, OR 1 on S
        (Exit, First, GoalShape::Disjunction(..)) => change(Exit, join, Drop, Put(Bet::Or(First))),
        // exit B under 2 → exit A;B, OR 2 on S
        (Exit, Second, GoalShape::Disjunction(..)) => change(Exit, join, Drop, Put(Bet::Or(Second))),
        _ => no_rule(),
    }
}

/// Left sides with redo.
fn redone(event: &Event) -> Result<Change, Refusal> {
    let goal = &event.goal;
    match (goal.shape(), event.bets.top()) {
        // redo A,B → redo B, 2/A,B on U
        (GoalShape::Conjunction(_, b), _) => change(Redo, b, under(Second, goal), Keep),
        // redo A;B with OR N on S → redo of half N, N/A;B on U, that bet gone
        (GoalShape::Disjunction(a, b), Some(Bet::Or(half))) => change(Redo, if *half == First { a } else { b }, under(*half, goal), Drop),
        // redo true → fail true
        (GoalShape::True, _) => change(Fail, goal, Keep, Keep),
        // redo T1=T2 with a unifier on S → fail, that bet gone
        (GoalShape::Equality(..), Some(Bet::Unifier(_))) => change(Fail, goal, Keep, Drop),
        // redo P with BY B on S → redo B, P on U, that bet gone
        (GoalShape::Atom(..), Some(Bet::By(b))) => change(Redo, b, Put(Ancestor::Atom(goal.clone())), Drop),
        _ => no_rule(),
    }
}

/// The rules from right to left: what the event comes from. Each arm names the rule by its right side. The last question 7, whether what is found
/// steps forward to the event, is open in two of them only: exit T1=T2 (is it that unifier?) and call B under P (is it that body?). What those two
/// find is shorter than the event, so question 10 cannot come between.
fn back(program: &Program, event: &Event) -> Result<Change, Refusal> {
    match event.port {
        Call if event.ancestors.count() == 0 && event.bets.count() == 0 => Err(Question::Walk.into()),
        Call | Redo => entered(program, event),
        Exit => exited(event),
        Fail => failed(program, event),
    }
}

/// Right sides with call and redo: the goal is what its top ancestor has it for.
fn entered(program: &Program, event: &Event) -> Result<Change, Refusal> {
    let goal = &event.goal;
    let (half, join) = match event.ancestors.top() {
        None => return no_rule(),
        // call of P's body, P on U ← call P
        Some(Ancestor::Atom(p)) if event.port == Call => {
            return match body_of(program, p, event.stacks_above())? {
                Some(body) if same_goal(&body, goal) => change(Call, p, Drop, Keep),
                _ => no_rule(),
            };
        }
        // redo B, P on U ← redo P with BY B on S
        Some(Ancestor::Atom(p)) => return change(Redo, p, Drop, Put(Bet::By(goal.clone()))),
        Some(Ancestor::Join(half, join)) => (*half, join),
    };
    if !join.half(half).is_some_and(|part| same_goal(part, goal)) {
        return no_rule();
    }
    match (event.port, half, join.shape()) {
        // call A, 1/A,B on U ← call A,B
        (Call, First, GoalShape::Conjunction(..)) => change(Call, join, Drop, Keep),
        // call B under 2 ← exit A under 1
        (Call, Second, GoalShape::Conjunction(a, _)) => change(Exit, a, now_under(First, join), Keep),
        // redo A under 1 ← fail B under 2
        (Redo, First, GoalShape::Conjunction(_, b)) => change(Fail, b, now_under(Second, join), Keep),
        // redo B, 2/A,B on U ← redo A,B
        (Redo, Second, GoalShape::Conjunction(..)) => change(Redo, join, Drop, Keep),
        // call A, 1/A;B on U ← call A;B
        (Call, First, GoalShape::Disjunction(..)) => change(Call, join, Drop, Keep),
        // call B under 2 ← fail A under 1
        (Call, Second, GoalShape::Disjunction(a, _)) => change(Fail, a, now_under(First, join), Keep),
        // redo of half N, N/A;B on U ← redo A;B with OR N on S
        (Redo, _, GoalShape::Disjunction(..)) => change(Redo, join, Drop, Put(Bet::Or(half))),
        _ => no_rule(),
    }
}

/// Right sides with exit.
fn exited(event: &Event) -> Result<Change, Refusal> {
    let goal = &event.goal;
    match (goal.shape(), event.bets.top()) {
        // exit true ← call true
        (GoalShape::True, _) => change(Call, goal, Keep, Keep),
        // exit T1=T2 with the unifier on S ← call T1=T2
        (GoalShape::Equality(s, t), Some(Bet::Unifier(top))) => match unified(event, s, t, event.bets.count() - 1)? {
            Some(unifier) if unifier.same(top) => change(Call, goal, Keep, Drop),
            _ => no_rule(),
        },
        // exit A,B ← exit B under 2
        (GoalShape::Conjunction(_, b), _) => change(Exit, b, under(Second, goal), Keep),
        // exit A;B, OR N on S ← exit of half N under N
        (GoalShape::Disjunction(a, b), Some(Bet::Or(half))) => change(Exit, if *half == First { a } else { b }, under(*half, goal), Drop),
        // exit P, BY B on S ← exit B under P
        (GoalShape::Atom(..), Some(Bet::By(b))) => change(Exit, b, Put(Ancestor::Atom(goal.clone())), Drop),
        _ => no_rule(),
    }
}

/// Right sides with fail.
fn failed(program: &Program, event: &Event) -> Result<Change, Refusal> {
    let goal = &event.goal;
    match goal.shape() {
        // fail true ← redo true
        GoalShape::True => change(Redo, goal, Keep, Keep),
        // fail fail ← call fail
        GoalShape::Fail => change(Call, goal, Keep, Keep),
        // fail T1=T2 ← call if no unifier exists, else redo with that unifier on S
        GoalShape::Equality(s, t) => match unified(event, s, t, event.bets.count())? {
            None => change(Call, goal, Keep, Keep),
            Some(unifier) => change(Redo, goal, Keep, Put(Bet::Unifier(unifier))),
        },
        // fail A,B ← fail A under 1
        GoalShape::Conjunction(a, _) => change(Fail, a, under(First, goal), Keep),
        // fail A;B ← fail B under 2
        GoalShape::Disjunction(_, b) => change(Fail, b, under(Second, goal), Keep),
        // fail P ← call P if P has no definition, else fail B under P, where B is the body that P has under U (SPECIFICATION 6.1)
        GoalShape::Atom(..) => match body_of(program, goal, event.above())? {
            None => change(Call, goal, Keep, Keep),
            Some(body) => change(Fail, &body, Put(Ancestor::Atom(goal.clone())), Keep),
        },
    }
}
