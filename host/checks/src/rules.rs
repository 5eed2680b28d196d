//! Which rule of SPECIFICATION 3.3 a step took, for the table.

use layout::{byte_at, port, PORT_AT};
use twin::records::{reader, Ancestor, GoalShape, Half, Port};

/// The rules, with both outcomes of the call of an equality and of an atom.
pub const RULES: [&str; 23] = [
    "call A,B -> call A, 1/A,B on U",
    "exit A under 1/A,B -> call B under 2",
    "fail A under 1/A,B -> fail A,B",
    "exit B under 2/A,B -> exit A,B",
    "fail B under 2/A,B -> redo A under 1",
    "redo A,B -> redo B, 2/A,B on U",
    "call A;B -> call A, 1/A;B on U",
    "fail A under 1/A;B -> call B under 2",
    "fail B under 2/A;B -> fail A;B",
    "exit A under 1/A;B -> exit A;B, OR 1 on S",
    "exit B under 2/A;B -> exit A;B, OR 2 on S",
    "redo A;B with OR N on S -> redo of half N, N/A;B on U",
    "call true -> exit true",
    "redo true -> fail true",
    "call fail -> fail fail",
    "call T1=T2 -> exit T1=T2, the unifier on S",
    "call T1=T2 -> fail T1=T2",
    "redo T1=T2 with a unifier on S -> fail T1=T2",
    "call P -> call of P's body, P on U",
    "call P -> fail P",
    "exit B under P -> exit P, BY B on S",
    "fail B under P -> fail P",
    "redo P with BY B on S -> redo B, P on U",
];

/// The place in `RULES` of the rule that leads from one event record to another.
pub fn rule(from: &[u8], to: &[u8]) -> Option<usize> {
    let event = reader::event(from).ok()?;
    let under = event.ancestors.top().map(|ancestor| match ancestor {
        Ancestor::Atom(_) => (true, Half::First, false),
        Ancestor::Join(half, goal) => (false, *half, matches!(goal.shape(), GoalShape::Conjunction(..))),
    });
    let failed = byte_at(to, PORT_AT) == port::FAIL;
    Some(match (event.port, event.goal.shape(), under) {
        (Port::Call, GoalShape::Conjunction(..), _) => 0,
        (Port::Call, GoalShape::Disjunction(..), _) => 6,
        (Port::Call, GoalShape::True, _) => 12,
        (Port::Call, GoalShape::Fail, _) => 14,
        (Port::Call, GoalShape::Equality(..), _) => 15 + usize::from(failed),
        (Port::Call, GoalShape::Atom(..), _) => 18 + usize::from(failed),
        (Port::Redo, GoalShape::Conjunction(..), _) => 5,
        (Port::Redo, GoalShape::Disjunction(..), _) => 11,
        (Port::Redo, GoalShape::True, _) => 13,
        (Port::Redo, GoalShape::Equality(..), _) => 17,
        (Port::Redo, _, _) => 22,
        (Port::Exit, _, Some((true, _, _))) => 20,
        (Port::Fail, _, Some((true, _, _))) => 21,
        (Port::Exit, _, Some((_, Half::First, true))) => 1,
        (Port::Fail, _, Some((_, Half::First, true))) => 2,
        (Port::Exit, _, Some((_, Half::Second, true))) => 3,
        (Port::Fail, _, Some((_, Half::Second, true))) => 4,
        (Port::Fail, _, Some((_, Half::First, false))) => 7,
        (Port::Fail, _, Some((_, Half::Second, false))) => 8,
        (Port::Exit, _, Some((_, Half::First, false))) => 9,
        (Port::Exit, _, Some((_, Half::Second, false))) => 10,
        (Port::Exit | Port::Fail, _, None) => return None,
    })
}
