//! What a list of answers was asked for with, and what it holds, for the table; the exits of a query, and the typed list.

use fourport::{Answer, Program, Query, Used};
use layout::{by, listed, or, unifier, VARIABLE};
use twin::records::goal::{same_goal, Goal, GoalShape};
use twin::records::{reader, Event, Port};
use twin::rules::{step, Direction};

/// What a list is asked for with, or shows.
#[derive(Clone, Copy)]
pub enum Sort {
    NoSteps,
    ToAnExit,
    BeforeAnExit,
    ToTheFail,
    BeyondTheFail,
    NoAnswer,
    Several,
    Equal,
    NoVariable,
    Unbound,
    Deeper,
    LastByte,
    OneByteLess,
    KeptBefore8,
    KeptBefore10,
    StepRefused,
    FirstRefused,
}

pub const LISTINGS: [&str; 17] = [
    "no steps",
    "steps up to an exit",
    "one step less",
    "steps up to the final fail",
    "one step more",
    "a whole list without an answer",
    "several answers",
    "two answers with equal values",
    "answers without variables",
    "a variable that is unbound",
    "an exit of the query deeper down",
    "over 32,768 bytes, to the last one",
    "one byte less for them",
    "8 behind an answer",
    "10 behind an answer",
    "10 of a step",
    "10 of the first event",
];

/// The steps that lead to the exits of Q with one ancestor in the walk of 'Q, fail', and whether one has more.
pub struct Exits {
    pub answers: Vec<u32>,
    pub deeper: bool,
}

/// Nothing of records that are refused.
pub fn exits(program: &[u8], query: &[u8], most: u32) -> Option<Exits> {
    let (program, query) = (reader::program(program).ok()?, reader::query(query).ok()?);
    let mut event = Event::first(Goal::new(GoalShape::Conjunction(query.clone(), Goal::new(GoalShape::Fail))));
    let mut found = Exits { answers: Vec::new(), deeper: false };
    for taken in 1..=most {
        if step(Direction::Forward, &program, &mut event).is_err() {
            break;
        }
        if event.port == Port::Exit && same_goal(&event.goal, &query) {
            match event.ancestors.count() {
                1 => found.answers.push(taken),
                _ => found.deeper = true,
            }
        }
    }
    Some(found)
}

/// The answers that the typed list gives within these bounds, and its stop's number, 6 where there is none; nothing of records that are refused.
pub fn typed(program: &[u8], query: &[u8], steps: u32, room: usize) -> Option<(Vec<Answer>, u32)> {
    let (program, query) = (Program::from_bytes(program).ok()?, Query::from_bytes(query).ok()?);
    let (mut found, mut number) = (Vec::new(), 6);
    for item in program.answers(&query).with_steps(steps).with_room(room) {
        match item {
            Ok(answer) => found.push(answer),
            Err(stop) => number = stop.number(),
        }
    }
    Some((found, number))
}

/// The bytes of answers, laid out anew.
pub fn laid_out(answers: &[Answer]) -> Vec<u8> {
    let bet = |used: &Used| match used {
        Used::Branch(half) => or(*half as u8),
        Used::Body(goal) => by(goal.as_bytes()),
    };
    let one = |answer: &Answer| {
        let values: Vec<(u16, Vec<u8>)> = answer.values.iter().map(|(v, term)| (*v, term.as_bytes().to_vec())).collect();
        [&unifier(&values)[1..], &listed(&answer.used.iter().map(bet).collect::<Vec<_>>())].concat()
    };
    answers.iter().flat_map(one).collect()
}

/// What a list of answers holds.
pub fn held(answers: &[Answer]) -> Vec<Sort> {
    let unbound = |answer: &Answer| answer.values.iter().any(|(_, term)| term.as_bytes().first() == Some(&VARIABLE));
    let equal = answers.iter().enumerate().any(|(i, one)| answers[..i].iter().any(|other| other.values == one.values));
    let holds = [
        (Sort::Several, answers.len() > 1),
        (Sort::Equal, equal && answers.iter().any(|answer| !answer.values.is_empty())),
        (Sort::NoVariable, answers.iter().any(|answer| answer.values.is_empty())),
        (Sort::Unbound, answers.iter().any(unbound)),
    ];
    holds.into_iter().filter(|(_, holds)| *holds).map(|(listing, _)| listing).collect()
}
