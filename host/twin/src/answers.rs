//! Every answer of a query Q (SPECIFICATION 8.12): the walk of 'Q, fail', and an answer at each exit of Q whose only ancestor is 1/Q,fail.

use crate::gate::{room, second, Question, Refusal, RECORD_LIMIT};
use crate::records::bets::Bet;
use crate::records::goal::{same_goal, Goal, GoalRef, GoalShape, Half};
use crate::records::term::{Shape, Term, TermRef};
use crate::records::{ancestors::Ancestor, reader, writer, Event, Port, Program};
use crate::rules::{step, Direction};
use crate::terms::value::value;
use std::collections::BTreeSet;

/// The number, the steps made, and the answers that are kept, one behind the other.
#[derive(Clone, Debug, PartialEq, Eq)]
pub struct AnswersReply {
    pub number: u8,
    pub steps: u32,
    pub bytes: Vec<u8>,
}

fn variables(goal: &Goal) -> BTreeSet<u16> {
    let mut met = BTreeSet::new();
    let mut ahead: Vec<TermRef> = Vec::new();
    goal.each_term(|term| ahead.push(term.clone()));
    while let Some(term) = ahead.pop() {
        match term.shape() {
            Shape::Variable(variable) => {
                met.insert(*variable);
            }
            Shape::Symbol(_, arguments) => ahead.extend(arguments.iter().cloned()),
        }
    }
    met
}

fn is_answer(event: &Event, all: &GoalRef) -> bool {
    let under = matches!(event.ancestors.top(), Some(Ancestor::Join(Half::First, join)) if same_goal(join, all));
    event.port == Port::Exit && event.ancestors.count() == 1 && under && all.half(Half::First).is_some_and(|query| same_goal(&event.goal, query))
}

/// The values of the variables by rising number, then the BY and OR bets from the bottom of the stack up.
fn answer(event: &Event, variables: &BTreeSet<u16>) -> Result<Vec<u8>, Refusal> {
    let values: Vec<TermRef> = variables.iter().map(|&v| value(&Term::variable(v), &event.bets, event.bets.count())).collect::<Result<_, _>>()?;
    let mut bytes = (variables.len() as u16).to_be_bytes().to_vec();
    for (variable, value) in variables.iter().zip(&values) {
        bytes.extend(variable.to_be_bytes());
        writer::term(&mut bytes, value);
    }
    let mut used: Vec<&Bet> = event.bets.top_first().filter(|bet| !matches!(bet, Bet::Unifier(_))).collect();
    used.reverse();
    bytes.extend((used.len() as u16).to_be_bytes());
    used.into_iter().for_each(|bet| writer::bet(&mut bytes, bet));
    Ok(bytes)
}

/// 1 to 4 of the program, 11 to 13 of the query, 5, and 10 of the first event of 'Q, fail'.
fn begun(program: &[u8], query: &[u8], out_len: usize) -> Result<(Program, Event), Refusal> {
    let program = reader::program(program)?;
    let query = second(reader::query(query))?;
    room(out_len)?;
    let event = Event::first(Goal::new(GoalShape::Conjunction(query, Goal::new(GoalShape::Fail))));
    if event.length() > RECORD_LIMIT as u64 {
        return Err(Question::Fit.into());
    }
    Ok((program, event))
}

/// The answers within so many steps, as many as the output has room for.
pub fn answers(program: &[u8], query: &[u8], steps: u32, out_len: usize) -> AnswersReply {
    let mut reply = AnswersReply { number: 0, steps: 0, bytes: Vec::new() };
    reply.number = listed(program, query, steps, out_len, &mut reply).err().map_or(0, |Refusal(number)| number);
    reply
}

fn listed(program: &[u8], query: &[u8], steps: u32, out_len: usize, reply: &mut AnswersReply) -> Result<(), Refusal> {
    let (program, mut event) = begun(program, query, out_len)?;
    let all = event.goal.clone();
    let variables = variables(&all);
    while reply.steps < steps {
        step(Direction::Forward, &program, &mut event)?;
        reply.steps += 1;
        if is_answer(&event, &all) {
            let bytes = answer(&event, &variables)?;
            if reply.bytes.len() + bytes.len() > out_len {
                return Err(Question::Fit.into());
            }
            reply.bytes.extend(bytes);
        }
    }
    Ok(())
}
