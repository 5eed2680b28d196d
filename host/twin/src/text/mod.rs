//! Rules as text (M-103): clauses, or a goal behind them, to a record and a list of names. Written from the request alone: tokens, then trees with an
//! own stack for whatever nests, then the record. The number of a name is its place in the list of names, which stands in order of first appearance.

mod names;
mod parser;
mod tokens;

use crate::gate::{room, Question, Refusal, RECORD_LIMIT};
use crate::records::{writer, GoalRef};
use names::Names;
use parser::{Parser, Sentence};
use tokens::tokens;

/// The longest text; a query and the rules that it stands behind count together.
pub const TEXT_LIMIT: usize = 65_535;

/// The number, the list of names (its length is what is handed back beside it), and the record: both are empty after a refusal.
#[derive(Clone, Debug, PartialEq, Eq)]
pub struct ReadReply {
    pub number: u8,
    pub names: Vec<u8>,
    pub bytes: Vec<u8>,
}

fn reply(answer: Result<(Vec<u8>, Vec<u8>), Refusal>) -> ReadReply {
    match answer {
        Ok((names, bytes)) => ReadReply { number: 0, names, bytes },
        Err(Refusal(number)) => ReadReply { number, names: Vec::new(), bytes: Vec::new() },
    }
}

/// A text of clauses to its clause record: 20, 21, 22, 3, 5, 10, each asked of the whole text before the next.
pub fn read(text: &[u8], names_len: usize, out_len: usize) -> ReadReply {
    reply((|| {
        bytes_allowed(text)?;
        let mut names = Names::default();
        let mut parser = Parser::new(tokens(text)?, &mut names);
        let clauses = parser.clauses()?;
        let kept = clauses.iter().all(|clause| clause.kept);
        let list = named(&[text], &names, names_len)?;
        limits_kept(kept)?;
        room(out_len)?;
        fits(clauses.iter().fold(5, |sum, clause| sum + clause.length()))?;
        let clauses: Vec<_> = clauses.into_iter().map(Sentence::into_clause).collect();
        Ok((list, writer::clauses(&clauses)))
    })())
}

/// A goal, read as the body of one more clause behind those of `rules`, to its query record. The names of the rules stand first in the list; what
/// the rules' own record would be is not asked.
pub fn read_query(rules: &[u8], query: &[u8], names_len: usize, out_len: usize) -> ReadReply {
    reply((|| {
        bytes_allowed(rules)?;
        bytes_allowed(query)?;
        let mut names = Names::default();
        Parser::new(tokens(rules)?, &mut names).clauses()?;
        let (goal, kept) = Parser::new(tokens(query)?, &mut names).query()?;
        let list = named(&[rules, query], &names, names_len)?;
        limits_kept(kept)?;
        room(out_len)?;
        fits(query_length(&goal))?;
        Ok((list, writer::query(&goal)))
    })())
}

/// Question 20.
fn bytes_allowed(text: &[u8]) -> Result<(), Refusal> {
    if text.iter().all(|&byte| tokens::is_allowed(byte)) {
        Ok(())
    } else {
        Err(Question::Byte.into())
    }
}

/// Question 22: the texts together are not too long, and the list of names fits its buffer.
fn named(texts: &[&[u8]], names: &Names, names_len: usize) -> Result<Vec<u8>, Refusal> {
    let list = names.list();
    if texts.iter().map(|text| text.len()).sum::<usize>() <= TEXT_LIMIT && list.len() <= names_len {
        Ok(list)
    } else {
        Err(Question::Length.into())
    }
}

/// Question 3, which is about arities and the number of variables here.
fn limits_kept(kept: bool) -> Result<(), Refusal> {
    if kept {
        Ok(())
    } else {
        Err(Question::Grammar.into())
    }
}

/// The length field, the version and the goal.
fn query_length(goal: &GoalRef) -> u64 {
    3 + u64::from(goal.length())
}

/// Question 10.
fn fits(length: u64) -> Result<(), Refusal> {
    if length <= RECORD_LIMIT as u64 {
        Ok(())
    } else {
        Err(Question::Fit.into())
    }
}
