//! The body of an atom: head variables become the arguments, as they stand and all at once; local i becomes m + i.

use super::rebuild::{self, Image};
use crate::gate::{Question, Refusal};
use crate::records::{Definition, GoalRef, Term, TermRef};

/// The body of the definition for these arguments, its locals numbered from m; question 9.
pub fn body(definition: &Definition, arguments: &[TermRef], m: u32) -> Result<GoalRef, Refusal> {
    if definition.locals > 0 && m + u32::from(definition.locals) - 1 > 65_535 {
        return Err(Question::Locals.into());
    }
    let mut locals: Vec<Option<TermRef>> = vec![None; usize::from(definition.locals)];
    let mut image = |variable: u16| match arguments.get(usize::from(variable)) {
        Some(argument) => argument.clone(),
        None => {
            let i = usize::from(variable) - arguments.len();
            locals[i].get_or_insert_with(|| Term::variable((m + i as u32) as u16)).clone()
        }
    };
    Ok(rebuild::goal(&definition.goal, |term| {
        rebuild::term(term, 0, u32::MAX, |variable, _| Image::Is(image(variable))).unwrap_or_else(|| term.clone())
    }))
}
