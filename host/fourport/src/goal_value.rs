//! The goal of an event with the values of its variables in it.

use crate::views::nodes;
use crate::{Event, Goal, Refusal, Term, RECORD_LIMIT};
use layout::{number_at, VARIABLE};
use std::collections::hash_map::Entry;
use std::collections::HashMap;

impl Event {
    /// The goal, with [`Event::value`] of each variable in its place. It is what one compares with a goal that is looked for. Refused by
    /// [`Refusal::Value`], and by [`Refusal::Fit`] where it would have over 32,768 bytes: by the first of both that is met from left to right. The desk
    /// is asked once for each variable of the goal, and each time reads the event.
    ///
    /// ```
    /// # use fourport::{Clauses, Event, Query};
    /// let rules = "cable(left). lamp(Side) :- cable(Side).";
    /// let program = Clauses::from_text(rules)?.0.canonical()?;
    /// let (query, names) = Query::from_text(rules, "lamp(left)")?;
    /// let mut walk = program.walk(Event::first(&query)?);
    /// assert!(walk.forward_until(100, |event| event.goal().shown(&names).to_string() == "cable(V0)")?);
    /// assert_eq!(walk.event().goal_value()?.shown(&names).to_string(), "cable(left)");
    /// # Ok::<(), Box<dyn std::error::Error>>(())
    /// ```
    pub fn goal_value(&self) -> Result<Goal, Refusal> {
        let (mut goal, mut values) = (Vec::new(), HashMap::new());
        for node in nodes(self.goal().as_bytes()) {
            let part = match node.first() {
                Some(&VARIABLE) => self.value_once(number_at(node, 1), &mut values)?,
                _ => node,
            };
            goal.extend_from_slice(part);
            // a value stands in every place of its variable: without the limit a short event could have a long goal
            if goal.len() > RECORD_LIMIT {
                return Err(Refusal::Fit);
            }
        }
        Ok(Goal::written(goal))
    }

    /// The value of a variable, for which the desk is asked once.
    fn value_once<'v>(&self, v: u16, values: &'v mut HashMap<u16, Term>) -> Result<&'v [u8], Refusal> {
        Ok(match values.entry(v) {
            Entry::Occupied(known) => known.into_mut(),
            Entry::Vacant(place) => place.insert(self.value(v)?),
        }
        .as_bytes())
    }
}
