//! Back to the door of an event (SPECIFICATION 8.13): steps back to the nearest event, itself included, that calls the same goal with the same
//! ancestors, whatever the bets are.

use crate::gate::{Question, Refusal};
use crate::records::goal::same_goal;
use crate::records::{writer, Ancestor, Event, GoalRef, Port, Program};
use crate::rules::{asked, Direction};
use crate::services::{lent, RunReply};

/// What a door's event has in common with the one whose door it is: the goal, and the ancestors top first.
struct Door {
    goal: GoalRef,
    ancestors: Vec<Ancestor>,
}

impl Door {
    fn of(event: &Event) -> Door {
        Door { goal: event.goal.clone(), ancestors: event.ancestors.top_first().cloned().collect() }
    }

    fn is(&self, event: &Event) -> bool {
        event.port == Port::Call
            && event.ancestors.count() == self.ancestors.len()
            && same_goal(&event.goal, &self.goal)
            && event.ancestors.top_first().zip(&self.ancestors).all(|(one, other)| one.same(other))
    }
}

/// Steps back from the event until it is its door. The limit is asked for after all questions of the step that would be next.
fn walked(program: &Program, event: &mut Event, limit: u32, taken: &mut u32) -> Result<(), Refusal> {
    let door = Door::of(event);
    while !door.is(event) {
        let before = asked(Direction::Back, program, event)?;
        if *taken == limit {
            return Err(Question::Limit.into());
        }
        event.apply(before);
        *taken += 1;
    }
    Ok(())
}

/// The door within so many steps back, or the last event that they came to.
pub fn door(program: &[u8], event: &[u8], limit: u32, out_len: usize) -> RunReply {
    let (program, mut event) = match lent(program, event, out_len) {
        Ok(lent) => lent,
        Err(Refusal(number)) => return RunReply { number, steps: 0, bytes: Vec::new() },
    };
    let mut steps = 0;
    let number = walked(&program, &mut event, limit, &mut steps).err().map_or(0, |Refusal(number)| number);
    RunReply { number, steps, bytes: writer::event(&event) }
}
