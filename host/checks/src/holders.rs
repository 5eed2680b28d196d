//! Which of an event's bets, goal and ancestors hold its greatest variable (SPECIFICATION 4), for the table.

use twin::records::reader;

/// The parts that hold it, as bits: 1 the bets, 2 the goal, 4 the ancestors.
pub const HOLDERS: [&str; 8] =
    ["no part", "bets", "goal", "bets and goal", "ancestors", "bets and ancestors", "goal and ancestors", "bets, goal and ancestors"];

/// Nothing of an event that is refused.
pub fn holders(event: &[u8]) -> Option<usize> {
    let event = reader::event(event).ok()?;
    let m = event.above();
    let parts = [event.bets.above(), event.goal.above(), event.ancestors.above()];
    Some(parts.iter().enumerate().filter(|(_, &above)| above > 0 && above == m).map(|(i, _)| 1 << i).sum())
}
