//! To the end or the entry of a goal by runs: the goal walked without the ancestors around it.
//!
//! From an entry of a goal to its next end every event is inside the goal, and what is around it decides nothing but the numbers of new variables and the
//! length of records (SPECIFICATION 4 and 9.9). So the ancestors around it are put by, and in their place stands one that holds their greatest variable
//! and that no rule goes on under. A run of such an event is refused at the goal's end, or back at its entry, and tells how many steps lead there. The
//! steps themselves are then made by the event as it is.

use fourport::{Ancestor, Event, GoalKind, GoalView};
use layout::{ancestor_end, equality, half, record, variable, EVENT_GOAL_AT, FAIL, IN_CONJUNCTION, PORT_AT, TRUE};

/// The tag of a first half, and the bytes of a count.
const FIRST: u8 = 1;
const COUNT_BYTES: usize = 2;

/// The event with so many of its nearest ancestors, and in place of the others one that nothing goes on under: no goal is the half that it names. Nothing
/// where the library refuses such a record, as one that is too long.
pub fn inside(event: &Event, kept: u16) -> Option<Event> {
    let (bytes, goal) = (event.as_bytes(), event.goal());
    let from = EVENT_GOAL_AT + goal.as_bytes().len() + COUNT_BYTES;
    let behind = |ancestors: u16| (0..ancestors).fold(from, |at, _| ancestor_end(bytes, at));
    let put_by = event.ancestors().skip(usize::from(kept));
    let greatest = put_by.flat_map(|ancestor| goals(ancestor).into_iter().flatten()).flat_map(GoalView::variables).max();
    let other = if goal.kind() == GoalKind::Fail { TRUE } else { FAIL };
    let body = [
        bytes.get(PORT_AT..from - COUNT_BYTES)?,
        &(kept + 1).to_be_bytes(),
        bytes.get(from..behind(kept))?,
        &half(IN_CONJUNCTION, FIRST, &other, &holding(greatest)),
        bytes.get(behind(event.ancestor_count())..)?,
    ];
    Event::from_bytes(record(&body.concat())).ok()
}

/// A goal that holds a variable; or none.
fn holding(greatest: Option<u16>) -> Vec<u8> {
    greatest.map_or(TRUE.to_vec(), |number| equality(&variable(number), &variable(number)))
}

fn goals(ancestor: Ancestor<'_>) -> [Option<GoalView<'_>>; 2] {
    match ancestor {
        Ancestor::Atom(atom) => [Some(atom), None],
        Ancestor::Conjunction { left, right, .. } | Ancestor::Disjunction { left, right, .. } => [Some(left), Some(right)],
    }
}
