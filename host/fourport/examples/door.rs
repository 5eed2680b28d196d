//! One key back to the door of a goal: in the garage examples/three-bays a planner stands where bay 2 has got its cable, goes back to where a cable
//! for it was first asked for, and forward again to where he stood. Prints the three events, and the cable of bay 2 at each.

use fourport::{Clauses, Event, Names, Query, Refusal, Walk};
use std::error::Error;

const RULES: &str = include_str!("../../../examples/three-bays.pl");
const QUERY: &str = include_str!("../../../examples/three-bays.query");

/// The variable that stands for bay 2 in the walk.
const BAY_2: u16 = 4;

fn told(words: &str, walk: &Walk<'_>, names: &Names) -> Result<(), Refusal> {
    let (event, cable) = (walk.event(), walk.event().value(BAY_2)?);
    println!("{words:<24} event {:>3}, {}, V{BAY_2} = {}", walk.net(), event.shown(names), cable.shown(names));
    Ok(())
}

fn main() -> Result<(), Box<dyn Error>> {
    let program = Clauses::from_text(RULES)?.0.canonical()?;
    let (query, names) = Query::from_text(RULES, QUERY)?;
    let mut walk = program.walk(Event::first(&query)?);
    walk.forwards().for_each(drop);
    walk.backs().find(|event| event.shown(&names).to_string() == "exit cable(V4)");
    told("the planner stands at", &walk, &names)?;

    let here = walk.net();
    walk.door(u32::MAX)?;
    told("the door of this goal", &walk, &names)?;

    while walk.net() < here {
        walk.forward()?;
    }
    told("and forward again", &walk, &names)?;
    Ok(())
}
