//! Every sheet of a small garage: two bays side by side, three lights, and no two neighbours with the same one. Prints each answer with the branches
//! and bodies that gave it, oldest first, and whether the list is whole.

use fourport::{Answer, Clauses, Half, Names, Query, Used};
use std::error::Error;

const RULES: &str = "
    light(red). light(amber). light(green).
    differ(red, amber). differ(red, green). differ(amber, red). differ(amber, green). differ(green, red). differ(green, amber).
    sheet(A, B) :- light(A), light(B), differ(A, B).
";
const QUERY: &str = "sheet(First, Second)";

fn used(answer: &Answer, names: &Names) -> String {
    let word = |used: &Used| match used {
        Used::Branch(Half::First) => "first".to_string(),
        Used::Branch(Half::Second) => "second".to_string(),
        Used::Body(goal) => goal.shown(names).to_string(),
    };
    answer.used.iter().map(|used| format!("    {}\n", word(used))).collect()
}

fn main() -> Result<(), Box<dyn Error>> {
    let program = Clauses::from_text(RULES)?.0.canonical()?;
    let (query, names) = Query::from_text(RULES, QUERY)?;
    let mut answers = program.answers(&query).with_steps(1_000_000);
    for answer in answers.by_ref() {
        match answer {
            Ok(answer) => print!("{}\n{}", answer.shown(&names), used(&answer, &names)),
            Err(stop) => println!("and perhaps more: {stop}"),
        }
    }
    println!("{} after {} steps", if answers.is_whole() { "these are all," } else { "stopped" }, answers.taken());
    Ok(())
}
