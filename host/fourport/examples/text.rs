//! text [--events] RULES QUERY: reads rules and a query as text and prints every answer with names, and whether these are all. With --events it prints
//! the walk instead: for each event its number, its port, how many ancestors and bets it has, and its goal; then the number that ended the walk.

use fourport::{Clauses, Event, Names, Program, Query, STACK};
use std::error::Error;
use std::{env, fs, thread};

type Done = Result<(), Box<dyn Error + Send + Sync>>;

/// A walk need not end.
const MOST_STEPS: u32 = 1_000_000;

fn main() -> Done {
    thread::Builder::new().stack_size(STACK).spawn(shown)?.join().expect("the desk does not panic")
}

fn shown() -> Done {
    let mut words: Vec<String> = env::args().skip(1).collect();
    let events = words.first().is_some_and(|word| word == "--events");
    words.drain(..usize::from(events));
    let [rules, query] = &words[..] else { return Err("text [--events] RULES QUERY".into()) };
    let (rules, query) = (fs::read(rules)?, fs::read(query)?);
    let (clauses, _) = Clauses::from_text(&rules)?;
    let (query, names) = Query::from_text(&rules, query)?;
    let program = clauses.canonical()?;
    if events {
        walked(&program, &query, &names)
    } else {
        answered(&program, &query, &names);
        Ok(())
    }
}

fn answered(program: &Program, query: &Query, names: &Names) {
    let mut answers = program.answers(query).with_steps(MOST_STEPS);
    for answer in answers.by_ref() {
        match answer {
            Ok(answer) => println!("{}", answer.shown(names)),
            Err(stop) => println!("and perhaps more: {stop}"),
        }
    }
    println!("{} after {} steps", if answers.is_whole() { "these are all," } else { "stopped" }, answers.taken());
}

/// The event's line as the stories of the examples show it.
fn line(step: u32, event: &Event, names: &Names) -> String {
    let (port, goal) = (event.port(), event.goal());
    format!("{step} {port} {} {}  {}", event.ancestor_count(), event.bet_count(), goal.shown(names))
}

fn walked(program: &Program, query: &Query, names: &Names) -> Done {
    let mut event = Event::first(query)?;
    println!("{}", line(0, &event, names));
    for step in 1..=MOST_STEPS {
        event = match program.forward(&event) {
            Ok(next) => next,
            Err(refusal) => {
                println!("stop {}", refusal.number());
                return Ok(());
            }
        };
        println!("{}", line(step, &event, names));
    }
    println!("stop 0");
    Ok(())
}
