//! FOURPORT_CASES generated cases (200,000 by default) from FOURPORT_SEED, put to the desk and to the twin. Prints a table of what was met,
//! or the first difference whole; fails too where a number, a rule, a part that numbers a body, parts that hold the greatest variable, a sort of list
//! of answers, of door or of text, or an event that training material speaks of were never met. Where FOURPORT_KINDS names kinds of case, parted by
//! commas, only these are made, and what was not met is not asked.

use checks::check;
use std::process::ExitCode;
use std::time::Instant;
use std::{env, thread};

const CASES: u64 = 200_000;

fn set(name: &str, otherwise: u64) -> u64 {
    env::var(name).ok().and_then(|text| text.parse().ok()).unwrap_or(otherwise)
}

fn compared() -> bool {
    let (seed, cases, start) = (set("FOURPORT_SEED", 1), set("FOURPORT_CASES", CASES), Instant::now());
    let only: Vec<String> = env::var("FOURPORT_KINDS").map_or_else(|_| Vec::new(), |names| names.split(',').map(String::from).collect());
    match check(seed, cases, &only) {
        Err(difference) => {
            println!("{difference}");
            false
        }
        Ok(table) => {
            println!("{table}");
            let missed = if only.is_empty() { table.missed() } else { Vec::new() };
            missed.iter().for_each(|what| println!("missed: {what}"));
            println!("{} cases from seed {seed}, no difference, {:.1} s", table.cases(), start.elapsed().as_secs_f64());
            missed.is_empty()
        }
    }
}

fn main() -> ExitCode {
    // deep terms need more than the 2 MiB of an ordinary thread
    let checked = thread::Builder::new().stack_size(8 << 20).spawn(compared).map(thread::JoinHandle::join);
    if matches!(checked, Ok(Ok(true))) {
        ExitCode::SUCCESS
    } else {
        ExitCode::FAILURE
    }
}
