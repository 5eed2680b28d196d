//! The programs of host/c: they print what the typed crate answers.

use crate::compiled::{compiled, each_prints, file, made, repository, run, text, LANGUAGES};
use crate::{hex, words_of};
use fourport::{Clauses, Event, Program, Query, Refusal, Used, Which};
use std::fs;
use std::path::Path;

/// The steps of host/c/answers.c.
const STEPS: u32 = 100_000;

fn one_bay() -> (Program, Query) {
    let bytes = file("examples/one-bay.in");
    let program = layout::record_at(&bytes);
    (Program::from_bytes(program).expect("a program"), Query::from_bytes(&bytes[program.len()..]).expect("a query"))
}

#[test]
fn walk_program() {
    let (program, query) = one_bay();
    let mut walk = program.walk(Event::first(&query).expect("a first event"));
    let there: Vec<Event> = std::iter::once(walk.event().clone()).chain(walk.forwards().collect::<Vec<_>>()).collect();
    let lines: Vec<String> =
        there.iter().enumerate().map(|(at, event)| format!("{at} {} under {}\n", event.port(), event.ancestor_count())).collect();
    let back: String = lines.iter().rev().skip(1).map(String::as_str).collect();
    let stop = format!("stop {}: {}\n", Refusal::Walk.number(), Refusal::Walk.question());
    each_prints("walk", &["examples/one-bay.in"], &format!("{}{stop}and back\n{back}{stop}", lines.concat()));
}

#[test]
fn answers_program() {
    let (program, query) = one_bay();
    let mut answers = program.answers(&query).with_steps(STEPS);
    let mut due = String::new();
    for (ordinal, answer) in answers.by_ref().enumerate() {
        let answer = answer.expect("a whole list");
        due += &format!("answer {}\n", ordinal + 1);
        due.extend(answer.values.iter().map(|(variable, value)| format!("  V{variable} ={}\n", hex(value.as_bytes()))));
        due.extend(answer.used.iter().map(|used| match used {
            Used::Body(body) => format!("  by the body{}\n", hex(body.as_bytes())),
            Used::Branch(half) => format!("  by the branch{}\n", hex(&[*half as u8])),
        }));
    }
    due += &format!("stop {} after {} steps: these are all\n", Refusal::Walk.number(), answers.taken());
    each_prints("answers", &["examples/one-bay.in"], &due);
}

#[test]
fn read_program() {
    let (rules, goal) = (file("examples/one-bay.pl"), file("examples/one-bay.query"));
    let (clauses, _) = Clauses::from_text(&rules).expect("clauses");
    let (query, names) = Query::from_text(&rules, &goal).expect("a query");
    let listed: String = names.iter().enumerate().map(|(number, name)| format!("{number} {name}\n")).collect();
    let due = format!("clauses{}\nquery{}\n{listed}", hex(clauses.as_bytes()), hex(query.as_bytes()));
    each_prints("read", &["examples/one-bay.pl", "examples/one-bay.query"], &due);
}

/// Each program says by which number it is refused, and in words.
#[test]
fn refusals_in_words() {
    let damaged = made("damaged.in");
    fs::write(&damaged, [&layout::NO_DEFINITIONS[..], &[0, 2, 9, 0x10]].concat()).expect("a file");
    let refusal = Refusal::Version(Which::Event).number();
    let said = |name: &str, words: &[&Path]| {
        let done = run(&compiled(&repository().join("host/c").join(format!("{name}.c")), LANGUAGES[0]), words);
        (done.status.code(), text(done.stdout), text(done.stderr))
    };
    let refused = format!("refused by {refusal}: {}\n", words_of(refusal));
    assert_eq!(said("walk", &[&damaged]), (Some(1), String::new(), refused));
    let stopped = format!("stop {refusal} after 0 steps: {}\n", words_of(refusal));
    assert_eq!(said("answers", &[&damaged]), (Some(0), stopped, String::new()));
    let (byte, rules) = (Refusal::Byte.number(), repository().join("examples/one-bay.in"));
    let refused = format!("refused by {byte}: {}\n", words_of(byte));
    assert_eq!(said("read", &[&rules, &rules]), (Some(1), String::new(), refused));
}
