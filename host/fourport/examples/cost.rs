//! What a call costs: the boundary alone, the smallest calls of each service, and a garage walked forward and back by single steps and by runs.

use fourport::{raw, Counts, Direction, Event, Program, Query, RECORD_LIMIT};
use layout::{record, split_record, CALL_TRUE, NO_DEFINITIONS, TRUE};
use std::hint::black_box;
use std::time::Instant;

fn timed(name: &str, calls: u32, mut call: impl FnMut()) {
    let start = Instant::now();
    (0..calls).for_each(|_| call());
    println!("{name:<44} {:>9.1} ns", start.elapsed().as_secs_f64() * 1e9 / f64::from(calls));
}

fn calls() {
    let (program, call, query) = (NO_DEFINITIONS, CALL_TRUE, record(&TRUE));
    let mut out = vec![0; RECORD_LIMIT];
    let mut counts = Counts::default();
    timed("count of no bytes (refused at once)", 20_000_000, || _ = black_box(raw::count(&mut counts, black_box(&[]))));
    timed("count", 5_000_000, || _ = black_box(raw::count(&mut counts, black_box(&call))));
    timed("lookup", 5_000_000, || _ = black_box(raw::lookup(black_box(&program), &call, &mut 0)));
    timed("greatest variable", 5_000_000, || _ = black_box(raw::greatest(black_box(&call), &mut 0, &mut 0)));
    timed("canonical, no clauses", 500_000, || _ = black_box(raw::canonical(black_box(&program), &mut out)));
    timed("read, no clauses", 100_000, || _ = black_box(raw::read(black_box(b""), &mut [], &mut out, &mut 0)));
    timed("read_query of true", 100_000, || _ = black_box(raw::read_query(black_box(b""), b"true", &mut [], &mut out, &mut 0)));
    timed("first", 5_000_000, || _ = black_box(raw::first(black_box(&query), &mut out)));
    timed("forward", 2_000_000, || _ = black_box(raw::forward(black_box(&program), &call, &mut out)));
    timed("back (refused by 6)", 2_000_000, || _ = black_box(raw::back(black_box(&program), &call, &mut out)));
    timed("run of one step", 500_000, || _ = black_box(raw::run(black_box(&program), &call, 1, 0, &mut out, &mut 0)));
    timed("door, no step back", 500_000, || _ = black_box(raw::door(black_box(&program), &call, 0, &mut out, &mut 0)));
    timed("answers of true", 100_000, || _ = black_box(raw::answers(black_box(&program), &query, u32::MAX, &mut out, &mut 0, &mut 0)));
    timed("value", 500_000, || _ = black_box(raw::value(black_box(&call), 0, &mut out, &mut 0)));
}

fn walks() -> Result<(), fourport::Refusal> {
    let input = include_bytes!("../../../examples/three-bays.in");
    let (program, query) = split_record(input);
    let program = Program::from_bytes(program)?;
    let start = Event::first(&Query::from_bytes(query)?)?;
    println!("three bays, 119 steps forward and 119 back:");
    let mut walk = program.walk(start.clone());
    timed("  a walk, step by step", 2_000, || {
        while walk.forward().is_ok() {}
        while walk.back().is_ok() {}
    });
    timed("  two runs", 2_000, || {
        let there = program.run(&start, u32::MAX, Direction::Forward);
        _ = black_box(there.and_then(|there| program.run(&there.event, u32::MAX, Direction::Back)));
    });
    Ok(())
}

fn main() {
    calls();
    if let Err(refusal) = walks() {
        println!("{refusal}");
    }
}
