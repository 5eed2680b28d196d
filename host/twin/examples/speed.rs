//! Steps per second of the run service: a search through 20 two-valued bays, 5,000,000 steps forward and the same back; and the little garage of
//! examples/three-bays.in, 119 steps forward and back, read and written anew each time.

use layout::{atom, conjunction, constant, definition, disjunction, equality, program, record, variable, FAIL};
use std::time::Instant;
use twin::gate::RECORD_LIMIT as ROOM;
use twin::rules::Direction::{Back, Forward};
use twin::services::{first, run};

const STEPS: u32 = 5_000_000;

fn main() {
    long_run();
    short_runs();
}

fn short_runs() {
    let input = include_bytes!("../../../examples/three-bays.in");
    let (program, query) = layout::split_record(input);
    let event = first(query, ROOM).bytes;
    let (start, mut steps) = (Instant::now(), 0);
    for _ in 0..10_000 {
        let there = run(program, &event, u32::MAX, Forward, ROOM);
        let again = run(program, &there.bytes, u32::MAX, Back, ROOM);
        assert_eq!((there.steps, again.steps, &again.bytes), (119, 119, &event));
        steps += there.steps + again.steps;
    }
    println!("three bays: {steps} steps, {:.0} steps a second", f64::from(steps) / start.elapsed().as_secs_f64());
}

fn long_run() {
    // bay(V) :- V = a; V = b.   ?- bay(V0), (bay(V1), .. (bay(V19), fail)).
    let [a, b] = [2, 3].map(|symbol| equality(&variable(0), &constant(symbol)));
    let program = program(&[definition(5, 1, 0, &disjunction(&a, &b))]);
    let query = record(&(0..20).rev().fold(FAIL.to_vec(), |rest, i| conjunction(&atom(5, &[variable(i)]), &rest)));
    let mut event = first(&query, ROOM).bytes;
    for (word, direction) in [("forward", Forward), ("back", Back)] {
        let start = Instant::now();
        let run = run(&program, &event, STEPS, direction, ROOM);
        let seconds = start.elapsed().as_secs_f64();
        println!("{word}: number {}, {} steps, {:.0} steps a second", run.number, run.steps, f64::from(run.steps) / seconds);
        event = run.bytes;
    }
    assert_eq!(event, first(&query, ROOM).bytes);
}
