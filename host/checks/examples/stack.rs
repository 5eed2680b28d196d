//! The least native stack with which the deepest cases of each service pass: each is tried in a process of its own, on a thread of a given size, since
//! one that does not fit ends the process.

use checks::generate::texts;
use fourport::raw;
use layout::{atom, clause, clauses, definition, equality, event, nested, program, record, symbol, unifier, variable, TRUE};
use std::process::{Command, ExitCode, Stdio};
use std::{env, thread};

/// A call with an output of 32,768 bytes.
type Call = fn(&mut [u8]) -> u32;

const CASES: [(&str, Call); 22] = [
    ("nothing", |_| 0),
    ("read, brackets", |out| read(&texts::brackets(32_765), out)),
    ("read, terms", |out| read(&texts::deep_term(8_188), out)),
    ("read, conjuncts", |out| read(&texts::conjuncts(6_550, ","), out)),
    ("read, names", |out| read(&texts::facts_of_many_names(20_000), out)),
    ("read_query", |out| raw::read_query(&texts::facts_of_many_names(50_000), &texts::goal_of(32_765), &mut vec![0; 200_000], out, &mut 0)),
    ("canonical", |out| raw::canonical(&clauses(&[clause(5, 1, &[nested(8_186, &variable(0))], &TRUE)]), out)),
    ("first", |out| raw::first(&record(&equality(&variable(0), &nested(8_188, &symbol(2, &[])))), out)),
    ("forward", |out| raw::forward(&program(&[]), &event(1, &doubly_nested(1_630), &[], &[]), out)),
    ("back", |out| raw::back(&program(&[]), &event(2, &doubly_nested(2_045), &[], &[unifier(&[])]), out)),
    ("run", |out| raw::run(&program(&[]), &event(2, &doubly_nested(2_045), &[], &[unifier(&[])]), 1, 1, out, &mut 0)),
    ("door", |out| raw::door(&program(&[]), &event(2, &doubly_nested(2_045), &[], &[unifier(&[])]), 1, out, &mut 0)),
    ("answers", |out| raw::answers(&in_a_body(1_635), &record(&atom(5, &[])), 9, out, &mut 0, &mut 0)),
    ("answers, value", |out| raw::answers(&program(&[]), &record(&equality(&variable(0), &nested(2_047, &symbol(2, &[])))), 9, out, &mut 0, &mut 0)),
    ("value", |out| raw::value(&event(1, &TRUE, &[], &[unifier(&[(0, nested(8_184, &symbol(2, &[])))])]), 0, out, &mut 0)),
    ("value, renamed", |out| raw::value(&event(1, &TRUE, &[], &renamed()), 0, out, &mut 0)),
    ("run, renamed", |out| raw::run(&program(&[]), &event(1, &equality(&variable(0), &variable(0)), &[], &renamed()), 1, 0, out, &mut 0)),
    ("value, wrapped", |out| raw::value(&event(1, &TRUE, &[], &wrapped()), 0, out, &mut 0)),
    ("run, wrapped", |out| raw::run(&program(&[]), &event(1, &equality(&variable(0), &variable(0)), &[], &wrapped()), 1, 0, out, &mut 0)),
    ("lookup", |_| raw::lookup(&program(&[]), &event(1, &equality(&variable(0), &nested(8_187, &symbol(2, &[]))), &[], &[]), &mut 0) as u32),
    ("greatest", |_| raw::greatest(&event(1, &equality(&variable(0), &nested(8_187, &symbol(2, &[]))), &[], &[]), &mut 0, &mut 0)),
    ("count", |_| raw::count(&mut Default::default(), &event(1, &equality(&variable(0), &nested(8_187, &symbol(2, &[]))), &[], &[]))),
];

fn read(text: &[u8], out: &mut [u8]) -> u32 {
    raw::read(text, &mut vec![0; 100_000], out, &mut 0)
}

/// g(V0, f(..f(V2)..)) = g(f(..f(V1)..), V1), each nested term of that many levels: V0 becomes a term of twice as many. With 2,045 levels both values
/// are as long as question 8 lets pass, and the unifier is only compared, in a step back from exit; with 1,630 it is written, in a step from call.
fn doubly_nested(levels: usize) -> Vec<u8> {
    equality(&symbol(5, &[variable(0), nested(levels, &variable(2))]), &symbol(5, &[nested(levels, &variable(1)), variable(1)]))
}

/// p :- .., such an equality, the longest whose unifier is written: in a query, which is its own ancestor, there would be less room.
fn in_a_body(levels: usize) -> Vec<u8> {
    program(&[definition(5, 0, 3, &doubly_nested(levels))])
}

/// Bets each of which puts a symbol around the next variable: one level for each, as many as question 8 lets pass.
fn wrapped() -> Vec<Vec<u8>> {
    (0..2_047).rev().map(|v| unifier(&[(v, symbol(2, &[variable(v + 1)]))])).collect()
}

/// As many bets as fit, each of which gives the variable another number.
fn renamed() -> Vec<Vec<u8>> {
    (0..4_090).rev().map(|v| unifier(&[(v, variable(v + 1))])).collect()
}

/// Does the case pass on a thread of that many KiB?
fn passes(case: usize, kib: usize) -> bool {
    let Ok(program) = env::current_exe() else { return false };
    let child = Command::new(program).args([case.to_string(), kib.to_string()]).stderr(Stdio::null()).status();
    child.is_ok_and(|status| status.success())
}

fn measured() {
    for (case, (name, _)) in CASES.iter().enumerate() {
        let (mut less, mut enough) = (0, 8_192);
        while enough - less > 4 {
            let kib = (less + enough) / 2;
            if passes(case, kib) {
                enough = kib;
            } else {
                less = kib;
            }
        }
        println!("{name:<16} {enough:>5} KiB");
    }
}

fn main() -> ExitCode {
    let numbers: Vec<usize> = env::args().skip(1).filter_map(|argument| argument.parse().ok()).collect();
    let &[case, kib] = &numbers[..] else {
        measured();
        return ExitCode::SUCCESS;
    };
    let call = CASES[case].1;
    let thread = thread::Builder::new().stack_size(kib << 10).spawn(move || call(&mut vec![0; 32_768]));
    match thread.map(thread::JoinHandle::join) {
        Ok(Ok(_)) => ExitCode::SUCCESS,
        _ => ExitCode::FAILURE,
    }
}
