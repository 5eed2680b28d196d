//! The dearest single calls that we know: records made so that each algorithm has as much to do as a record can hold.

mod answers;
mod bodies;
mod equalities;
mod programs;
mod records;
mod values;

use crate::clock::least;
use crate::desk::Desk;
use layout::RECORD_LIMIT as ROOM;

type Bytes = Vec<u8>;

/// A call of one service.
pub enum Call {
    Canonical(Bytes),
    First(Bytes),
    Forward(Bytes, Bytes),
    Back(Bytes, Bytes),
    /// with an output of that length
    Answers(Bytes, Bytes, usize),
    Value(Bytes, u16),
    Lookup(Bytes, Bytes),
    Greatest(Bytes),
    Count(Bytes),
}

impl Call {
    fn service(&self) -> &'static str {
        match self {
            Call::Canonical(_) => "canonical form",
            Call::First(_) => "first event",
            Call::Forward(..) => "forward",
            Call::Back(..) => "back",
            Call::Answers(..) => "answers",
            Call::Value(..) => "value",
            Call::Lookup(..) => "lookup",
            Call::Greatest(_) => "greatest variable",
            Call::Count(_) => "count",
        }
    }

    fn records(&self) -> Vec<&Bytes> {
        match self {
            Call::Canonical(record) | Call::First(record) | Call::Value(record, _) | Call::Greatest(record) | Call::Count(record) => vec![record],
            Call::Forward(program, event) | Call::Back(program, event) | Call::Lookup(program, event) | Call::Answers(program, event, _) => {
                vec![program, event]
            }
        }
    }

    fn room(&self) -> usize {
        match self {
            Call::Answers(_, _, room) => *room,
            _ => ROOM,
        }
    }

    /// The service's number; for the lookup, the length of the part.
    fn answer(&self, desk: &dyn Desk, out: &mut [u8]) -> usize {
        let number = match self {
            Call::Canonical(clauses) => desk.canonical(clauses, out),
            Call::First(query) => desk.first(query, out),
            Call::Forward(program, event) => desk.forward(program, event, out),
            Call::Back(program, event) => desk.back(program, event, out),
            Call::Answers(program, query, _) => desk.answers(program, query, u32::MAX, out),
            Call::Value(event, v) => desk.value(event, *v, out),
            Call::Lookup(program, event) => return desk.lookup(program, event),
            Call::Greatest(event) => desk.greatest(event),
            Call::Count(event) => desk.count(event),
        };
        number as usize
    }
}

/// What the record holds, and the calls on it.
pub type Case = (&'static str, Vec<Call>);

fn cases() -> Vec<Case> {
    [equalities::cases(), values::cases(), bodies::cases(), programs::cases(), records::cases(), answers::cases()].into_iter().flatten().collect()
}

/// Milliseconds, and what was answered and written.
fn timed(desk: &dyn Desk, call: &Call) -> (f64, usize, Vec<u8>) {
    let mut out = vec![0; call.room()];
    let answer = call.answer(desk, &mut out);
    let time = least(3, || assert_eq!(call.answer(desk, &mut out), answer));
    (time.as_secs_f64() * 1e3, answer, out)
}

/// A record's dearest call: its time, and its row.
type Dearest = (f64, String);

/// Of the calls on one record the dearest. The twin must answer each as the desk does.
fn dearest(desk: &dyn Desk, twin: &dyn Desk, words: &str, calls: &[Call]) -> Dearest {
    let mut found = (0.0, String::new());
    for call in calls {
        assert!(call.records().iter().all(|record| record.len() <= ROOM), "{words}: a record is too long");
        let (time, answer, out) = timed(desk, call);
        let (twin_time, twin_answer, twin_out) = timed(twin, call);
        assert!((answer, &out) == (twin_answer, &twin_out), "{words}: desk {answer}, twin {twin_answer}");
        if time > found.0 {
            found = (time, format!("| {words} | {} | {answer} | {time:.2} | {twin_time:.2} |", call.service()));
        }
    }
    found
}

pub fn table(desk: &dyn Desk, twin: &dyn Desk) {
    let mut rows: Vec<Dearest> = cases().iter().map(|(words, calls)| dearest(desk, twin, words, calls)).collect();
    rows.sort_by(|one, other| other.0.total_cmp(&one.0));
    println!("Milliseconds of single calls: of each record the dearest call (number: its answer, for the lookup the part's length):\n");
    println!("| record | service | number | desk | twin |");
    println!("|{}", "---|".repeat(5));
    rows.iter().for_each(|(_, row)| println!("{row}"));
    println!();
}
