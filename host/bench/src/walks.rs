//! Steps per second of four programs, the desk beside the twin and SWI-Prolog.

use crate::clock::nanoseconds;
use crate::desk::Desk;
use crate::prolog::Rates;
use layout::{record_at, split_record, RECORD_LIMIT as ROOM};
use std::fs;
use std::path::Path;

const PROGRAMS: [&str; 4] = ["member", "path", "colouring", "append"];

/// A program record, the first event of its query, the last event of the walk, and the steps between them.
pub struct Walk {
    pub program: Vec<u8>,
    pub first: Vec<u8>,
    pub last: Vec<u8>,
    pub steps: u32,
}

impl Walk {
    pub fn of(desk: &dyn Desk, program: &[u8], first: &[u8], most: u32) -> Walk {
        let mut out = vec![0; ROOM];
        let (_, steps) = desk.run(program, first, most, false, &mut out);
        Walk { program: program.to_vec(), first: first.to_vec(), last: record_at(&out).to_vec(), steps }
    }

    fn read(desk: &dyn Desk, path: &Path) -> Walk {
        let input = fs::read(path).expect("the records of a page");
        let (program, query) = split_record(&input);
        let mut out = vec![0; ROOM];
        assert_eq!(desk.first(record_at(query), &mut out), 0);
        Walk::of(desk, program, record_at(&out), u32::MAX)
    }

    /// Nanoseconds a step through one run over the whole walk.
    pub fn run(&self, desk: &dyn Desk, back: bool) -> f64 {
        let mut out = vec![0; ROOM];
        let (from, to) = if back { (&self.last, &self.first) } else { (&self.first, &self.last) };
        let time = nanoseconds(|| assert_eq!(desk.run(&self.program, from, self.steps, back, &mut out), (0, self.steps)));
        assert_eq!(record_at(&out), to);
        time / f64::from(self.steps)
    }

    pub fn there_and_back(&self, desk: &dyn Desk) {
        let mut out = vec![0; ROOM];
        assert_eq!(desk.run(&self.program, &self.first, self.steps, false, &mut out), (0, self.steps));
        assert_eq!(desk.run(&self.program, &self.last, self.steps, true, &mut out), (0, self.steps));
    }

    /// Over the whole walk by single steps; `meet` is given each event but the one at which it starts.
    pub fn each(&self, desk: &dyn Desk, back: bool, mut meet: impl FnMut(&[u8])) {
        let (mut here, mut there) = (vec![0; ROOM], vec![0; ROOM]);
        let from = if back { &self.last } else { &self.first };
        here[..from.len()].copy_from_slice(from);
        for _ in 0..self.steps {
            let event = record_at(&here);
            let number = if back { desk.back(&self.program, event, &mut there) } else { desk.forward(&self.program, event, &mut there) };
            assert_eq!(number, 0);
            std::mem::swap(&mut here, &mut there);
            meet(record_at(&here));
        }
    }

    /// Nanoseconds a step where each step crosses the boundary.
    fn single(&self, desk: &dyn Desk, back: bool) -> f64 {
        nanoseconds(|| self.each(desk, back, |_| ())) / f64::from(self.steps)
    }

    pub fn mean_length(&self, desk: &dyn Desk) -> f64 {
        let mut bytes = self.first.len();
        self.each(desk, false, |event| bytes += event.len());
        bytes as f64 / f64::from(self.steps + 1)
    }
}

/// Thousands of steps a second.
fn rate(nanoseconds: f64) -> String {
    format!("{:.0}", 1e6 / nanoseconds)
}

fn row(name: &str, walk: &Walk, desk: &dyn Desk, twin: &dyn Desk, prolog: &Rates) -> String {
    let (forward, back) = (walk.run(desk, false), walk.run(desk, true));
    let (single, single_back) = (walk.single(desk, false), walk.single(desk, true));
    let (twin_forward, twin_back) = (walk.run(twin, false), walk.run(twin, true));
    let (tracer, boxes) = (1e9 / prolog.tracer[name], 1e9 / prolog.boxes[name]);
    let rates = [forward, back, single, single_back, twin_forward, twin_back, tracer, boxes].map(rate);
    let ratios = [twin_forward, tracer, boxes].map(|other| format!("{:.2}", other / forward));
    format!("| {name} | {} | {:.0} | {} | {} |", walk.steps, walk.mean_length(desk), rates.join(" | "), ratios.join(" | "))
}

pub fn table(folder: &Path, desk: &dyn Desk, twin: &dyn Desk) {
    let prolog = Rates::read(folder);
    println!("Thousands of steps a second, and the ratio of `run` forward to the others:\n");
    println!("| program | steps | mean event, bytes | `run` forward | back | single steps forward | back | twin forward | back | SWI-Prolog's tracer | compiled boxes | to twin | to tracer | to boxes |");
    println!("|{}", "---|".repeat(14));
    for name in PROGRAMS {
        println!("{}", row(name, &Walk::read(desk, &folder.join(format!("{name}.in"))), desk, twin, &prolog));
    }
    println!();
}
