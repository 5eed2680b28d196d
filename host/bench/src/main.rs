//! The benchmark: bench FOLDER [TABLE ..] prints the tables walks, sizes, doors, calls and texts, or those named, in Markdown. FOLDER holds
//! what `host/bench/run` makes: the records of each program and the rates of SWI-Prolog. bench profile LENGTH TIMES steps through events of that length,
//! for a profiler.

mod calls;
mod clock;
mod desk;
mod doors;
mod prolog;
mod sizes;
mod texts;
mod walks;

use desk::{Fourport, Twin};
use std::path::Path;

/// Far more than the deepest calls need.
const STACK: usize = 16 << 20;

fn main() {
    let words: Vec<String> = std::env::args().skip(1).collect();
    let (folder, tables) = words.split_first().expect("bench FOLDER [TABLE ..]");
    if folder == "profile" {
        let number = |place: usize| tables[place].parse().expect("a number");
        return sizes::repeated(&Fourport, number(0), number(1));
    }
    let wanted = |table: &str| tables.is_empty() || tables.iter().any(|each| each == table);
    let print = || {
        if wanted("walks") {
            walks::table(Path::new(folder), &Fourport, &Twin);
        }
        if wanted("sizes") {
            sizes::table(&Fourport);
        }
        if wanted("doors") {
            doors::table(&Fourport, &Twin);
        }
        if wanted("calls") {
            calls::table(&Fourport, &Twin);
        }
        if wanted("texts") {
            texts::table(&Fourport, &Twin);
        }
    };
    std::thread::scope(|scope| std::thread::Builder::new().stack_size(STACK).spawn_scoped(scope, print).expect("a thread").join())
        .expect("no failure");
}
