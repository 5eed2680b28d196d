//! What SWI-Prolog counted: a line per program with its name, the events of a walk, and events per second.

use std::collections::HashMap;
use std::fs;
use std::path::Path;

pub struct Rates {
    pub tracer: HashMap<String, f64>,
    pub boxes: HashMap<String, f64>,
}

fn read(path: &Path) -> HashMap<String, f64> {
    let text = fs::read_to_string(path).expect("the rates of SWI-Prolog");
    text.lines()
        .map(|line| {
            let fields: Vec<&str> = line.split(' ').collect();
            (fields[0].to_string(), fields[2].parse().expect("a rate"))
        })
        .collect()
}

impl Rates {
    pub fn read(folder: &Path) -> Rates {
        Rates { tracer: read(&folder.join("tracer.txt")), boxes: read(&folder.join("boxes.txt")) }
    }
}
