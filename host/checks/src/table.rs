//! What was met: cases by kind, by service and number, steps by rule, bodies by the part that numbers them, events by the parts that hold the
//! greatest variable, lists of answers by what they were asked for with and what they hold, doors by where they were asked for and what lay on the
//! way, texts by what they hold or why they are refused, events of walks by what training material says of them.

use crate::compare::Service;
use crate::doors::{Way, DOORS};
use crate::holders::HOLDERS;
use crate::listings::{Sort, LISTINGS};
use crate::numbering::{Numbered, ENDS, PLACES, WAYS};
use crate::rules::RULES;
use crate::texts::{self, TEXTS};
use std::fmt;
use std::time::Duration;
use twin::training::Examined;

/// The kinds of case that walk from a query's first event.
const WALKING: [&str; 3] = ["garages", "walks", "moves"];

/// The numbers of all services, each with a column.
const NUMBERS: [u32; 19] = [0, 1, 2, 3, 4, 5, 6, 7, 8, 9, 10, 11, 12, 13, 14, 20, 21, 22, 32];

fn column(number: u32) -> usize {
    NUMBERS.iter().position(|&each| each == number).expect("a number of the specification")
}

#[derive(Clone, Copy, Default)]
struct Row {
    /// by column
    numbers: [u64; NUMBERS.len()],
    /// lookups without a definition
    empty: u64,
    desk: Duration,
    twin: Duration,
    slowest: Duration,
}

impl Row {
    fn cases(&self) -> u64 {
        self.numbers.iter().sum::<u64>() + self.empty
    }
}

/// The answer to one case.
#[derive(Clone, Copy)]
pub enum Met {
    Number(u32),
    Empty,
}

pub struct Table {
    kinds: Vec<(&'static str, Row)>,
    services: [Row; Service::ALL.len()],
    rules: [[u64; 2]; RULES.len()],
    numbered: [[[u64; ENDS.len()]; WAYS.len()]; PLACES.len()],
    /// events put to the service of the greatest variable
    holders: [u64; HOLDERS.len()],
    /// lists of answers, by what they were asked for with and what they hold
    listings: [u64; LISTINGS.len()],
    /// doors, by where they were asked for and what lay on the way
    doors: [u64; DOORS.len()],
    /// texts, by what they hold or why they are refused
    texts: [u64; TEXTS.len()],
    /// by kind, events of walks from a query
    pub examined: Vec<Examined>,
    /// pairs of lists of steps whose ends are different, and equal
    pub ends: [u64; 2],
}

impl Table {
    pub fn new(kinds: &[&'static str]) -> Table {
        Table {
            kinds: kinds.iter().map(|&kind| (kind, Row::default())).collect(),
            services: Default::default(),
            rules: [[0; 2]; RULES.len()],
            numbered: Default::default(),
            holders: Default::default(),
            listings: Default::default(),
            doors: Default::default(),
            texts: [0; TEXTS.len()],
            examined: vec![Examined::default(); kinds.len()],
            ends: [0; 2],
        }
    }

    pub fn add(&mut self, kind: usize, service: Service, met: Met, desk: Duration, twin: Duration) {
        for row in [&mut self.kinds[kind].1, &mut self.services[service as usize]] {
            match met {
                Met::Number(number) => row.numbers[column(number)] += 1,
                Met::Empty => row.empty += 1,
            }
            row.desk += desk;
            row.twin += twin;
            row.slowest = row.slowest.max(desk);
        }
    }

    pub fn add_rule(&mut self, rule: usize, back: bool) {
        self.rules[rule][usize::from(back)] += 1;
    }

    pub fn add_numbered(&mut self, met: Numbered) {
        self.numbered[met.place][met.way][met.end] += 1;
    }

    pub fn add_holders(&mut self, held: usize) {
        self.holders[held] += 1;
    }

    pub fn add_listing(&mut self, listing: Sort) {
        self.listings[listing as usize] += 1;
    }

    pub fn add_door(&mut self, way: Way) {
        self.doors[way as usize] += 1;
    }

    pub fn add_text(&mut self, sort: texts::Sort) {
        self.texts[sort as usize] += 1;
    }

    fn times(&self, met: Numbered) -> u64 {
        self.numbered[met.place][met.way][met.end]
    }

    pub fn cases(&self) -> u64 {
        self.kinds.iter().map(|(_, row)| row.cases()).sum()
    }

    pub fn cases_of(&self, kind: usize) -> u64 {
        self.kinds[kind].1.cases()
    }

    /// The kinds that walk, with what was met of their events.
    fn walking(&self) -> impl Iterator<Item = (&'static str, &Examined)> {
        let all = self.kinds.iter().map(|kind| kind.0).zip(&self.examined);
        all.filter(|(kind, _)| WALKING.contains(kind))
    }

    /// What a run should have met and did not: a case that is never made cannot fail.
    pub fn missed(&self) -> Vec<String> {
        let mut missed = Vec::new();
        for service in Service::ALL {
            let row = &self.services[service as usize];
            let unmet = service.numbers().iter().filter(|&&number| row.numbers[column(number)] == 0);
            missed.extend(unmet.map(|number| format!("{service:?} never gave {number}")));
            if service == Service::Lookup && row.empty == 0 {
                missed.push("Lookup always found a definition".into());
            }
        }
        for (rule, counts) in RULES.iter().zip(&self.rules) {
            for (way, count) in ["forward", "back"].iter().zip(counts) {
                if *count == 0 {
                    missed.push(format!("never read {way}: {rule}"));
                }
            }
        }
        let unmet = Numbered::due().filter(|&met| self.times(met) == 0);
        missed.extend(unmet.map(|met| format!("never numbered, {}, greatest in {}: {}", WAYS[met.way], PLACES[met.place], ENDS[met.end])));
        let unheld = HOLDERS.iter().zip(self.holders).filter(|(_, count)| *count == 0);
        missed.extend(unheld.map(|(parts, _)| format!("the greatest variable never asked for where it is in {parts}")));
        let unlisted = LISTINGS.iter().zip(self.listings).filter(|(_, count)| *count == 0);
        missed.extend(unlisted.map(|(words, _)| format!("no list of answers with {words}")));
        let unasked = DOORS.iter().zip(self.doors).filter(|(_, count)| *count == 0);
        missed.extend(unasked.map(|(words, _)| format!("no door asked for: {words}")));
        let unread = TEXTS.iter().zip(self.texts).filter(|(_, count)| *count == 0);
        missed.extend(unread.map(|(words, _)| format!("no text with {words}")));
        for (kind, met) in self.walking() {
            let unmet = met.each().into_iter().filter(|(_, count)| *count == 0);
            missed.extend(unmet.map(|(what, _)| format!("no walk of the kind {kind} has a {what}")));
        }
        if self.ends.contains(&0) {
            missed.push("two lists of steps always ended alike, or never".into());
        }
        missed
    }
}

fn shown(count: u64) -> String {
    if count == 0 {
        ".".into()
    } else {
        count.to_string()
    }
}

fn line(f: &mut fmt::Formatter<'_>, name: &str, row: &Row) -> fmt::Result {
    write!(f, "{name:<12}{:>8}", row.cases())?;
    for count in row.numbers.iter().chain([&row.empty]) {
        write!(f, "{:>7}", shown(*count))?;
    }
    let seconds = |time: Duration| time.as_secs_f64();
    writeln!(f, "{:>8.2}{:>8.2}{:>9.2}", seconds(row.desk), seconds(row.twin), seconds(row.slowest) * 1000.0)
}

fn head(f: &mut fmt::Formatter<'_>, name: &str) -> fmt::Result {
    write!(f, "{name:<12}{:>8}", "cases")?;
    NUMBERS.iter().try_for_each(|number| write!(f, "{number:>7}"))?;
    writeln!(f, "{:>7}{:>8}{:>8}{:>9}", "empty", "desk s", "twin s", "most ms")
}

impl Table {
    /// For each part that has the greatest variable, and each way in which a body is numbered, what came of it.
    fn numbered_lines(&self, f: &mut fmt::Formatter<'_>) -> fmt::Result {
        write!(f, "\n{:<34}", "")?;
        WAYS.iter().try_for_each(|way| write!(f, "  {way:<33}"))?;
        write!(f, "\n{:<34}", "greatest variable in")?;
        WAYS.iter().try_for_each(|_| ENDS.iter().try_for_each(|end| write!(f, "{end:>7}")))?;
        for (place, ways) in PLACES.iter().zip(&self.numbered) {
            write!(f, "\n{place:<34}")?;
            ways.iter().flatten().try_for_each(|count| write!(f, "{:>7}", shown(*count)))?;
        }
        writeln!(f)
    }
}

impl fmt::Display for Table {
    fn fmt(&self, f: &mut fmt::Formatter<'_>) -> fmt::Result {
        head(f, "service")?;
        Service::ALL.iter().try_for_each(|&service| line(f, &format!("{service:?}").to_lowercase(), &self.services[service as usize]))?;
        writeln!(f)?;
        head(f, "kind")?;
        self.kinds.iter().try_for_each(|(kind, row)| line(f, kind, row))?;
        writeln!(f, "\n{:<62}{:>9}{:>9}", "rule", "forward", "back")?;
        for (rule, [forward, back]) in RULES.iter().zip(&self.rules) {
            writeln!(f, "{rule:<62}{forward:>9}{back:>9}")?;
        }
        self.numbered_lines(f)?;
        writeln!(f, "\ngreatest variable asked for, held by")?;
        HOLDERS.iter().zip(self.holders).try_for_each(|(parts, count)| writeln!(f, "{parts:<34}{:>7}", shown(count)))?;
        writeln!(f, "\nlists of answers")?;
        LISTINGS.iter().zip(self.listings).try_for_each(|(words, count)| writeln!(f, "{words:<34}{:>7}", shown(count)))?;
        writeln!(f, "\ndoors asked for")?;
        DOORS.iter().zip(self.doors).try_for_each(|(words, count)| writeln!(f, "{words:<42}{:>7}", shown(count)))?;
        writeln!(f, "\ntexts")?;
        TEXTS.iter().zip(self.texts).try_for_each(|(words, count)| writeln!(f, "{words:<42}{:>7}", shown(count)))?;
        for (kind, met) in self.walking() {
            writeln!(f, "\nevents of {kind}")?;
            met.each().into_iter().try_for_each(|(what, count)| writeln!(f, "{what:<34}{:>7}", shown(count)))?;
        }
        let [different, equal] = self.ends;
        writeln!(f, "\ntwo lists of steps: {equal} pairs ended at equal events, {different} at different ones")
    }
}
