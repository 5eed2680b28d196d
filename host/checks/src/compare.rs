//! One case put to the desk and to the twin; number, record and every other byte of the output are compared.

use crate::generate::Dice;
use crate::holders::holders;
use crate::numbering::numbered;
use crate::rules::rule;
use crate::table::{Met, Table};
use fourport::{raw, Counts};
use std::fmt;
use std::time::{Duration, Instant};
use twin::rules::Direction;
use twin::services;
use twin::training::{examined, Broken, Examined};

/// Bytes before and after the lent output that nobody may touch.
const MARGIN: usize = 16;
/// The longest output that is lent.
pub const LONGEST: usize = 70_000;
/// The longest buffer for names that is lent.
const LONGEST_NAMES: usize = crate::texts::MOST_NAMES;

#[derive(Clone, Copy, Debug, PartialEq, Eq)]
pub enum Service {
    Read,
    ReadQuery,
    Canonical,
    First,
    Forward,
    Back,
    Run,
    Door,
    Answers,
    Value,
    Lookup,
    Greatest,
    Count,
}

impl Service {
    pub const ALL: [Service; 13] = [
        Service::Read,
        Service::ReadQuery,
        Service::Canonical,
        Service::First,
        Service::Forward,
        Service::Back,
        Service::Run,
        Service::Door,
        Service::Answers,
        Service::Value,
        Service::Lookup,
        Service::Greatest,
        Service::Count,
    ];

    /// The numbers that the service can give. A query has no question 4, so the first event and the answers never give 14; every event of a walk from
    /// a query has a rule, so the answers never give 7. What steps back to a first event is reached, and has met its door by then: the door never
    /// gives 6.
    pub fn numbers(self) -> &'static [u32] {
        match self {
            Service::Read | Service::ReadQuery => &[0, 3, 5, 10, 20, 21, 22],
            Service::Canonical => &[0, 1, 2, 3, 4, 5, 9, 10],
            Service::First => &[0, 5, 10, 11, 12, 13],
            Service::Forward | Service::Back | Service::Run => &[0, 1, 2, 3, 4, 5, 6, 7, 8, 9, 10, 11, 12, 13, 14],
            Service::Door => &[0, 1, 2, 3, 4, 5, 7, 8, 9, 10, 11, 12, 13, 14, 32],
            Service::Answers => &[0, 1, 2, 3, 4, 5, 6, 8, 9, 10, 11, 12, 13],
            Service::Value => &[0, 5, 8, 11, 12, 13, 14],
            Service::Lookup => &[0],
            Service::Greatest | Service::Count => &[0, 11, 12, 13, 14],
        }
    }
}

/// An answer: the number, the numbers beside it (steps taken, bytes written, a place, a part, counts), and what is written; of a text its names first.
#[derive(Clone, Debug, PartialEq, Eq)]
pub struct Answer {
    pub number: u32,
    pub beside: Vec<u64>,
    pub bytes: Vec<u8>,
}

/// The first case that the desk and the twin answer differently, or that breaks a law.
pub struct Difference(pub String);

pub type Checked<T> = Result<T, Difference>;

impl From<Broken> for Difference {
    fn from((number, how): Broken) -> Difference {
        Difference(format!("event {number} of a walk {how}"))
    }
}

impl fmt::Display for Difference {
    fn fmt(&self, f: &mut fmt::Formatter<'_>) -> fmt::Result {
        f.write_str(&self.0)
    }
}

pub fn hexa(bytes: &[u8]) -> String {
    bytes.iter().map(|byte| format!("{byte:02X}")).collect()
}

/// The inputs of a case, for the report.
struct Inputs<'a> {
    records: &'a [&'a [u8]],
    numbers: String,
}

/// The two sides of a case: what was answered and how long it took.
struct Sides {
    desk: Answer,
    twin: Answer,
    times: (Duration, Duration),
    untouched: bool,
}

pub struct Checker {
    pattern: Vec<u8>,
    out: Vec<u8>,
    names: Vec<u8>,
    pub table: Table,
    /// the kind of case that is being made
    pub kind: usize,
}

impl Checker {
    pub fn new(seed: u64, kinds: &[&'static str]) -> Checker {
        let mut dice = Dice::new(seed);
        let pattern: Vec<u8> = (0..LONGEST.max(LONGEST_NAMES) + 2 * MARGIN).map(|_| dice.byte()).collect();
        Checker { out: pattern.clone(), names: pattern.clone(), pattern, table: Table::new(kinds), kind: 0 }
    }

    /// The output of that length, filled with the pattern, put to the desk.
    fn timed(&mut self, room: usize, desk: impl FnOnce(&mut [u8]) -> (u32, Vec<u64>)) -> ((u32, Vec<u64>), Duration) {
        let whole = room + 2 * MARGIN;
        self.out[..whole].copy_from_slice(&self.pattern[..whole]);
        let start = Instant::now();
        let answer = desk(&mut self.out[MARGIN..MARGIN + room]);
        (answer, start.elapsed())
    }

    /// What was met of an examined walk (SPECIFICATION 9.9).
    pub fn examined(&mut self, met: Examined) {
        self.table.examined[self.kind] += met;
    }

    /// A walk from the first event of a query on, whose records desk and twin both gave: what training material says of its events, and that each step
    /// back gives the event before.
    pub fn walked(&mut self, program: &[u8], query: &[u8], events: &[Vec<u8>]) -> Checked<()> {
        let met = examined(query, events)?;
        self.examined(met);
        for pair in events.windows(2).rev() {
            if self.back(program, &pair[1], twin::gate::RECORD_LIMIT)?.bytes != pair[0] {
                return Err(Difference("a step back from a reached event gave another event than it came from".into()));
            }
        }
        Ok(())
    }

    /// Desk and twin on one case with an output. What the twin writes must stand at the start of the desk's output, and all else be the pattern.
    fn sides(&mut self, room: usize, desk: impl FnOnce(&mut [u8]) -> (u32, Vec<u64>), twin: impl FnOnce() -> Answer) -> Sides {
        let ((number, beside), desk_time) = self.timed(room, desk);
        let start = Instant::now();
        let twin = twin();
        let twin_time = start.elapsed();
        let end = MARGIN + twin.bytes.len();
        let untouched = self.out[..MARGIN] == self.pattern[..MARGIN] && self.out[end..room + 2 * MARGIN] == self.pattern[end..room + 2 * MARGIN];
        let bytes = self.out[MARGIN..end].to_vec();
        Sides { desk: Answer { number, beside, bytes }, twin, times: (desk_time, twin_time), untouched }
    }

    /// Desk and twin on a text: of the two buffers that are lent, the names and the output.
    fn text_sides(
        &mut self,
        rooms: (usize, usize),
        desk: impl FnOnce(&mut [u8], &mut [u8], &mut usize) -> u32,
        twin: impl FnOnce(usize, usize) -> twin::text::ReadReply,
    ) -> Sides {
        let mut lent = std::mem::take(&mut self.names);
        let whole = rooms.0 + 2 * MARGIN;
        lent[..whole].copy_from_slice(&self.pattern[..whole]);
        let mut list = Vec::new();
        let names = &mut lent[MARGIN..MARGIN + rooms.0];
        let timed = |out: &mut [u8]| {
            let mut named = 0xDEAD_BEEF;
            let number = desk(names, out, &mut named);
            (number, vec![named as u64])
        };
        let mut sides = self.sides(rooms.1, timed, || {
            let reply = twin(rooms.0, rooms.1);
            list = reply.names;
            Answer { number: reply.number.into(), beside: vec![list.len() as u64], bytes: reply.bytes }
        });
        let end = MARGIN + list.len();
        sides.untouched &= lent[..MARGIN] == self.pattern[..MARGIN] && lent[end..whole] == self.pattern[end..whole];
        sides.desk.bytes = [&lent[MARGIN..end], &sides.desk.bytes].concat();
        sides.twin.bytes = [&list[..], &sides.twin.bytes].concat();
        self.names = lent;
        sides
    }

    /// A text of clauses; beside the number, the bytes of the names.
    pub fn read(&mut self, text: &[u8], names: usize, room: usize) -> Checked<Answer> {
        let sides =
            self.text_sides((names, room), |list, out, named| raw::read(text, list, out, named), |names, room| twin::text::read(text, names, room));
        self.settle(Service::Read, sides, Inputs { records: &[text], numbers: format!("names {names} output {room}") })
    }

    /// A goal behind the clauses of rules.
    pub fn read_query(&mut self, rules: &[u8], query: &[u8], names: usize, room: usize) -> Checked<Answer> {
        let desk = |list: &mut [u8], out: &mut [u8], named: &mut usize| raw::read_query(rules, query, list, out, named);
        let sides = self.text_sides((names, room), desk, |names, room| twin::text::read_query(rules, query, names, room));
        self.settle(Service::ReadQuery, sides, Inputs { records: &[rules, query], numbers: format!("names {names} output {room}") })
    }

    fn settle(&mut self, service: Service, sides: Sides, inputs: Inputs<'_>) -> Checked<Answer> {
        let Sides { desk, twin, times, untouched } = sides;
        if desk == twin && untouched {
            let met = if service == Service::Lookup && twin.beside == [0, 0] { Met::Empty } else { Met::Number(twin.number) };
            self.table.add(self.kind, service, met, times.0, times.1);
            return Ok(twin);
        }
        let records: String = inputs.records.iter().map(|record| format!("\n  lent {}", hexa(record))).collect();
        let side = |answer: &Answer| format!("{} {:?} {}", answer.number, answer.beside, hexa(&answer.bytes));
        let touched = if untouched { "" } else { "\n  bytes beyond what the twin writes were touched" };
        Err(Difference(format!("{service:?} {}{records}\n  desk {}\n  twin {}{touched}", inputs.numbers, side(&desk), side(&twin))))
    }

    pub fn canonical(&mut self, clauses: &[u8], room: usize) -> Checked<Answer> {
        let sides = self.sides(room, |out| (raw::canonical(clauses, out), vec![]), || reply(services::canonical(clauses, room)));
        self.settle(Service::Canonical, sides, Inputs { records: &[clauses], numbers: format!("output {room}") })
    }

    pub fn first(&mut self, query: &[u8], room: usize) -> Checked<Answer> {
        let sides = self.sides(room, |out| (raw::first(query, out), vec![]), || reply(services::first(query, room)));
        self.settle(Service::First, sides, Inputs { records: &[query], numbers: format!("output {room}") })
    }

    pub fn step(&mut self, direction: Direction, program: &[u8], event: &[u8], room: usize) -> Checked<Answer> {
        let back = direction == Direction::Back;
        let service = if back { Service::Back } else { Service::Forward };
        let desk = if back { raw::back } else { raw::forward };
        let twin = if back { services::back } else { services::forward };
        let sides = self.sides(room, |out| (desk(program, event, out), vec![]), || reply(twin(program, event, room)));
        let answer = self.settle(service, sides, Inputs { records: &[program, event], numbers: format!("output {room}") })?;
        if let Some(met) = numbered(direction, program, event, answer.number) {
            self.table.add_numbered(met);
        }
        if answer.number == 0 {
            let (from, to) = if back { (&answer.bytes[..], event) } else { (event, &answer.bytes[..]) };
            if let Some(rule) = rule(from, to) {
                self.table.add_rule(rule, back);
            }
        }
        Ok(answer)
    }

    pub fn forward(&mut self, program: &[u8], event: &[u8], room: usize) -> Checked<Answer> {
        self.step(Direction::Forward, program, event, room)
    }

    pub fn back(&mut self, program: &[u8], event: &[u8], room: usize) -> Checked<Answer> {
        self.step(Direction::Back, program, event, room)
    }

    /// A run, forward where `back` is 0.
    pub fn run(&mut self, program: &[u8], event: &[u8], steps: u32, back: u8, room: usize) -> Checked<Answer> {
        let desk = |out: &mut [u8]| {
            let mut taken = 0xDEAD_BEEF;
            let number = raw::run(program, event, steps, back, out, &mut taken);
            (number, vec![u64::from(taken)])
        };
        let direction = if back == 0 { Direction::Forward } else { Direction::Back };
        let twin = || {
            let run = services::run(program, event, steps, direction, room);
            Answer { number: run.number.into(), beside: vec![run.steps.into()], bytes: run.bytes }
        };
        let sides = self.sides(room, desk, twin);
        self.settle(Service::Run, sides, Inputs { records: &[program, event], numbers: format!("steps {steps} back {back} output {room}") })
    }

    /// The door of an event within so many steps back.
    pub fn door(&mut self, program: &[u8], event: &[u8], limit: u32, room: usize) -> Checked<Answer> {
        let desk = |out: &mut [u8]| {
            let mut taken = 0xDEAD_BEEF;
            let number = raw::door(program, event, limit, out, &mut taken);
            (number, vec![u64::from(taken)])
        };
        let twin = || {
            let door = twin::door::door(program, event, limit, room);
            Answer { number: door.number.into(), beside: vec![door.steps.into()], bytes: door.bytes }
        };
        let sides = self.sides(room, desk, twin);
        self.settle(Service::Door, sides, Inputs { records: &[program, event], numbers: format!("limit {limit} output {room}") })
    }

    /// The answers of a query; beside the number, the bytes written and the steps taken.
    pub fn answers(&mut self, program: &[u8], query: &[u8], steps: u32, room: usize) -> Checked<Answer> {
        let desk = |out: &mut [u8]| {
            let (mut written, mut taken) = (0xDEAD_BEEF, 0xDEAD_BEEF);
            let number = raw::answers(program, query, steps, out, &mut written, &mut taken);
            (number, vec![written as u64, u64::from(taken)])
        };
        let twin = || {
            let list = twin::answers::answers(program, query, steps, room);
            Answer { number: list.number.into(), beside: vec![list.bytes.len() as u64, list.steps.into()], bytes: list.bytes }
        };
        let sides = self.sides(room, desk, twin);
        self.settle(Service::Answers, sides, Inputs { records: &[program, query], numbers: format!("steps {steps} output {room}") })
    }

    pub fn value(&mut self, event: &[u8], v: u16, room: usize) -> Checked<Answer> {
        let desk = |out: &mut [u8]| {
            let mut written = 0xDEAD_BEEF;
            let number = raw::value(event, v, out, &mut written);
            (number, vec![u64::from(written)])
        };
        let twin = || {
            let answer = reply(services::value(event, v, room));
            Answer { beside: vec![answer.bytes.len() as u64], ..answer }
        };
        let sides = self.sides(room, desk, twin);
        self.settle(Service::Value, sides, Inputs { records: &[event], numbers: format!("variable {v} output {room}") })
    }

    /// The place and the length of the definition.
    pub fn lookup(&mut self, program: &[u8], event: &[u8]) -> Checked<Answer> {
        let desk = |_: &mut [u8]| {
            let mut at = 0xDEAD_BEEF;
            let length = raw::lookup(program, event, &mut at);
            (0, vec![at as u64, length as u64])
        };
        let twin = || {
            let place = services::place(program, event).unwrap_or(0..0);
            Answer { number: 0, beside: vec![place.start as u64, place.len() as u64], bytes: Vec::new() }
        };
        let sides = self.sides(0, desk, twin);
        self.settle(Service::Lookup, sides, Inputs { records: &[program, event], numbers: String::new() })
    }

    /// The part that holds the greatest variable, and that variable.
    pub fn greatest(&mut self, event: &[u8]) -> Checked<Answer> {
        let desk = |_: &mut [u8]| {
            let (mut part, mut greatest) = (0xDEAD_BEEF, 0xDEAD_BEEF);
            let number = raw::greatest(event, &mut part, &mut greatest);
            (number, vec![u64::from(part), u64::from(greatest)])
        };
        let twin = || {
            let (number, part, greatest) = services::greatest(event);
            Answer { number: number.into(), beside: vec![part.into(), greatest.into()], bytes: Vec::new() }
        };
        let sides = self.sides(0, desk, twin);
        let answer = self.settle(Service::Greatest, sides, Inputs { records: &[event], numbers: String::new() })?;
        if let Some(held) = holders(event) {
            self.table.add_holders(held);
        }
        Ok(answer)
    }

    pub fn count(&mut self, event: &[u8], before: [u32; 4]) -> Checked<Answer> {
        let desk = |_: &mut [u8]| {
            let mut counts = Counts { call: before[0], exit: before[1], fail: before[2], redo: before[3] };
            let number = raw::count(&mut counts, event);
            (number, [counts.call, counts.exit, counts.fail, counts.redo].map(u64::from).to_vec())
        };
        let twin = || {
            let (number, after) = services::count(event, before);
            Answer { number: number.into(), beside: after.map(u64::from).to_vec(), bytes: Vec::new() }
        };
        let sides = self.sides(0, desk, twin);
        self.settle(Service::Count, sides, Inputs { records: &[event], numbers: format!("counts {before:?}") })
    }
}

fn reply(reply: services::Reply) -> Answer {
    Answer { number: reply.number.into(), beside: vec![], bytes: reply.bytes }
}
