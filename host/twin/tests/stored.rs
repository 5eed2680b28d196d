//! The repository's stored cases: every line that the case programs are to print has to come out of the twin.
//! The formats stand at the top of the scripts that write the cases (tools/record-cases, term-cases, step-cases, canonical-cases, reader-cases).

use std::fs;
use std::path::PathBuf;
use twin::gate::{second, Refusal, RECORD_LIMIT};
use twin::records::{reader, writer, GoalShape};
use twin::rules::Direction;
use twin::services::{self, Reply};
use twin::terms::{body, unifier, value};
use twin::text::{read, read_query, ReadReply};

fn file(program: &str, name: &str) -> Vec<u8> {
    let path = PathBuf::from(env!("CARGO_MANIFEST_DIR")).join("../../crates").join(program).join(name);
    fs::read(&path).unwrap_or_else(|error| panic!("{}: {error}", path.display()))
}

/// The cases of a program: the kind byte of each and its fields.
struct Cases {
    input: Vec<u8>,
    at: usize,
}

impl Cases {
    fn of(program: &str) -> Cases {
        Cases { input: file(program, "stdin"), at: 0 }
    }

    fn kind(&mut self) -> Option<char> {
        let kind = *self.input.get(self.at)?;
        self.at += 1;
        Some(char::from(kind))
    }

    fn field(&mut self) -> Vec<u8> {
        let length = number(&self.input[self.at..self.at + 4]) as usize;
        self.at += 4 + length;
        self.input[self.at - length..self.at].to_vec()
    }

    fn number(&mut self) -> u32 {
        number(&self.field())
    }

    /// A number that is no field.
    fn bare(&mut self) -> usize {
        self.at += 4;
        number(&self.input[self.at - 4..self.at]) as usize
    }

    /// A text in pieces: each a length, and bytes that stand over and over up to that length.
    fn text(&mut self) -> Vec<u8> {
        let count = self.bare();
        (0..count).flat_map(|_| self.piece()).collect()
    }

    fn piece(&mut self) -> Vec<u8> {
        let (length, bytes) = (self.bare(), self.field());
        bytes.iter().copied().cycle().take(length).collect()
    }
}

fn number(bytes: &[u8]) -> u32 {
    bytes.iter().fold(0, |sum, &byte| sum << 8 | u32::from(byte))
}

fn hexa(bytes: &[u8]) -> String {
    bytes.iter().map(|byte| format!("{byte:02x}")).collect()
}

/// Bytes in hexadecimal; more than `most` as their number, the first 16 and their checksum (FNV-1a).
fn shown(bytes: &[u8], most: usize) -> String {
    if bytes.len() <= most {
        return hexa(bytes);
    }
    format!("#{}:{}:{:08x}", bytes.len(), hexa(&bytes[..16]), checksum(bytes.iter().copied()))
}

/// FNV-1a, 32 bits.
fn checksum(bytes: impl Iterator<Item = u8>) -> u32 {
    bytes.fold(0x811C_9DC5, |sum, byte| (sum ^ u32::from(byte)).wrapping_mul(0x0100_0193))
}

/// Compares the lines with the stored ones; says how many there were.
fn compare(program: &str, lines: &[String]) {
    let stored = String::from_utf8(file(program, "stdout")).expect("text");
    let stored: Vec<&str> = stored.lines().collect();
    let differences: Vec<String> = (0..stored.len().max(lines.len()))
        .filter(|&i| stored.get(i).copied() != lines.get(i).map(String::as_str))
        .map(|i| format!("line {}: stored {:?}, twin {:?}", i + 1, stored.get(i), lines.get(i)))
        .collect();
    assert!(
        differences.is_empty(),
        "{program}: {} of {} differ\n{}",
        differences.len(),
        stored.len(),
        differences[..differences.len().min(20)].join("\n")
    );
    println!("{program}: {} lines agree", lines.len());
}

#[test]
fn records() {
    let mut cases = Cases::of("records_cases");
    let mut lines = Vec::new();
    while let Some(kind) = cases.kind() {
        let data = cases.field();
        let number = match kind {
            'q' => second(reader::query(&data)).map(drop),
            'e' => second(reader::event(&data)).map(drop),
            'p' => reader::program(&data).map(drop).map_err(Refusal::from),
            'c' => reader::clauses(&data).map(drop).map_err(Refusal::from),
            _ => panic!("kind {kind}"),
        };
        let number = number.map_or_else(|Refusal(number)| number, |()| 0);
        lines.push(format!("{} {kind} {number}", lines.len() + 1));
    }
    compare("records_cases", &lines);
}

/// A unifier of an event's equality under all its bets: its count and pairs, "none", or "long" where they outgrow a record.
fn equality(event: &[u8]) -> Result<String, Refusal> {
    let event = second(reader::event(event))?;
    let GoalShape::Equality(left, right) = event.goal.shape() else { return Ok("other".into()) };
    let count = event.bets.count();
    let (left, right) = (value::value(left, &event.bets, count)?, value::value(right, &event.bets, count)?);
    Ok(match unifier::unifier(&left, &right) {
        None => "none".into(),
        Some(unifier) if unifier.length() as usize - 1 > RECORD_LIMIT => "long".into(),
        Some(unifier) => {
            let mut bytes = Vec::new();
            writer::pairs(&mut bytes, &unifier);
            format!("0 {}", shown(&bytes, 256))
        }
    })
}

/// The body of an event's atom, "none" without a definition, or "long" where it outgrows a record.
fn atom_body(program: &[u8], event: &[u8]) -> Result<String, Refusal> {
    let program = reader::program(program)?;
    let event = second(reader::event(event))?;
    let GoalShape::Atom(predicate, arguments) = event.goal.shape() else { return Ok("other".into()) };
    let Some(definition) = program.definition(*predicate, arguments.len()) else { return Ok("none".into()) };
    let body = body::body(definition, arguments, event.above())?;
    if body.length() as usize > RECORD_LIMIT {
        return Ok("long".into());
    }
    let mut bytes = Vec::new();
    writer::goal(&mut bytes, &body);
    Ok(format!("0 {}", shown(&bytes, 256)))
}

#[test]
fn terms() {
    let mut cases = Cases::of("terms_cases");
    let mut lines = Vec::new();
    while let Some(kind) = cases.kind() {
        let given = match kind {
            'v' => {
                let (event, rest) = (cases.field(), cases.field());
                let Reply { number, bytes } = services::value(&event, number(&rest[..2]) as u16, number(&rest[2..]) as usize);
                if number == 0 {
                    format!("0 {}", shown(&bytes, 256))
                } else {
                    number.to_string()
                }
            }
            'u' => equality(&cases.field()).unwrap_or_else(|Refusal(number)| number.to_string()),
            'b' => atom_body(&cases.field(), &cases.field()).unwrap_or_else(|Refusal(number)| number.to_string()),
            'g' => match services::greatest(&cases.field()) {
                (0, part, greatest) => format!("0 {part} {greatest}"),
                (number, ..) => number.to_string(),
            },
            _ => panic!("kind {kind}"),
        };
        lines.push(format!("{} {kind} {given}", lines.len() + 1));
    }
    compare("terms_cases", &lines);
}

fn answered(reply: &Reply) -> String {
    if reply.number == 0 {
        format!("0 {}", shown(&reply.bytes, 200))
    } else {
        reply.number.to_string()
    }
}

/// The first event, at most that many steps forward, then steps back until one is refused.
fn walked(program: &[u8], query: &[u8], steps: u32) -> Vec<String> {
    let mut reply = services::first(query, RECORD_LIMIT);
    let mut lines = vec![format!("= {}", answered(&reply))];
    if reply.number != 0 {
        return lines;
    }
    for (sign, most) in [('>', steps), ('<', u32::MAX)] {
        for _ in 0..most {
            let next = match sign {
                '>' => services::forward(program, &reply.bytes, RECORD_LIMIT),
                _ => services::back(program, &reply.bytes, RECORD_LIMIT),
            };
            lines.push(format!("{sign} {}", answered(&next)));
            if next.number != 0 {
                break;
            }
            reply = next;
        }
    }
    lines
}

fn step_lines(kind: char, cases: &mut Cases) -> Vec<String> {
    let one = match kind {
        'q' => answered(&services::first(&cases.field(), cases.number() as usize)),
        'f' => answered(&services::forward(&cases.field(), &cases.field(), cases.number() as usize)),
        'b' => answered(&services::back(&cases.field(), &cases.field(), cases.number() as usize)),
        'r' | 's' => {
            let direction = if kind == 'r' { Direction::Forward } else { Direction::Back };
            let run = services::run(&cases.field(), &cases.field(), cases.number(), direction, cases.number() as usize);
            let record = if run.bytes.is_empty() { String::new() } else { format!(" {}", shown(&run.bytes, 200)) };
            format!("{} {}{record}", run.number, run.steps)
        }
        'w' => return walked(&cases.field(), &cases.field(), cases.number()),
        'l' => {
            let (program, event) = (cases.field(), cases.field());
            let place = services::place(&program, &event).unwrap_or(0..0);
            assert_eq!(services::lookup(&program, &event), &program[place.clone()]);
            format!("{} {}", place.start, place.len())
        }
        'c' => {
            let (event, counts) = (cases.field(), cases.field());
            let (refused, after) = services::count(&event, std::array::from_fn(|i| number(&counts[4 * i..4 * i + 4])));
            format!("{refused} {} {} {} {}", after[0], after[1], after[2], after[3])
        }
        _ => panic!("kind {kind}"),
    };
    vec![one]
}

#[test]
fn stepper() {
    let mut cases = Cases::of("stepper_cases");
    let (mut ordinal, mut lines) = (0, Vec::new());
    while let Some(kind) = cases.kind() {
        ordinal += 1;
        lines.extend(step_lines(kind, &mut cases).iter().map(|line| format!("{ordinal} {kind} {line}")));
    }
    compare("stepper_cases", &lines);
}

#[test]
fn canonical() {
    let mut cases = Cases::of("canonical_cases");
    let mut lines = Vec::new();
    while let Some(kind) = cases.kind() {
        let Reply { number, bytes } = services::canonical(&cases.field(), if kind == 'w' { RECORD_LIMIT } else { RECORD_LIMIT - 1 });
        let program = if number == 0 { format!(" {}", shown(&bytes, 64)) } else { String::new() };
        lines.push(format!("{} {number}{program}", lines.len() + 1));
    }
    compare("canonical_cases", &lines);
}

/// The line of a text: the number, the length of the list of names, the checksums of both buffers, which are lent with A5 in each byte, and what is read.
fn read_line(reply: &ReadReply, names_room: usize, room: usize) -> String {
    let buffer = |part: &[u8], room: usize| checksum(part.iter().copied().chain(std::iter::repeat(0xA5)).take(room));
    let parts: String = [&reply.bytes, &reply.names].iter().filter(|part| !part.is_empty()).map(|part| format!(" {}", shown(part, 200))).collect();
    format!("{} {} {:08x} {:08x}{parts}", reply.number, reply.names.len(), buffer(&reply.names, names_room), buffer(&reply.bytes, room))
}

#[test]
fn texts() {
    let mut cases = Cases::of("reader_cases");
    let mut lines = Vec::new();
    while let Some(kind) = cases.kind() {
        let (rules, query) = (cases.text(), if kind == 'q' { cases.text() } else { Vec::new() });
        let (names_room, room) = (cases.bare(), cases.bare());
        let reply = if kind == 'q' { read_query(&rules, &query, names_room, room) } else { read(&rules, names_room, room) };
        lines.push(format!("{} {}", lines.len() + 1, read_line(&reply, names_room, room)));
    }
    compare("reader_cases", &lines);
}

#[test]
fn walk() {
    let text = twin::walk::walk(&file("walk", "stdin"));
    compare("walk", &text.lines().map(String::from).collect::<Vec<_>>());
}
