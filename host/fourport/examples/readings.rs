//! readings: what the desk reads of many texts, for a reader that is no Rust program.
//!
//! Standard input holds texts, each behind a byte, `c` for clauses and `g` for a goal, and a length of four bytes, the high one first. For each text there
//! is a line: the number; the place of a refusal, as the bytes before it; the names, parted by commas; the record in hexadecimal. What there is none
//! of is `-`.

use fourport::{Clauses, Names, Query, TextRefusal, STACK};
use std::io::{self, BufWriter, Read, Write};
use std::thread;

fn main() -> io::Result<()> {
    thread::Builder::new().stack_size(STACK).spawn(readings)?.join().expect("the desk does not panic")
}

fn readings() -> io::Result<()> {
    let (mut input, mut out) = (Vec::new(), BufWriter::new(io::stdout().lock()));
    io::stdin().lock().read_to_end(&mut input)?;
    let mut rest = &input[..];
    while let Some((&[kind, a, b, c, d], behind)) = rest.split_first_chunk() {
        let (text, behind) = behind.split_at((u32::from_be_bytes([a, b, c, d]) as usize).min(behind.len()));
        writeln!(out, "{}", line(kind, text))?;
        rest = behind;
    }
    out.flush()
}

fn line(kind: u8, text: &[u8]) -> String {
    let read = |(names, record): (Names, Vec<u8>)| format!("0 - {} {}", listed(&names), hex(&record));
    let reading = match kind {
        b'c' => Clauses::from_text(text).map(|(clauses, names)| (names, clauses.as_bytes().to_vec())),
        _ => Query::from_text("", text).map(|(query, names)| (names, query.as_bytes().to_vec())),
    };
    reading.map_or_else(refused, read)
}

fn refused(refusal: TextRefusal) -> String {
    let place = refusal.place.map_or_else(|| "-".into(), |place| place.offset.to_string());
    format!("{} {place} - -", refusal.refusal.number())
}

fn listed(names: &Names) -> String {
    if names.is_empty() {
        return "-".into();
    }
    names.iter().collect::<Vec<_>>().join(",")
}

fn hex(bytes: &[u8]) -> String {
    bytes.iter().map(|byte| format!("{byte:02x}")).collect()
}
