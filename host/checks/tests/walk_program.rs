//! The walk program itself, as it is built: the stored inputs of crates/walk_cases through a pipe, pipes that stay open, and outputs that are closed.
//! The program is `target/bin/walk` of the repository, which `host/walk` makes, or the one that FOURPORT_WALK names. The form of the stored
//! inputs and lines stands at the top of tools/walk-cases.

use std::env;
use std::fs;
use std::io::{Read, Write};
use std::path::PathBuf;
use std::process::{Child, ChildStdin, ChildStdout, Command, ExitStatus, Stdio};
use std::sync::mpsc;
use std::thread;
use std::time::{Duration, Instant};

/// Far longer than any walk takes.
const PATIENCE: Duration = Duration::from_secs(20);

/// The input of SPECIFICATION 8.10, and what it prints.
const PROGRAM: [u8; 5] = layout::NO_DEFINITIONS;
const QUERY: [u8; 11] = [0, 9, 1, 0x12, 1, 0, 0, 2, 0, 2, 0];
const PRINTED: &str = "0 call 0 0\n1 exit 0 1\nstop 6\n";

fn repository() -> PathBuf {
    PathBuf::from(env!("CARGO_MANIFEST_DIR")).join("../..")
}

fn walk_program() -> PathBuf {
    let path = env::var_os("FOURPORT_WALK").map_or_else(|| repository().join("target/bin/walk"), PathBuf::from);
    assert!(path.exists(), "there is no program at {}: `host/walk`, run in the repository's root, makes it", path.display());
    path
}

// ---- The stored cases
fn stored(name: &str) -> Vec<u8> {
    let path = repository().join("crates/walk_cases").join(name);
    fs::read(&path).unwrap_or_else(|error| panic!("{}: {error}", path.display()))
}

/// Whole standard inputs, each behind a length of four bytes.
fn inputs() -> Vec<Vec<u8>> {
    let all = stored("stdin");
    let (mut rest, mut inputs) = (&all[..], Vec::new());
    while let Some((field, behind)) = rest.split_first_chunk() {
        let (input, after) = behind.split_at(u32::from_be_bytes(*field) as usize);
        inputs.push(input.to_vec());
        rest = after;
    }
    inputs
}

fn lines() -> Vec<String> {
    String::from_utf8(stored("stdout")).expect("text").lines().map(String::from).collect()
}

/// The line that is stored for a text: how many bytes and lines it has, its checksum (FNV-1a), and the text or its last line.
fn line(ordinal: usize, text: &str) -> String {
    let checksum = text.bytes().fold(0x811C_9DC5u32, |sum, byte| (sum ^ u32::from(byte)).wrapping_mul(0x0100_0193));
    let last = text.split_inclusive('\n').next_back().unwrap_or_default();
    let shown = if text.len() <= 80 { text.to_string() } else { format!(".. {last}") };
    format!("{ordinal} {} {} {checksum:08x} {}", text.len(), text.matches('\n').count(), shown.replace('\n', "/"))
}

/// Compares every stored line with that of the text made of its input.
fn compare(who: &str, text_of: impl Fn(&[u8]) -> String) {
    let (inputs, lines) = (inputs(), lines());
    assert_eq!(inputs.len(), lines.len());
    for (i, (input, stored)) in inputs.iter().zip(&lines).enumerate() {
        assert_eq!(&line(i + 1, &text_of(input)), stored, "{who}, case {}", i + 1);
    }
    println!("{who}: {} stored inputs agree", inputs.len());
}

// ---- The program as a process
struct Walk {
    process: Child,
    input: Option<ChildStdin>,
    output: Option<ChildStdout>,
}

impl Walk {
    fn started(mut command: Command) -> Walk {
        let mut process = command.stdin(Stdio::piped()).stdout(Stdio::piped()).spawn().expect("the program starts");
        Walk { input: process.stdin.take(), output: process.stdout.take(), process }
    }

    fn new() -> Walk {
        Walk::started(Command::new(walk_program()))
    }

    /// Bytes to the program, which need not read them all.
    fn send(&mut self, bytes: &[u8]) {
        let _ = self.input.as_mut().expect("open").write_all(bytes);
    }

    fn close_input(&mut self) {
        self.input = None;
    }

    /// The program's text, while its input stays as it is. Panics where it does not end.
    fn text(&mut self) -> String {
        let mut output = self.output.take().expect("open");
        let (sender, receiver) = mpsc::channel();
        thread::spawn(move || {
            let mut text = String::new();
            let _ = sender.send(output.read_to_string(&mut text).map(|_| text));
        });
        let status = self.ended();
        assert!(status.success(), "{status}");
        receiver.recv_timeout(PATIENCE).expect("the output ends with the program").expect("text")
    }

    /// How the program ended. Panics where it does not.
    fn ended(&mut self) -> ExitStatus {
        let start = Instant::now();
        while start.elapsed() < PATIENCE {
            if let Some(status) = self.process.try_wait().expect("a process") {
                return status;
            }
            thread::sleep(Duration::from_millis(1));
        }
        let _ = self.process.kill();
        panic!("the program did not end within {} s", PATIENCE.as_secs());
    }
}

/// The text of a whole standard input.
fn printed(input: &[u8]) -> String {
    let mut walk = Walk::new();
    let (mut pipe, bytes) = (walk.input.take().expect("open"), input.to_vec());
    let writer = thread::spawn(move || {
        let _ = pipe.write_all(&bytes);
    });
    let text = walk.text();
    writer.join().expect("written");
    text
}

/// The text of bytes behind which the pipe stays open.
fn printed_at_once(bytes: &[u8]) -> String {
    let mut walk = Walk::new();
    walk.send(bytes);
    let text = walk.text();
    assert!(walk.input.is_some());
    text
}

// ---- Tests
#[test]
fn stored_inputs() {
    compare("the walk program", printed);
}

/// The twin's text of the same inputs.
#[test]
fn stored_inputs_and_the_twin() {
    compare("the twin", twin::walk::walk);
}

#[test]
fn an_input_byte_by_byte() {
    let (inputs, lines) = (inputs(), lines());
    let short = (0..inputs.len()).filter(|&i| inputs[i].len() <= 45);
    for i in short {
        let mut walk = Walk::new();
        for byte in &inputs[i] {
            walk.send(&[*byte]);
            thread::sleep(Duration::from_micros(200));
        }
        walk.close_input();
        assert_eq!(line(i + 1, &walk.text()), lines[i]);
    }
}

/// Nothing after the query is waited for.
#[test]
fn a_pipe_that_stays_open_behind_the_query() {
    assert_eq!(printed_at_once(&[&PROGRAM[..], &QUERY].concat()), PRINTED);
    assert_eq!(printed_at_once(&[&PROGRAM[..], &QUERY, &PROGRAM].concat()), PRINTED);
}

/// A refused program is answered without a query, and a refused length field without what it names.
#[test]
fn a_pipe_that_stays_open_behind_a_refused_record() {
    assert_eq!(printed_at_once(&[0, 0]), "stop 1\n");
    assert_eq!(printed_at_once(&[0x7F, 0xFF]), "stop 1\n");
    assert_eq!(printed_at_once(&[0, 3, 2, 0, 0]), "stop 2\n");
    assert_eq!(printed_at_once(&[0, 3, 1, 0, 1]), "stop 3\n");
    assert_eq!(printed_at_once(&[0, 15, 1, 0, 1, 0, 5, 0, 0, 0x12, 1, 0, 0, 2, 0, 2, 0]), "stop 4\n");
    assert_eq!(printed_at_once(&[&PROGRAM[..], &[0x7F, 0xFF]].concat()), "stop 11\n");
}

/// A walk of several pages, of which only the first bytes are taken; the second time a write is answered with an error and not with a signal.
#[test]
fn an_output_that_is_closed_early() {
    let inputs = inputs();
    let long = lines().iter().position(|line| line.split(' ').nth(1).is_some_and(|bytes| bytes.len() > 6)).expect("a long text");
    let mut told = Command::new("sh");
    told.args(["-c", "trap '' PIPE; exec \"$0\""]).arg(walk_program());
    for command in [Command::new(walk_program()), told] {
        let mut walk = Walk::started(command);
        walk.send(&inputs[long]);
        walk.close_input();
        let mut front = [0; 11];
        walk.output.take().expect("open").read_exact(&mut front).expect("a line");
        assert_eq!(&front, b"0 call 0 0\n");
        walk.ended();
    }
}

/// No output at all.
#[test]
fn an_output_that_is_not_there() {
    let mut command = Command::new("sh");
    command.args(["-c", "exec \"$0\" >&-"]).arg(walk_program());
    let mut walk = Walk::started(command);
    walk.send(&[&PROGRAM[..], &QUERY].concat());
    walk.close_input();
    assert!(walk.ended().success());
}
