//! `desk step` run with a script, what it wrote taken apart, and the events of the walk as the library gives them.

use fourport::{Clauses, Event, Names, Port, Query};
use std::fs;
use std::io::Write;
use std::path::PathBuf;
use std::process::{Command, Stdio};
use std::sync::atomic::{AtomicUsize, Ordering};

const PROMPT: &str = "(desk) ";
/// The columns of an output that says nothing of them.
const COLUMNS: usize = 80;

/// A screen as it was written, and the number of its event.
#[derive(Clone, Debug, PartialEq, Eq)]
pub struct Screen {
    pub number: usize,
    pub text: String,
}

/// What was written for one command; for none at the start.
#[derive(Clone, Debug, Default)]
pub struct Shown {
    pub command: String,
    pub words: Vec<String>,
    pub screen: Option<Screen>,
}

/// Rules and a query of `examples`.
pub struct Garage {
    pub rules: PathBuf,
    pub query: &'static str,
}

/// The walk of a garage: every event by its number.
pub struct Walked {
    pub names: Names,
    pub events: Vec<Event>,
}

pub fn garage(name: &str, query: &'static str) -> Garage {
    Garage { rules: PathBuf::from(env!("CARGO_MANIFEST_DIR")).join(format!("../../examples/{name}.pl")), query }
}

/// A garage in a new file, since tests run beside each other.
pub fn written(rules: &str, query: &'static str) -> Garage {
    static FILES: AtomicUsize = AtomicUsize::new(0);
    let path = PathBuf::from(env!("CARGO_TARGET_TMPDIR")).join(format!("garage-{}.pl", FILES.fetch_add(1, Ordering::Relaxed)));
    fs::write(&path, rules).unwrap();
    Garage { rules: path, query }
}

impl Garage {
    /// What the desk writes for commands from a pipe, and its exit status.
    pub fn step<C: AsRef<str>>(&self, commands: &[C]) -> (Vec<Shown>, i32) {
        let script: String = commands.iter().flat_map(|command| [command.as_ref(), "\n"]).collect();
        let (output, status) = self.step_with(&[], script.into_bytes());
        (taken_apart(&output), status)
    }

    /// What the desk writes for any bytes from a pipe, with more arguments.
    pub fn step_with(&self, arguments: &[&str], script: Vec<u8>) -> (String, i32) {
        self.step_in(COLUMNS, arguments, script)
    }

    /// The same for an output of so many columns.
    pub fn step_in(&self, columns: usize, arguments: &[&str], script: Vec<u8>) -> (String, i32) {
        let mut desk = Command::new(env!("CARGO_BIN_EXE_desk"));
        desk.arg("step")
            .arg(&self.rules)
            .arg(self.query)
            .args(arguments)
            .env_remove("COLUMNS")
            .envs((columns != COLUMNS).then(|| ("COLUMNS", columns.to_string())))
            .stdin(Stdio::piped())
            .stdout(Stdio::piped())
            .stderr(Stdio::null());
        let mut desk = desk.spawn().unwrap();
        let mut input = desk.stdin.take().unwrap();
        let writer = std::thread::spawn(move || input.write_all(&script));
        let output = desk.wait_with_output().unwrap();
        // a script that quits need not be read to its end
        _ = writer.join().unwrap();
        (String::from_utf8(output.stdout).unwrap(), output.status.code().unwrap())
    }

    /// The numbers of the events where one stands after each command.
    pub fn numbers<C: AsRef<str>>(&self, commands: &[C]) -> Vec<usize> {
        let (shown, _) = self.step(commands);
        assert_eq!(shown.len(), commands.len() + 1);
        let mut number = 0;
        let after = shown.iter().skip(1).map(|shown| {
            number = shown.screen.as_ref().map_or(number, |screen| screen.number);
            number
        });
        after.collect()
    }

    /// The walk of 'Q, fail' from the call of Q to its end, by single steps of the library.
    pub fn walked(&self) -> Walked {
        let rules = blanked(&fs::read_to_string(&self.rules).unwrap());
        let program = Clauses::from_text(&rules).unwrap().0.canonical().unwrap();
        let (query, names) = Query::from_text(&rules, self.query).unwrap();
        let mut walk = program.walk(Event::first(&query.then_fail().unwrap()).unwrap());
        let events: Vec<Event> = walk.forwards().collect();
        Walked { names, events }
    }
}

impl Walked {
    pub fn last(&self) -> usize {
        self.events.len() - 1
    }

    /// Goal and ancestors of an event, by their bytes: two events of one goal have the same.
    pub fn place(&self, number: usize) -> (Vec<u8>, Vec<String>) {
        let event = &self.events[number];
        (event.goal().as_bytes().to_vec(), event.ancestors().map(|ancestor| ancestor.to_string()).collect())
    }

    pub fn is_entry(&self, number: usize) -> bool {
        matches!(self.events[number].port(), Port::Call | Port::Redo)
    }

    /// The exits of the query.
    pub fn answers(&self) -> Vec<usize> {
        (0..self.events.len()).filter(|&number| self.events[number].port() == Port::Exit && self.place(number) == self.place(0)).collect()
    }
}

/// Blanks for comments, as the library knows none.
fn blanked(rules: &str) -> String {
    let without = |line: &str| line.split('%').next().unwrap_or_default().to_string();
    rules.lines().map(without).collect::<Vec<_>>().join("\n")
}

fn taken_apart(output: &str) -> Vec<Shown> {
    let mut all = vec![Shown::default()];
    for line in output.lines() {
        if let Some(command) = line.strip_prefix(PROMPT) {
            all.push(Shown { command: command.into(), ..Shown::default() });
            continue;
        }
        let Some(shown) = all.last_mut() else { continue };
        match (&mut shown.screen, number_of(line)) {
            (Some(screen), _) => screen.text += &format!("{line}\n"),
            (None, Some(number)) => shown.screen = Some(Screen { number, text: format!("{line}\n") }),
            (None, None) => shown.words.push(line.into()),
        }
    }
    all
}

/// The number in a screen's first line: `event 1,204 of 10,750  exit  ..`.
fn number_of(line: &str) -> Option<usize> {
    let (number, _) = line.strip_prefix("event ")?.split_once(" of ")?;
    number.replace(',', "").parse().ok()
}
