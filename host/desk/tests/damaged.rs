//! Ten thousand inputs, most of them damaged: each is answered soon, with one of the four statuses and without a panic.

#[path = "common/damage.rs"]
mod damage;
#[path = "common/dice.rs"]
mod dice;
#[path = "common/examples.rs"]
mod examples;
#[path = "common/generated.rs"]
mod generated;

use damage::{Texts, KINDS, USUAL_KINDS};
use dice::Dice;
use std::collections::BTreeMap;
use std::ffi::OsStr;
use std::fs::{self, File};
use std::os::unix::ffi::OsStrExt;
use std::path::{Path, PathBuf};
use std::process::{Command, Stdio};
use std::sync::atomic::{AtomicUsize, Ordering};
use std::time::{Duration, Instant};
use std::{env, thread};

const CASES: usize = 10_000;
const SEED: u64 = 20;
const THREADS: usize = 2;
/// The longest that a run may take; the machine may be busy.
const MOST_TIME: Duration = Duration::from_secs(20);

/// No argument of a program is longer.
const MOST_ARGUMENT: usize = 100_000;

const WORDS: [&str; 24] = [
    "step",
    "step 7",
    "back",
    "back 3",
    "next",
    "previous",
    "finish",
    "door",
    "run 40",
    "reverse 9",
    "goto 12",
    "answer",
    "why X",
    "undo",
    "break p/1",
    "delete",
    "breaks",
    "print",
    "print X",
    "where",
    "bets",
    "list",
    "screen",
    "help step",
];

/// Commands that there are not, or that lack something, or have too much.
const STRANGE: [&str; 9] = ["stepp", "goto x", "print", "", "break", "\u{e9}", "goto 18446744073709551616", "back 4294967296", "quit"];

/// The commands, each with a word for the table.
fn arguments(dice: &mut Dice) -> (&'static str, Vec<&'static str>) {
    match dice.below(7) {
        0 => ("answers", vec!["answers", "--steps", "2000"]),
        1 => ("answers", vec!["answers", "--steps", "2000", "--csv", "--limit", "9"]),
        2 => ("answers", vec!["answers", "--steps", "2000", "--json"]),
        3 => ("walk", vec!["walk", "--to", "500"]),
        4 => ("walk", vec!["walk", "--to", "500", "--all"]),
        _ => ("step", vec!["step"]),
    }
}

/// Commands for `desk step`; now and then one that there is not.
fn script(dice: &mut Dice) -> Vec<u8> {
    let mut lines: Vec<&str> = (0..dice.below(12)).map(|_| *dice.pick(&WORDS)).collect();
    if dice.one_in(8) {
        lines.push(*dice.pick(&STRANGE));
    }
    (lines.join("\n") + "\n").into_bytes()
}

/// The folder of one thread, in which each run finds its files.
struct Place {
    folder: PathBuf,
}

impl Place {
    fn path(&self, name: &str) -> PathBuf {
        self.folder.join(name)
    }

    /// Runs the program, with the query as a file, or as it stands where an argument can hold it; gives the status and what stands on standard error.
    fn run(&self, command: &[&str], texts: &Texts, script: &[u8], as_file: bool) -> Result<(i32, String), String> {
        for (name, bytes) in [("rules.pl", &texts.rules[..]), ("asked.query", &texts.query), ("script", script)] {
            fs::write(self.path(name), bytes).expect("a file is written");
        }
        let open = |name: &str| File::open(self.path(name)).expect("a file is opened");
        let mut program = Command::new(env!("CARGO_BIN_EXE_desk"));
        let as_file = as_file || texts.query.contains(&0) || texts.query.len() > MOST_ARGUMENT;
        let query = if as_file { OsStr::new("@asked.query") } else { OsStr::from_bytes(&texts.query) };
        program.current_dir(&self.folder).args(command).args(["rules.pl", "--"]).arg(query);
        program.stdin(open("script")).stdout(Stdio::null()).stderr(File::create(self.path("err")).expect("a file is made"));
        let (mut child, since) = (program.spawn().expect("the program starts"), Instant::now());
        let status = loop {
            match child.try_wait().expect("it can be waited for") {
                Some(status) => break status,
                None if since.elapsed() > MOST_TIME => {
                    child.kill().expect("it can be ended");
                    return Err(format!("no end after {MOST_TIME:?}"));
                }
                None => thread::sleep(Duration::from_micros(300)),
            }
        };
        let err = String::from_utf8_lossy(&fs::read(self.path("err")).expect("standard error")).into_owned();
        match status.code() {
            Some(code @ 0..=3) if !err.contains("panicked") => Ok((code, err)),
            _ => Err(format!("{status}: {err}")),
        }
    }
}

/// How often each status was met, by command and by kind.
type Met = BTreeMap<(&'static str, &'static str), [usize; 4]>;

/// Runs the cases that the counter gives out.
fn work(place: &Place, examples: &[Texts], next: &AtomicUsize) -> (Met, Duration) {
    let (mut met, mut longest): (Met, Duration) = Default::default();
    loop {
        let case = next.fetch_add(1, Ordering::Relaxed);
        if case >= CASES {
            return (met, longest);
        }
        let mut dice = Dice::new(SEED + case as u64 * 1_000_003);
        let (kind, made) = KINDS[if dice.one_in(5) { dice.below(KINDS.len()) } else { dice.below(USUAL_KINDS) }];
        let (texts, (name, command), script) = (made(&mut dice, examples), arguments(&mut dice), script(&mut dice));
        let since = Instant::now();
        match place.run(&command, &texts, &script, dice.one_in(2)) {
            Ok((code, err)) => {
                // a script with a command that there is not ends with 2 too
                assert!((code == 2) == err.contains("error: ") || code == 2 && name == "step", "case {case} in {}: {err}", place.folder.display());
                met.entry((name, kind)).or_default()[code as usize] += 1;
            }
            Err(what) => panic!("case {case} ({kind}), {command:?} in {}: {what}", place.folder.display()),
        }
        longest = longest.max(since.elapsed());
    }
}

fn texts_of_examples() -> Vec<Texts> {
    let bytes = |path: &str| fs::read(path).expect("an example");
    examples::examples().iter().map(|(rules, query)| Texts { rules: bytes(rules), query: bytes(query) }).collect()
}

#[test]
fn damaged_inputs() {
    let (examples, next) = (texts_of_examples(), AtomicUsize::new(0));
    let place = |thread: usize| {
        let folder = Path::new(env!("CARGO_TARGET_TMPDIR")).join(format!("damaged-{thread}"));
        fs::create_dir_all(&folder).expect("a folder is made");
        Place { folder }
    };
    let (mut met, mut longest): (Met, Duration) = Default::default();
    thread::scope(|scope| {
        let (examples, next) = (&examples, &next);
        let workers: Vec<_> = (0..THREADS).map(|thread| scope.spawn(move || work(&place(thread), examples, next))).collect();
        for worker in workers {
            let (own, time) = worker.join().expect("no case fails");
            longest = longest.max(time);
            own.into_iter().for_each(|(key, counts)| met.entry(key).or_default().iter_mut().zip(counts).for_each(|(all, count)| *all += count));
        }
    });
    println!("{:<8} {:<18} {:>6} {:>6} {:>6} {:>6}", "command", "texts", 0, 1, 2, 3);
    for ((name, kind), [done, none, refused, stopped]) in &met {
        println!("{name:<8} {kind:<18} {done:>6} {none:>6} {refused:>6} {stopped:>6}");
    }
    println!("the longest took {longest:?}");
    let count = |status: usize| met.values().map(|counts| counts[status]).sum::<usize>();
    assert!((0..4).all(|status| count(status) > 20), "{met:?}");
    assert_eq!((0..4).map(count).sum::<usize>(), CASES);
}
