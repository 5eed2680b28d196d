//! A script of 200 commands, forward and back: the same event has the same screen whenever it is shown, and also in a run that went straight to it.

use crate::stepping::{garage, Garage, Screen, Shown};
use std::collections::BTreeMap;

const COMMANDS: usize = 200;

/// Numbers from a seed.
struct Dice(u64);

impl Dice {
    fn roll(&mut self, below: u64) -> u64 {
        self.0 = self.0.wrapping_mul(6_364_136_223_846_793_005).wrapping_add(1_442_695_040_888_963_407);
        (self.0 >> 33) % below
    }
}

fn script(seed: u64, last: u64, predicate: &str) -> Vec<String> {
    let mut dice = Dice(seed);
    let command = |_| match dice.roll(20) {
        0..=2 => "step".into(),
        3..=4 => format!("step {}", dice.roll(30)),
        5..=6 => "back".into(),
        7 => format!("back {}", dice.roll(40)),
        8..=9 => format!("goto {}", dice.roll(last + 1)),
        10 => "next".into(),
        11 => "previous".into(),
        12 => "finish".into(),
        13 => "door".into(),
        14 => "answer".into(),
        15 => "previous answer".into(),
        16 => ["run", "reverse", "run 100", "reverse 100"][dice.roll(4) as usize].into(),
        17 => [format!("break {predicate} exit"), "breaks".into(), format!("delete {predicate}")][dice.roll(3) as usize].clone(),
        18 => ["print", "where", "bets", "list", "help", "screen"][dice.roll(6) as usize].into(),
        _ => "undo".into(),
    };
    (0..COMMANDS).map(command).collect()
}

fn screens(shown: &[Shown]) -> impl Iterator<Item = &Screen> {
    shown.iter().filter_map(|shown| shown.screen.as_ref())
}

/// The screen of each event shown; fails where an event has two.
fn one_screen_each(shown: &[Shown]) -> BTreeMap<usize, String> {
    let mut known: BTreeMap<usize, String> = BTreeMap::new();
    for screen in screens(shown) {
        let first = known.entry(screen.number).or_insert_with(|| screen.text.clone());
        assert_eq!(first, &screen.text, "event {} was shown in two ways", screen.number);
    }
    known
}

/// Where undo leads: back to where each command that moved was given, the last one first.
fn undo_returns(shown: &[Shown]) -> usize {
    let (mut number, mut trail, mut undone) = (0, Vec::new(), 0);
    for shown in shown.iter().skip(1) {
        let now = shown.screen.as_ref().map_or(number, |screen| screen.number);
        if shown.command == "undo" {
            let expected: Option<usize> = trail.pop();
            assert_eq!(now, expected.unwrap_or(number));
            undone += usize::from(expected.is_some());
        } else if now != number {
            trail.push(number);
        }
        number = now;
    }
    undone
}

fn hold(garage: &Garage, seed: u64, predicate: &str) {
    let walked = garage.walked();
    let (shown, status) = garage.step(&script(seed, walked.last() as u64, predicate));
    assert_eq!((shown.len(), status), (COMMANDS + 1, 0));
    let known = one_screen_each(&shown);
    assert!(known.len() > 60, "only {} events were shown", known.len());
    assert!(screens(&shown).count() > known.len() + 20, "events were hardly shown twice");
    assert!(undo_returns(&shown) > 3);
    // the event is the one that the library comes to by as many steps
    for (number, text) in &known {
        let port = walked.events[*number].port();
        assert!(text.lines().next().unwrap().contains(&format!("  {port}  ")), "{text}");
    }
    // straight there, in another run: each event anew from the query's call
    let straight: Vec<String> = known.keys().flat_map(|number| ["goto 0".into(), format!("goto {number}"), "screen".into()]).collect();
    assert_eq!(one_screen_each(&garage.step(&straight).0), with_the_first(known, &shown));
}

/// The first event is shown in every run.
fn with_the_first(mut known: BTreeMap<usize, String>, shown: &[Shown]) -> BTreeMap<usize, String> {
    known.extend(shown[0].screen.clone().map(|screen| (screen.number, screen.text)));
    known
}

#[test]
fn three_bays() {
    for seed in [1, 2, 3] {
        hold(&garage("three-bays", "sheet(A, B, C)"), seed, "cable/1");
    }
}

#[test]
fn riverside() {
    hold(&garage("riverside", "light(Bay, light_a2)"), 20, "wired/3");
}

/// Any bytes as a script: what is no command is said to be none, and the desk goes on.
#[test]
fn bytes_that_are_no_script() {
    let (garage, mut dice) = (garage("three-bays", "sheet(A, B, C)"), Dice(7));
    let words =
        ["step", "goto", "break", "why", "print", "cable/1", "A", "12", "-1", "99999999999999999999", "next", "answer", "\u{1b}[2J", "\0", "é"];
    let mut line = |_| match dice.roll(3) {
        0 => (0..dice.roll(40)).map(|_| dice.roll(256) as u8).chain([b'\n']).collect::<Vec<u8>>(),
        _ => (0..1 + dice.roll(3)).map(|_| words[dice.roll(words.len() as u64) as usize]).collect::<Vec<_>>().join(" ").into_bytes(),
    };
    let script: Vec<u8> = (0..2_000).map(&mut line).collect::<Vec<_>>().join(&b'\n');
    let (output, status) = garage.step_with(&[], script);
    assert_eq!(status, 2);
    assert!(output.matches("(desk) ").count() > 1_000 && output.matches("there is no command").count() > 100);
    assert!(!output.chars().any(|letter| letter.is_control() && letter != '\n'), "nothing controls a terminal");
}

/// Screens of up to 24 rows and 80 columns, as a terminal has them.
#[test]
fn screens_fit() {
    let garage = garage("riverside", "light(Bay, light_a2)");
    let commands: Vec<String> = (0..250).map(|number| format!("goto {}", number * 43)).collect();
    for screen in screens(&garage.step(&commands).0) {
        assert!(screen.text.lines().count() <= 24 - 2 + 1, "{}", screen.text);
        assert!(screen.text.lines().all(|line| line.chars().count() <= 80), "{}", screen.text);
    }
}
