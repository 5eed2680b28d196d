//! Exit statuses, the command line, closed pipes, and output that stays plain.

mod common;

use common::{desk, program, written, Told};
use std::fs::File;
use std::io::{BufRead, BufReader, Read};
use std::process::Stdio;

/// Ten values, so that three goals have a thousand answers and a walk of many lines.
fn many() -> String {
    let facts: String = (0..10).map(|number| format!("bay({number}).\n")).collect();
    written("statuses/many.pl", facts)
}

/// Status 2, a message that says `words`, and nothing on standard output.
fn refused(arguments: &[&str], words: &str) {
    let Told { status, out, err } = desk(arguments);
    assert_eq!((status, out.as_str()), (2, ""), "{arguments:?}: {err}");
    assert!(err.contains(words), "{arguments:?}: {err}");
}

#[test]
fn files_that_cannot_be_read() {
    let (rules, folder) = (many(), env!("CARGO_TARGET_TMPDIR"));
    for command in ["answers", "walk", "step"] {
        refused(&[command, "statuses/no-such-file.pl", "true"], "statuses/no-such-file.pl: error: ");
        refused(&[command, folder, "true"], &format!("{folder}: error: "));
        refused(&[command, &rules, "@no-such.query"], "no-such.query: error: ");
        refused(&[command, &rules, "@"], "error: ");
        refused(&[command, "", "true"], "error: ");
    }
}

#[test]
fn mistakes_on_the_command_line() {
    let rules = many();
    refused(&[], "Usage: desk");
    refused(&["answers"], "RULES");
    refused(&["answers", &rules], "QUERY");
    refused(&["answer", &rules, "true"], "answers");
    refused(&["answers", &rules, "true", "--limmit", "3"], "--limit");
    refused(&["answers", &rules, "true", "--limit", "many"], "many");
    refused(&["answers", &rules, "true", "--limit", "-1"], "-1");
    refused(&["answers", &rules, "true", "--steps", "4294967296"], "4294967296");
    refused(&["answers", &rules, "true", "--csv", "--json"], "--json");
    refused(&["answers", &rules, "true", "more"], "more");
    refused(&["walk", &rules, "true", "--ports", "call,enter"], "enter");
    refused(&["walk", &rules, "true", "--from", "x"], "x");
    refused(&["walk", &rules, "true", "--spy", "bey/1"], "did you mean `bay`");
    refused(&["walk", &rules, "true", "--spy", "bay/one"], "bay");
    refused(&["walk", &rules, "true", "--spy", ""], "error: ");
}

#[test]
fn each_status() {
    let (rules, ring) = (many(), written("statuses/ring.pl", "ring :- ring.\n"));
    assert_eq!(desk(&["answers", &rules, "bay(X)"]).status, 0);
    assert_eq!(desk(&["answers", &rules, "bay(10)"]).status, 1);
    assert_eq!(desk(&["answers", &rules, "bay(X"]).status, 2);
    assert_eq!(desk(&["answers", &rules, "bay(X)", "--steps", "20"]).status, 3);
    assert_eq!(desk(&["answers", &rules, "bay(X)", "--limit", "2"]).status, 3);
    assert_eq!(desk(&["answers", &ring, "ring"]).status, 3);
    assert_eq!(desk(&["walk", &rules, "bay(X)"]).status, 0);
    assert_eq!(desk(&["walk", &rules, "bay(X"]).status, 2);
    assert_eq!(desk(&["walk", &ring, "ring", "--from", "100000"]).status, 3);
}

#[test]
fn help_says_what_people_need() {
    for arguments in [&["--help"][..], &["answers", "--help"], &["walk", "--help"], &["step", "--help"], &["help", "answers"]] {
        let told = desk(arguments);
        assert_eq!((told.status, told.err.as_str()), (0, ""), "{arguments:?}");
        for word in ["RULES", "QUERY", "@FILE", "%", "comment", "65,535", "Exit status: 0", " 1 ", " 2 ", " 3 "] {
            assert!(told.out.contains(word), "{arguments:?} does not say {word}");
        }
    }
    for option in ["--limit", "--steps", "--csv", "--json"] {
        assert!(desk(&["answers", "--help"]).out.contains(option));
    }
    for option in ["--all", "--from", "--to", "--ports", "--spy"] {
        assert!(desk(&["walk", "--help"]).out.contains(option));
    }
    assert!(desk(&["--version"]).out.starts_with("desk "));
}

/// Reads the first line and closes the pipe.
fn first_line_alone(arguments: &[&str]) {
    let mut child = program().args(arguments).stdout(Stdio::piped()).stderr(Stdio::piped()).spawn().expect("the program starts");
    let mut line = String::new();
    let mut out = BufReader::with_capacity(64, child.stdout.take().expect("a pipe"));
    out.read_line(&mut line).expect("a line");
    drop(out);
    let mut err = String::new();
    child.stderr.take().expect("a pipe").read_to_string(&mut err).expect("UTF-8");
    let status = child.wait().expect("it ends");
    assert_eq!((status.code(), err.as_str(), line.is_empty()), (Some(0), "", false), "{arguments:?}");
}

#[test]
fn a_closed_pipe_ends_it_quietly() {
    let rules = many();
    first_line_alone(&["walk", &rules, "bay(A), bay(B), bay(C), fail"]);
    first_line_alone(&["answers", &rules, "bay(A), bay(B), bay(C)"]);
    first_line_alone(&["answers", &rules, "bay(A), bay(B), bay(C)", "--csv"]);
    first_line_alone(&["answers", &rules, "bay(A), bay(B), bay(C)", "--json"]);
}

#[test]
fn an_output_that_takes_nothing_is_told() {
    let full = File::options().write(true).open("/dev/full").expect("a device that is always full");
    let output = program().args(["answers", &many(), "bay(X)"]).stdout(full).stderr(Stdio::piped()).output().expect("the program starts");
    let err = String::from_utf8(output.stderr).expect("UTF-8");
    assert_eq!(output.status.code(), Some(2), "{err}");
    assert!(err.contains("error: "), "{err}");
}

#[test]
fn output_is_plain_where_it_is_no_terminal() {
    let rules = written("statuses/warned.pl", "p(X, Y) :- q(X).\nr.\np(a, b).\n");
    let runs = [
        &["answers", &rules, "p(X, Y)"][..],
        &["walk", &rules, "p(X, Y)"],
        &["answers", &rules, "p(X"],
        &["--help"],
        &["answers"],
        &["step", &rules, "p(X, Y)"],
    ];
    for arguments in runs {
        for colours in ["TERM", "NO_COLOR", "CLICOLOR_FORCE"] {
            let told: Told = program().args(arguments).env(colours, "xterm-256color").output().expect("the program starts").into();
            assert!(!told.out.contains('\u{1b}') && !told.err.contains('\u{1b}'), "{arguments:?}");
        }
    }
}

/// What is said of a list goes to standard error; where that takes nothing the list is none the worse.
#[test]
fn an_error_output_that_takes_nothing() {
    let path = written("statuses/full.pl", "b(o). b(l).\n");
    let full = std::fs::OpenOptions::new().write(true).open("/dev/full").expect("the full device");
    let told: Told = program().args(["answers", &path, "b(X)", "--csv"]).stderr(full).output().expect("the program starts").into();
    assert_eq!((told.status, told.out.lines().count()), (0, 3));
}
