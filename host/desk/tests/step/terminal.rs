//! `desk step` in a real terminal: keys, typed lines, history, pages, sizes, colour, Ctrl-C.

use crate::stepping::{garage, written, Garage};
use crate::tmux::Terminal;

const DESK: &str = env!("CARGO_BIN_EXE_desk");

fn bays() -> Garage {
    garage("three-bays", "sheet(A, B, C)")
}

/// The desk in a terminal, with settings such as `NO_COLOR=1`.
fn start(garage: &Garage, columns: usize, rows: usize, settings: &[&str]) -> Terminal {
    let rules = garage.rules.to_str().unwrap();
    let terminal = Terminal::start(columns, rows, &[&["env", "-u", "NO_COLOR"], settings, &[DESK, "step", rules, garage.query]].concat());
    terminal.wait("the first screen", |shown| is_ready(shown, rows) && is_at(shown, 0));
    terminal
}

/// Whether a prompt waits for a line, in the last row.
fn is_ready(shown: &[String], rows: usize) -> bool {
    shown.get(rows - 1).is_some_and(|row| row == "(desk)")
}

fn is_at(shown: &[String], number: usize) -> bool {
    shown.first().is_some_and(|row| row.starts_with(&format!("event {number} of ")))
}

/// Waits until the screen shows an event, from the first row on.
fn wait_for(terminal: &Terminal, number: usize) -> Vec<String> {
    terminal.wait(&format!("event {number}"), |shown| is_at(shown, number) && is_ready(shown, 24))
}

#[test]
fn keys_move() {
    let terminal = start(&bays(), 80, 24, &[]);
    for (key, number) in [("Right", 1), ("Right", 2), ("Left", 1), ("End", 119), ("PageUp", 0), ("PageDown", 119), ("Right", 120), ("Home", 0)] {
        terminal.press(&[key]);
        wait_for(&terminal, number);
    }
    let goals = bays().numbers(&["goal", "goal", "goal", "goal back"]);
    for (key, number) in ["C-Right", "C-Right", "C-Right", "C-Left"].into_iter().zip(goals) {
        terminal.press(&[key]);
        wait_for(&terminal, number);
    }
    // in a line that is begun they move the cursor: 1, then 7 before it
    terminal.press(&["g", "Space", "1", "Left", "7", "Right", "Enter"]);
    wait_for(&terminal, 71);
}

#[test]
fn typed_lines_history_and_repetition() {
    let terminal = start(&bays(), 80, 24, &[]);
    terminal.type_line("goto 62");
    wait_for(&terminal, 62);
    terminal.type_line("step 3");
    wait_for(&terminal, 65);
    terminal.press(&["Enter"]);
    wait_for(&terminal, 68);
    terminal.press(&["Up"]);
    terminal.wait("the last line", |shown| shown[23] == "(desk) step 3");
    terminal.press(&["Up"]);
    terminal.wait("the line before", |shown| shown[23] == "(desk) goto 62");
    terminal.press(&["Enter"]);
    wait_for(&terminal, 62);
    terminal.press(&["u", "n", "d", "Tab"]);
    terminal.wait("the completed line", |shown| shown[23] == "(desk) undo");
    terminal.press(&["C-c"]);
    terminal.wait("an empty line", |shown| is_ready(shown, 24) && is_at(shown, 62));
    terminal.type_line("why B");
    let shown = terminal.wait("what why says", |shown| shown[22].starts_with("B = right since this event, by ") && is_ready(shown, 24));
    assert!(is_at(&shown, 62));
}

/// A terminal of 80 columns and 24 rows shows what a pipe is given, and nothing scrolls.
#[test]
fn the_terminal_shows_what_a_pipe_is_given() {
    let garage = garage("riverside", "light(Bay, light_a2)");
    let numbers = [0, 1, 40, 300, 1_204, 5_000, 9_999];
    let terminal = start(&garage, 80, 24, &[]);
    let (scripted, _) = garage.step(&numbers.map(|number| format!("goto {number}")));
    for (shown, number) in scripted[1..].iter().zip(numbers).filter(|(shown, _)| shown.screen.is_some()) {
        let screen = shown.screen.as_ref().unwrap();
        terminal.type_line(&shown.command);
        let head = screen.text.lines().next().unwrap();
        let rows = terminal.wait(head, |rows| rows[0] == head && is_ready(rows, 24));
        assert_eq!(screen.number, number);
        assert_eq!(rows[..22].join("\n").trim_end(), screen.text.trim_end());
        assert_eq!(rows.len() - 1, 24);
    }
}

#[test]
fn a_larger_terminal() {
    let garage = garage("riverside", "light(Bay, light_a2)");
    let terminal = start(&garage, 100, 40, &[]);
    terminal.type_line("goto 18");
    let rows = terminal.wait("event 18", |shown| is_at(shown, 18) && is_ready(shown, 40));
    assert!(rows.iter().any(|row| row.chars().count() > 80), "{}", rows.join("\n"));
    assert!(rows.iter().all(|row| row.chars().count() <= 100));
}

#[test]
fn colour_unless_it_is_refused() {
    for (settings, is_coloured) in [(&[][..], true), (&["NO_COLOR=1"][..], false)] {
        let terminal = start(&bays(), 80, 24, settings);
        terminal.type_line("goto 114");
        let rows = wait_for(&terminal, 114);
        assert_eq!(terminal.coloured().contains('\u{1b}'), is_coloured);
        // the goal is marked without colour too
        assert!(rows.iter().any(|row| row.trim().starts_with("^^^^")));
    }
}

/// A terminal of 24 rows has all of help on one page.
#[test]
fn long_listings_have_pages() {
    let terminal = start(&bays(), 80, 24, &[]);
    terminal.type_line("help");
    let has_keys = |shown: &[String]| shown.iter().any(|row| row.starts_with("Keys "));
    let is_first = |shown: &[String]| shown[0].starts_with("step s, back b [N] ");
    let end = "an empty line shows the event again";
    terminal.wait("all of help", |shown| is_first(shown) && has_keys(shown) && shown[22] == end && is_ready(shown, 24));
    for (rows, more) in [(23, "1 line more: an empty line shows it"), (20, "4 lines more: an empty line shows them")] {
        let terminal = start(&bays(), 80, rows, &[]);
        terminal.type_line("help");
        terminal.wait("the first page", |shown| is_first(shown) && shown[rows - 2] == more && is_ready(shown, rows));
        terminal.press(&["Enter"]);
        terminal.wait("the second page", |shown| shown.iter().any(|row| row.contains("Tab completes")) && shown[rows - 2] == end);
        terminal.press(&["Enter"]);
        terminal.wait("the event", |shown| is_at(shown, 0) && is_ready(shown, rows));
    }
}

/// In a window of another size the screen is drawn anew by the next key, and an empty line moves nowhere.
#[test]
fn another_size() {
    let terminal = start(&bays(), 80, 24, &[]);
    terminal.type_line("step 62");
    wait_for(&terminal, 62);
    for (columns, rows) in [(60, 15), (120, 40), (80, 24)] {
        terminal.resize(columns, rows);
        terminal.press(&["Enter"]);
        let shown = terminal.wait("the screen in another size", |shown| is_at(shown, 62) && is_ready(shown, rows));
        let (scripted, _) = bays().step_in(columns, &["--at", "62"], Vec::new());
        let known: Vec<&str> = scripted.lines().take(6).collect();
        assert_eq!(shown[..known.len()], known[..]);
    }
    terminal.resize(90, 20);
    terminal.press(&["C-l"]);
    terminal.wait("the screen by Ctrl-L", |shown| is_at(shown, 62) && is_ready(shown, 20));
    terminal.press(&["g", "Space"]);
    terminal.resize(100, 30);
    terminal.press(&["7"]);
    terminal.wait("what was typed", |shown| is_at(shown, 62) && shown[29] == "(desk) g 7");
    terminal.press(&["1", "Enter"]);
    terminal.wait("event 71", |shown| is_at(shown, 71) && is_ready(shown, 30));
}

/// A message has the empty rows above its own, and takes nothing from the screen.
#[test]
fn long_messages_have_several_rows() {
    let garage = garage("riverside", "light(a4, Light)");
    let message = "Light = light_a2 since this event, by clause 4 of lamp/3, riverside.pl:79";
    for (rows, is_whole) in [(26, true), (14, false)] {
        let terminal = start(&garage, 36, rows, &[]);
        terminal.type_line("goto 249");
        terminal.wait("the answer", |shown| is_at(shown, 249) && is_ready(shown, rows));
        terminal.type_line("why Light");
        let with = terminal.wait("why", |shown| is_at(shown, 235) && is_ready(shown, rows));
        terminal.type_line("screen");
        let without = terminal.wait("the screen alone", |shown| is_at(shown, 235) && is_ready(shown, rows) && shown[rows - 2].is_empty());
        let last = without[..rows - 2].iter().rposition(|row| !row.is_empty()).unwrap();
        assert_eq!(with[..=last], without[..=last]);
        let told = with[last + 1..rows - 1].iter().filter(|row| !row.is_empty()).cloned().collect::<Vec<_>>().join(" ");
        assert_eq!((told == message, told.ends_with("..")), (is_whole, !is_whole), "{}", with.join("\n"));
    }
}

/// Where no screen can be drawn, a prompt waits for what is typed, which nothing repeats.
#[test]
fn a_terminal_without_a_screen() {
    let garage = bays();
    let terminal = Terminal::start(80, 60, &["env", "TERM=dumb", DESK, "step", garage.rules.to_str().unwrap(), garage.query]);
    let is_waiting = |shown: &[String]| shown.iter().rfind(|row| !row.is_empty()).is_some_and(|row| row == "(desk)");
    terminal.wait("the first prompt", |shown| shown.iter().any(|row| row.starts_with("event 0 of ")) && is_waiting(shown));
    terminal.type_line("step");
    let rows = terminal.wait("event 1", |shown| shown.iter().any(|row| row.starts_with("event 1 of ")) && is_waiting(shown));
    assert_eq!(rows.iter().filter(|row| row.contains("step")).collect::<Vec<_>>(), ["(desk) step"]);
    terminal.press(&["C-d"]);
    assert_eq!(terminal.status(), 0);
}

#[test]
fn the_end_gives_the_terminal_back() {
    for keys in [&["q", "Enter"][..], &["C-d"][..]] {
        let terminal = start(&bays(), 80, 24, &[]);
        terminal.press(keys);
        assert_eq!(terminal.status(), 0);
        assert!(!terminal.rows().iter().any(|row| row.starts_with("event ")), "{}", terminal.rows().join("\n"));
        // what is typed is echoed again
        terminal.press(&["a", "b", "c"]);
        terminal.wait("the echo", |shown| shown.iter().any(|row| row == "abc"));
    }
}

/// Warnings are not lost behind the screen.
#[test]
fn warnings_come_first() {
    let garage = garage("typo", "light(bay1, Light)");
    let rules = garage.rules.to_str().unwrap();
    let terminal = Terminal::start(80, 24, &[DESK, "step", rules, garage.query]);
    terminal.wait("the warnings", |shown| shown.iter().any(|row| row.contains("typo.pl:")) && is_ready(shown, 24));
    terminal.press(&["Enter"]);
    wait_for(&terminal, 0);
}

/// A query with 2 to the power of 40 ways to fail: only Ctrl-C ends a move to its answer.
#[test]
fn ctrl_c_stops_a_long_move() {
    let rules = written("bit(a).\nbit(b).\nneither(c).\n", "").rules;
    let bits: String = (0..40).map(|number| format!("bit(X{number}), ")).collect();
    let query = format!("{bits}neither(X0)");
    let terminal = Terminal::start(80, 24, &[DESK, "step", rules.to_str().unwrap(), &query]);
    wait_for(&terminal, 0);
    terminal.type_line("answer");
    terminal.wait("how far it is", |shown| is_at(shown, 0) && shown[22].ends_with("; Ctrl-C stops here"));
    terminal.press(&["C-c"]);
    let rows = terminal.wait("the stop", |shown| shown[22].starts_with("stopped at event ") && is_ready(shown, 24));
    let number = rows[22].strip_prefix("stopped at event ").unwrap();
    assert!(rows[0].starts_with(&format!("event {number}  ")), "{}", rows.join("\n"));
    terminal.type_line("undo");
    wait_for(&terminal, 0);
}
