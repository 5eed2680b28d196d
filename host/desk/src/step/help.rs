//! What `help` says.

use super::verbs::{Entry, Verb, ENTRIES};

/// The columns of a command with what it takes.
const USE: usize = 20;

/// Commands that share a row, how both are used, and what they do. With them the list fits a terminal of 24 rows.
const JOINED: [(Verb, Verb, &str, &str); 3] = [
    (Verb::Step, Verb::Back, "step s, back b [N]", "one step forward, one step back, or N"),
    (Verb::Delete, Verb::Breaks, "delete [P/N], breaks", "takes a break away, or all of them; lists them"),
    (Verb::Help, Verb::Quit, "help h [COMMAND]", "this list, or more about a command; quit q ends"),
];

/// Keys that act where nothing is typed yet.
const KEYS: [&str; 3] = [
    "Keys at an empty line: Right step, Left back, Ctrl-Right goal, Ctrl-Left goal",
    "back, PageDown next, PageUp door, End answer, Home goto 0, Enter the last move",
    "again, Ctrl-L draws anew, Ctrl-D ends. Up and Down: typed lines. Tab completes.",
];

/// All commands, or what there is to say about one.
pub fn lines(entry: Option<&Entry>) -> Vec<String> {
    match entry {
        Some(entry) => about(entry),
        None => ENTRIES.iter().filter_map(row).chain(KEYS.map(String::from)).collect(),
    }
}

/// The row of a command. One that stands in another's has none, nor has `screen`, which is a key in a terminal.
fn row(entry: &Entry) -> Option<String> {
    if let Some((_, _, used, does)) = JOINED.iter().find(|(first, ..)| *first == entry.verb) {
        return Some(format!("{used:<USE$} {does}"));
    }
    if entry.verb == Verb::Screen || JOINED.iter().any(|(_, second, ..)| *second == entry.verb) {
        return None;
    }
    let short = entry.words.iter().find(|word| word.len() == 1).map(|word| format!(" {word}")).unwrap_or_default();
    let used = format!("{}{short} {}", entry.name, entry.takes);
    Some(format!("{used:<USE$} {}", entry.does))
}

fn about(entry: &Entry) -> Vec<String> {
    let mut lines = vec![format!("{} {}", entry.name, entry.takes).trim_end().to_string(), format!("  {}", entry.does)];
    lines.extend(entry.more.iter().map(|more| format!("  {more}")));
    if !entry.words.is_empty() {
        lines.push(format!("  other words for it: {}", entry.words.join(", ")));
    }
    lines
}

#[cfg(test)]
mod tests {
    use super::super::ROWS;
    use super::*;

    /// No line has to be wrapped in 80 columns, and all of them are seen at once.
    #[test]
    fn the_list_fits_a_terminal() {
        let lines = lines(None);
        assert!(lines.len() <= ROWS, "{}", lines.len());
        for line in lines {
            assert!(line.len() <= 80, "{line}");
        }
    }
}
