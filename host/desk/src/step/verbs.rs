//! The commands of `desk step`: the words for each, what it takes and what it does.

use crate::near::nearest;

/// What a command does.
#[derive(Clone, Copy, Debug, PartialEq, Eq)]
pub enum Verb {
    Step,
    Back,
    Goal,
    Next,
    Previous,
    Finish,
    Door,
    Run,
    Reverse,
    Goto,
    Answer,
    Why,
    Undo,
    Break,
    Delete,
    Breaks,
    Print,
    Where,
    Bets,
    List,
    Screen,
    Help,
    Quit,
}

/// A command as help shows it.
#[derive(Debug, PartialEq, Eq)]
pub struct Entry {
    pub verb: Verb,
    pub name: &'static str,
    /// other words for it, whole words only; those of gdb, ocamldebug and Prolog's tracers among them
    pub words: &'static [&'static str],
    pub takes: &'static str,
    pub does: &'static str,
    /// what `help COMMAND` says besides
    pub more: &'static [&'static str],
}

const fn entry(
    verb: Verb,
    name: &'static str,
    words: &'static [&'static str],
    takes: &'static str,
    does: &'static str,
    more: &'static [&'static str],
) -> Entry {
    Entry { verb, name, words, takes, does, more }
}

/// All commands, in the order in which help lists them.
pub const ENTRIES: [Entry; 23] = [
    entry(Verb::Step, "step", &["s", "creep"], "[N]", "one step forward, or N", &[]),
    entry(
        Verb::Back,
        "back",
        &["b", "backstep", "reverse-step", "rs"],
        "[N]",
        "one step back, or N",
        &["It is the same event as on the way forward."],
    ),
    entry(
        Verb::Goal,
        "goal",
        &[],
        "[back]",
        "forward, or back, to the next goal typed in rules or query",
        &["It passes what is between: the choice of a clause, its head's arguments, conjunctions and disjunctions."],
    ),
    entry(
        Verb::Next,
        "next",
        &["n", "skip"],
        "[answer]",
        "over this goal: from its call or redo to its exit or fail",
        &["At an exit or a fail it is one step. `next answer` goes forward to the next answer."],
    ),
    entry(
        Verb::Previous,
        "previous",
        &["prev", "reverse-next", "rn"],
        "[answer]",
        "back over this goal: from exit or fail to its call or redo",
        &["At a call or a redo it is one step back. `previous answer` goes back to the answer before."],
    ),
    entry(
        Verb::Finish,
        "finish",
        &["f"],
        "",
        "to this goal's exit or fail; given there, its caller's",
        &["The caller is the goal whose clause this one stands in, or the query."],
    ),
    entry(
        Verb::Door,
        "door",
        &["d", "retry", "start", "reverse-finish"],
        "",
        "back to the event at which this goal was called",
        &["At a call it stays where it is."],
    ),
    entry(
        Verb::Run,
        "run",
        &["r", "c", "continue", "leap"],
        "[N]",
        "forward to the next break, or to the end; with N, N steps",
        &["Without N it stops after 10,000,000 steps, and at Ctrl-C. With N no break stops it."],
    ),
    entry(
        Verb::Reverse,
        "reverse",
        &["reverse-continue", "rc"],
        "[N]",
        "back to the break before, or to event 0; with N, N steps",
        &["Without N it stops after 10,000,000 steps, and at Ctrl-C. With N no break stops it."],
    ),
    entry(Verb::Goto, "goto", &["g"], "N", "to event N, forward or back", &["Event 0 is the query's call. `desk step --at N` starts at event N."]),
    entry(Verb::Answer, "answer", &["a"], "", "forward to the next answer, as `next answer`", &["An answer is an exit of the query."]),
    entry(
        Verb::Why,
        "why",
        &[],
        "VAR",
        "back to the event at which the variable got its value",
        &[
            "A variable gets its value where an equality exits; often that is an argument of a clause's head.",
            "If it was joined with another variable first, the walk goes to where that one got its value.",
        ],
    ),
    entry(
        Verb::Undo,
        "undo",
        &["u", "last"],
        "",
        "to the event where the last moving command was given",
        &["Given again, it goes to where the one before was given, and so on to the event where the desk was started."],
    ),
    entry(
        Verb::Break,
        "break",
        &["br", "spy"],
        "P[/N] [PORT..]",
        "`run` and `reverse` stop at calls of P with N arguments",
        &[
            "Ports named behind it are stopped at instead of calls: `break light/2 exit fail`.",
            "A second `break` for the same P/N replaces the first. `b P/N` is a break too, `b` alone is `back`.",
        ],
    ),
    entry(Verb::Delete, "delete", &["del", "nospy"], "[P[/N]]", "takes a break away, or all of them", &[]),
    entry(Verb::Breaks, "breaks", &["debugging"], "", "the breaks there are", &[]),
    entry(
        Verb::Print,
        "print",
        &["p"],
        "[VAR]",
        "the value of a variable, or of all",
        &[
            "A name means the variable of the current clause; where that has none of the name,",
            "the query's; then one as it is shown, such as Bay_12.",
        ],
    ),
    entry(Verb::Where, "where", &["w", "bt", "backtrace"], "", "all ancestors, the nearest first, with the half one is in", &[]),
    entry(Verb::Bets, "bets", &[], "", "what has been chosen and bound so far, the newest first", &[]),
    entry(Verb::List, "list", &["l"], "", "the whole clause that the goal stands in", &[]),
    entry(Verb::Screen, "screen", &[], "", "the screen again", &[]),
    entry(Verb::Help, "help", &["h", "?"], "[COMMAND]", "this list, or more about a command", &[]),
    entry(Verb::Quit, "quit", &["q", "exit"], "", "ends", &[]),
];

/// The command that a word stands for: the word itself, else the one command that starts with it. An error says what is wrong with the word.
pub fn named(word: &str) -> Result<&'static Entry, String> {
    let whole = |entry: &&Entry| entry.name == word || entry.words.contains(&word);
    if let Some(entry) = ENTRIES.iter().find(whole) {
        return Ok(entry);
    }
    let starting: Vec<&Entry> = ENTRIES.iter().filter(|entry| entry.name.starts_with(word)).collect();
    match starting[..] {
        [entry] => Ok(entry),
        [] => Err(unknown(word)),
        _ => Err(format!("`{word}` may be {}", starting.iter().map(|entry| format!("`{}`", entry.name)).collect::<Vec<_>>().join(" or "))),
    }
}

fn unknown(word: &str) -> String {
    let names = ENTRIES.iter().map(|entry| entry.name);
    let others = ENTRIES.iter().flat_map(|entry| entry.words.iter().copied().filter(|word| word.len() > 2));
    match nearest(word, names.chain(others)) {
        Some(name) => format!("there is no command `{word}`: did you mean `{name}`? `help` lists them all"),
        None => format!("there is no command `{word}`: `help` lists them all"),
    }
}

#[cfg(test)]
mod tests {
    use super::*;

    #[test]
    fn words_and_fronts_of_words() {
        let verb = |word| named(word).map(|entry| entry.verb);
        assert_eq!(verb("step"), Ok(Verb::Step));
        assert_eq!(verb("st"), Ok(Verb::Step));
        assert_eq!(verb("bt"), Ok(Verb::Where));
        assert_eq!(verb("break"), Ok(Verb::Break));
        assert_eq!(verb("breaks"), Ok(Verb::Breaks));
        assert_eq!(verb("rev"), Ok(Verb::Reverse));
        assert_eq!((verb("g"), verb("goa")), (Ok(Verb::Goto), Ok(Verb::Goal)));
        assert_eq!(verb("go").unwrap_err(), "`go` may be `goal` or `goto`");
        assert_eq!(verb("wh").unwrap_err(), "`wh` may be `why` or `where`");
        assert_eq!(verb("stpe").unwrap_err(), "there is no command `stpe`: did you mean `step`? `help` lists them all");
        assert_eq!(verb("xyzzy").unwrap_err(), "there is no command `xyzzy`: `help` lists them all");
    }

    /// No word stands for two commands.
    #[test]
    fn words_are_of_one_command() {
        let mut words: Vec<&str> = ENTRIES.iter().flat_map(|entry| entry.words.iter().copied().chain([entry.name])).collect();
        let count = words.len();
        words.sort_unstable();
        words.dedup();
        assert_eq!(words.len(), count);
    }
}
