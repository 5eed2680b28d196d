//! A typed line as a command.

use super::verbs::{self, Entry, Verb};
use fourport::Port;

/// A command with what it takes.
#[derive(Clone, Debug, PartialEq, Eq)]
pub enum Command {
    Step(u64),
    Back(u64),
    Goal,
    GoalBack,
    Next,
    Previous,
    Finish,
    Door,
    Run(Option<u64>),
    Reverse(Option<u64>),
    Goto(u64),
    NextAnswer,
    PreviousAnswer,
    Why(String),
    Undo,
    Break { predicate: String, ports: Vec<Port> },
    Delete(Option<String>),
    Breaks,
    Print(Option<String>),
    Where,
    Bets,
    List,
    Screen,
    Help(Option<&'static Entry>),
    Quit,
}

impl Command {
    /// The command of a line that is not empty; an error says in words what is wrong with it.
    pub fn read(line: &str) -> Result<Command, String> {
        let mut words = line.split_whitespace();
        let entry = verbs::named(words.next().unwrap_or_default())?;
        let rest: Vec<&str> = words.collect();
        Command::with(entry, &rest)
    }

    /// Whether it goes to another event; in a terminal an empty line gives such a command again.
    pub fn moves(&self) -> bool {
        use Command::*;
        !matches!(self, Break { .. } | Delete(_) | Breaks | Print(_) | Where | Bets | List | Screen | Help(_) | Quit)
    }

    fn with(entry: &'static Entry, rest: &[&str]) -> Result<Command, String> {
        use Command::*;
        let wrong = || Err(format!("`{0}` is used so: {0} {1}", entry.name, entry.takes).trim_end().to_string());
        let Some(command) = Command::without(entry.verb).filter(|_| rest.is_empty()) else {
            return match (entry.verb, rest) {
                (Verb::Step, [count]) => number(count).map(Step),
                // gdb's letter for a break; no number has a slash
                (Verb::Back, [predicate, named @ ..]) if predicate.contains('/') => Command::at_a_predicate(predicate, named),
                (Verb::Back, [count]) => number(count).map(Back),
                (Verb::Goal, ["back"]) => Ok(GoalBack),
                (Verb::Run, [count]) => number(count).map(|count| Run(Some(count))),
                (Verb::Reverse, [count]) => number(count).map(|count| Reverse(Some(count))),
                (Verb::Goto, [count]) => number(count).map(Goto),
                (Verb::Next, ["answer"]) => Ok(NextAnswer),
                (Verb::Previous, ["answer"]) => Ok(PreviousAnswer),
                (Verb::Break, [predicate, named @ ..]) => Command::at_a_predicate(predicate, named),
                (Verb::Delete, [predicate]) => Ok(Delete(Some(predicate.to_string()))),
                (Verb::Print, [name]) => Ok(Print(Some(name.to_string()))),
                (Verb::Why, [name]) => Ok(Why(name.to_string())),
                (Verb::Help, [name, ..]) => verbs::named(name).map(|entry| Help(Some(entry))),
                _ => wrong(),
            };
        };
        Ok(command)
    }

    fn at_a_predicate(predicate: &str, named: &[&str]) -> Result<Command, String> {
        Ok(Command::Break { predicate: predicate.into(), ports: ports(named)? })
    }

    /// The command where nothing stands behind its word.
    fn without(verb: Verb) -> Option<Command> {
        use Command::*;
        Some(match verb {
            Verb::Step => Step(1),
            Verb::Back => Back(1),
            Verb::Goal => Goal,
            Verb::Next => Next,
            Verb::Previous => Previous,
            Verb::Finish => Finish,
            Verb::Door => Door,
            Verb::Run => Run(None),
            Verb::Reverse => Reverse(None),
            Verb::Answer => NextAnswer,
            Verb::Undo => Undo,
            Verb::Delete => Delete(None),
            Verb::Breaks => Breaks,
            Verb::Print => Print(None),
            Verb::Where => Where,
            Verb::Bets => Bets,
            Verb::List => List,
            Verb::Screen => Screen,
            Verb::Help => Help(None),
            Verb::Quit => Quit,
            Verb::Goto | Verb::Why | Verb::Break => return None,
        })
    }
}

/// A number as one types it or as the screen shows it, with or without commas.
fn number(word: &str) -> Result<u64, String> {
    let digits: String = word.chars().filter(|&letter| letter != ',').collect();
    let number = digits.bytes().all(|byte| byte.is_ascii_digit()).then(|| digits.parse().ok()).flatten();
    number.ok_or_else(|| format!("`{word}` is no number of steps or of an event"))
}

/// The ports named; call where none is.
fn ports(named: &[&str]) -> Result<Vec<Port>, String> {
    if named.is_empty() {
        return Ok(vec![Port::Call]);
    }
    let words = named.iter().flat_map(|word| word.split(',')).filter(|word| !word.is_empty());
    words.map(|word| port(word).ok_or_else(|| format!("`{word}` is no port: call, exit, fail and redo are"))).collect()
}

fn port(word: &str) -> Option<Port> {
    [Port::Call, Port::Exit, Port::Fail, Port::Redo].into_iter().find(|port| port.to_string() == word)
}

#[cfg(test)]
mod tests {
    use super::*;

    #[test]
    fn lines_as_commands() {
        use Command::*;
        let read = Command::read;
        assert_eq!(read(" step\t 12,000 "), Ok(Step(12_000)));
        assert_eq!((read("b"), read("c"), read("r 5")), (Ok(Back(1)), Ok(Run(None)), Ok(Run(Some(5)))));
        assert_eq!((read("next answer"), read("a"), read("prev answer")), (Ok(NextAnswer), Ok(NextAnswer), Ok(PreviousAnswer)));
        assert_eq!(read("break light/2 exit,fail redo"), Ok(Break { predicate: "light/2".into(), ports: vec![Port::Exit, Port::Fail, Port::Redo] }));
        assert_eq!((read("goal"), read("goal back")), (Ok(Goal), Ok(GoalBack)));
        assert_eq!((read("b light/2 exit"), read("b 2")), (read("break light/2 exit"), Ok(Back(2))));
        assert_eq!(read("break light/2"), Ok(Break { predicate: "light/2".into(), ports: vec![Port::Call] }));
    }

    #[test]
    fn lines_that_are_none() {
        let words = |line| Command::read(line).unwrap_err();
        assert_eq!(words("goto"), "`goto` is used so: goto N");
        assert_eq!(words("goto -1"), "`-1` is no number of steps or of an event");
        assert_eq!(words("step 99999999999999999999"), "`99999999999999999999` is no number of steps or of an event");
        assert_eq!(words("bets 3"), "`bets` is used so: bets");
        assert_eq!(words("break light/2 cal"), "`cal` is no port: call, exit, fail and redo are");
        assert_eq!(words("next week"), "`next` is used so: next [answer]");
    }
}
