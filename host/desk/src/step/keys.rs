//! Keys and completion at the prompt.

use super::verbs::{self, Verb, ENTRIES};
use rustyline::completion::Completer;
use rustyline::highlight::Highlighter;
use rustyline::hint::Hinter;
use rustyline::validate::Validator;
use rustyline::{
    Cmd, ConditionalEventHandler, Context, Editor, Event, EventContext, EventHandler, Helper, KeyCode, KeyEvent, Modifiers, RepeatCount,
};
use std::sync::{Arc, Mutex};

/// Keys that give a command where nothing is typed yet.
const KEYS: [(KeyCode, Modifiers, &str); 8] = [
    (KeyCode::Right, Modifiers::NONE, "step"),
    (KeyCode::Left, Modifiers::NONE, "back"),
    (KeyCode::Right, Modifiers::CTRL, "goal"),
    (KeyCode::Left, Modifiers::CTRL, "goal back"),
    (KeyCode::PageDown, Modifiers::NONE, "next"),
    (KeyCode::PageUp, Modifiers::NONE, "door"),
    (KeyCode::End, Modifiers::NONE, "answer"),
    (KeyCode::Home, Modifiers::NONE, "goto 0"),
];

/// The command of the key that ended the line, if one did.
#[derive(Clone, Default)]
pub struct Pressed(Arc<Mutex<Option<&'static str>>>);

impl Pressed {
    pub fn take(&self) -> Option<&'static str> {
        self.0.lock().ok()?.take()
    }

    fn set(&self, command: &'static str) {
        if let Ok(mut pressed) = self.0.lock() {
            *pressed = Some(command);
        }
    }
}

/// What one key does.
struct Key {
    command: &'static str,
    pressed: Pressed,
    /// where something is typed: this, or what the key does in any line
    otherwise: Option<Cmd>,
}

impl ConditionalEventHandler for Key {
    fn handle(&self, _: &Event, _: RepeatCount, _: bool, context: &EventContext) -> Option<Cmd> {
        if !context.line().is_empty() {
            return self.otherwise.clone();
        }
        self.pressed.set(self.command);
        Some(Cmd::AcceptLine)
    }
}

/// Gives the keys their commands.
pub fn bind<H: Helper>(editor: &mut Editor<H>) -> Pressed {
    let pressed = Pressed::default();
    let key = |command, otherwise| EventHandler::Conditional(Box::new(Key { command, pressed: pressed.clone(), otherwise }));
    for (code, with, command) in KEYS {
        editor.bind_sequence(KeyEvent(code, with), key(command, None));
    }
    editor.bind_sequence(KeyEvent::ctrl('L'), key("screen", Some(Cmd::Noop)));
    // the program owns the screen, which nobody would put back
    editor.bind_sequence(KeyEvent::ctrl('Z'), EventHandler::Simple(Cmd::Noop));
    pressed
}

/// What Tab completes: commands, and behind them what they take.
pub struct Words {
    pub predicates: Vec<String>,
    pub variables: Vec<String>,
    /// told the line up to the cursor before more of it is written
    pub before_writing: Box<dyn Fn(&str)>,
}

impl Words {
    /// The words that may stand behind a command.
    fn behind(&self, command: &str) -> Vec<String> {
        let names = || ENTRIES.iter().map(|entry| entry.name.to_string()).collect();
        match verbs::named(command).map(|entry| entry.verb) {
            Ok(Verb::Break | Verb::Delete) => self.predicates.clone(),
            Ok(Verb::Print | Verb::Why) => self.variables.clone(),
            Ok(Verb::Next | Verb::Previous) => vec!["answer".into()],
            Ok(Verb::Goal) => vec!["back".into()],
            Ok(Verb::Help) => names(),
            _ if command.is_empty() => names(),
            _ => Vec::new(),
        }
    }

    fn completions(&self, front: &str) -> (usize, Vec<String>) {
        let start = front.rfind(char::is_whitespace).map_or(0, |at| at + 1);
        let (before, word) = front.split_at_checked(start).unwrap_or((front, ""));
        let mut words = self.behind(before.split_whitespace().next().unwrap_or_default());
        words.retain(|known| known.starts_with(word));
        (start, words)
    }
}

impl Completer for Words {
    type Candidate = String;

    fn complete(&self, line: &str, at: usize, _: &Context<'_>) -> rustyline::Result<(usize, Vec<String>)> {
        Ok(self.completions(line.get(..at).unwrap_or(line)))
    }
}

impl Hinter for Words {
    type Hint = String;

    fn hint(&self, line: &str, at: usize, _: &Context<'_>) -> Option<String> {
        (self.before_writing)(line.get(..at).unwrap_or(line));
        None
    }
}

impl Highlighter for Words {}
impl Validator for Words {}
impl Helper for Words {}

#[cfg(test)]
mod tests {
    use super::*;

    #[test]
    fn what_tab_completes() {
        let words = Words {
            predicates: vec!["light/2".into(), "lights/1".into(), "bay/1".into()],
            variables: vec!["Light".into()],
            before_writing: Box::new(|_| ()),
        };
        assert_eq!(words.completions("bre"), (0, vec!["break".into(), "breaks".into()]));
        assert_eq!(words.completions("break li"), (6, vec!["light/2".into(), "lights/1".into()]));
        assert_eq!(words.completions("why "), (4, vec!["Light".into()]));
        assert_eq!(words.completions("goal "), (5, vec!["back".into()]));
        assert_eq!(words.completions("step "), (5, vec![]));
    }
}
