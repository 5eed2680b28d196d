//! `desk step` in a terminal: the screen drawn anew for each command, and a line to type in below it.

use super::command::Command;
use super::extent::Extent;
use super::fit::{plain, wrapped};
use super::keys::{bind, Pressed, Words};
use super::picture::{Picture, Stage};
use super::questions::names;
use super::reply::Reply;
use super::session::Session;
use super::PROMPT;
use rustyline::error::ReadlineError;
use rustyline::{Config, Editor};
use std::io;
use std::rc::Rc;

const WELCOME: &str = "`help` lists commands and keys; Enter repeats the last move; Ctrl-L draws anew";

/// A session in a terminal.
struct Desk<'s, 'g> {
    session: &'s mut Session<'g>,
    stage: Rc<Stage>,
    picture: Picture,
    /// the last command that moves, for an empty line
    last: Option<Command>,
}

/// Commands as they are typed, until one of them is `quit` or the input ends. Warnings are shown first, since the screen hides what was written before.
pub fn run(session: &mut Session, extent: &Extent, predicates: Vec<String>, warnings: &str, words: Option<String>) -> io::Result<()> {
    let mut editor = Editor::with_config(Config::builder().bracketed_paste(false).build());
    let picture = Picture { portrait: session.portrait(), message: words.unwrap_or(WELCOME.into()), page: Vec::new() };
    editor.set_helper(Some(Words { predicates, variables: Vec::new(), before_writing: Box::new(|_| ()) }));
    let pressed = bind(&mut editor);
    let mut desk = Desk { session, stage: Rc::new(Stage::take(extent)?), picture, last: None };
    if !warnings.is_empty() {
        desk.take(Reply::listed(warnings.lines().map(String::from).collect()));
    }
    desk.stage.draw(&desk.picture)?;
    while let Some(line) = desk.typed(&mut editor, &pressed)? {
        if desk.obey(&line) {
            break;
        }
        desk.stage.draw(&desk.picture)?;
    }
    Ok(())
}

impl Desk<'_, '_> {
    /// The next line, or the command of a key; nothing where the input has ended.
    fn typed(&mut self, editor: &mut Editor<Words>, pressed: &Pressed) -> io::Result<Option<String>> {
        if let Some(words) = editor.helper_mut() {
            words.variables = names(&self.picture.portrait).into_iter().map(String::from).collect();
            let (stage, picture) = (Rc::clone(&self.stage), self.picture.clone());
            words.before_writing = Box::new(move |typed| stage.follow_size(&picture, typed));
        }
        loop {
            match editor.readline(PROMPT) {
                Ok(line) => {
                    if !line.trim().is_empty() {
                        editor.add_history_entry(line.trim());
                    }
                    return Ok(Some(pressed.take().map_or(line, String::from)));
                }
                Err(ReadlineError::Eof) => return Ok(None),
                Err(ReadlineError::Io(error)) => return Err(error),
                // Ctrl-C, or bytes that are no text: the line is gone
                Err(ReadlineError::Interrupted | ReadlineError::Utf8Error) => self.stage.draw(&self.picture)?,
                Err(error) => return Err(io::Error::other(error.to_string())),
            }
        }
    }

    /// What a line asks for; whether the session ends with it.
    fn obey(&mut self, line: &str) -> bool {
        // whoever sees a broken screen presses Enter to mend it, not to move
        if line.trim().is_empty() && self.stage.is_resized() || self.turns_the_page(line) {
            return false;
        }
        let command = match (line.trim(), &self.last) {
            ("", None) => return false,
            ("", Some(last)) => Ok(last.clone()),
            (line, _) => Command::read(line),
        };
        let reply = match command {
            Err(words) => Reply::misunderstood(words),
            Ok(command) => {
                let reply = self.session.obey(&command, self.stage.size().columns, &mut self.stage.watch(&self.picture));
                self.last = Some(command).filter(Command::moves).or(self.last.take());
                reply
            }
        };
        self.take(reply)
    }

    /// The rest of a listing for an empty line; for any other the listing is put by.
    fn turns_the_page(&mut self, line: &str) -> bool {
        let picture = &mut self.picture;
        picture.message.clear();
        let turns = line.trim().is_empty() && !picture.page.is_empty();
        let shown = if turns { self.stage.size().rows.min(picture.page.len()) } else { picture.page.len() };
        picture.page.drain(..shown);
        turns
    }

    /// A short listing is a message; a longer one has the place of the screen.
    fn take(&mut self, reply: Reply) -> bool {
        let columns = self.stage.size().columns;
        self.picture.portrait = self.session.portrait();
        self.picture.message = reply.words.unwrap_or_default();
        let mut lines: Vec<String> = reply.listing.iter().flat_map(|text| wrapped(&plain(text), columns)).collect();
        if lines.len() == 1 {
            self.picture.message = lines.pop().unwrap_or_default();
        }
        self.picture.page = lines;
        reply.quits
    }
}
