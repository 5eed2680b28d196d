//! The terminal's screen: held while the program has it, drawn row by row, and asked for Ctrl-C.

use super::fit::{plain, wrapped_within};
use super::screen::{Line, Look, Size};
use crate::style::Style;
use crossterm::cursor::MoveTo;
use crossterm::event::{self, Event, KeyCode, KeyModifiers};
use crossterm::style::Print;
use crossterm::terminal::{self, Clear, ClearType, EnterAlternateScreen, LeaveAlternateScreen};
use crossterm::{execute, queue};
use std::io::{self, stdout, Write};
use std::time::Duration;

/// The size where the terminal does not tell.
const USUAL: (u16, u16) = (80, 24);
/// The rows below the screen: a message, and the line that one types.
pub const BELOW: usize = 2;
/// The most rows of a message, where those above its own one are empty.
const MESSAGE_ROWS: usize = 3;

/// The screen as long as this lives; afterwards the terminal is as it was.
#[derive(Debug)]
pub struct Canvas {
    style: Style,
}

impl Canvas {
    /// Keys come one by one and unechoed, so that Ctrl-C is a key and ends nothing.
    pub fn take() -> io::Result<Canvas> {
        terminal::enable_raw_mode()?;
        let canvas = Canvas { style: Style::of(&stdout()) };
        execute!(stdout(), EnterAlternateScreen)?;
        Ok(canvas)
    }

    /// The size of what is above the message.
    pub fn size(&self) -> Size {
        let (columns, rows) = terminal::size().ok().filter(|&(columns, rows)| columns > 0 && rows > 0).unwrap_or(USUAL);
        Size { columns: usize::from(columns), rows: usize::from(rows).saturating_sub(BELOW) }
    }

    /// All rows anew, in a size: the lines, the message, and an empty row in which the cursor stays. Nothing of the lines makes way for the message.
    pub fn draw(&self, size: Size, lines: &[Line], message: &str) -> io::Result<()> {
        let mut out = stdout().lock();
        for (row, place) in (0..size.rows).zip(0u16..) {
            let text = lines.get(row).map(|line| self.styled(line)).unwrap_or_default();
            queue!(out, MoveTo(0, place), Clear(ClearType::CurrentLine), Print(text))?;
        }
        put_message(&mut out, size, lines.len(), message)?;
        queue!(out, MoveTo(0, place_of(size.rows + 1)), Clear(ClearType::CurrentLine))?;
        out.flush()
    }

    /// The message alone, in its own row.
    pub fn say(&self, message: &str) -> io::Result<()> {
        let (size, mut out) = (self.size(), stdout().lock());
        put_message(&mut out, size, size.rows, message)?;
        out.flush()
    }

    fn styled(&self, line: &Line) -> String {
        let style = self.style;
        match (line.look, &line.marked) {
            (_, Some(marked)) => {
                let part = |from: usize, to: usize| line.text.chars().skip(from).take(to.saturating_sub(from)).collect::<String>();
                let (before, goal, behind) = (part(0, marked.start), part(marked.start, marked.end), part(marked.end, usize::MAX));
                format!("{before}{}{behind}", style.marked(&goal))
            }
            (Look::Head(_) | Look::Strong, None) => style.strong(&line.text),
            (Look::Title, None) => style.quiet(&line.text),
            (Look::Mark, None) => style.marked(&line.text),
            (Look::Plain, None) => line.text.clone(),
        }
    }
}

impl Drop for Canvas {
    fn drop(&mut self) {
        // where the terminal is gone there is nothing to put back
        let _ = execute!(stdout(), LeaveAlternateScreen);
        let _ = terminal::disable_raw_mode();
    }
}

fn place_of(row: usize) -> u16 {
    u16::try_from(row).unwrap_or(u16::MAX)
}

/// The message, in its own row and in those above it that are empty.
fn put_message(out: &mut impl Write, size: Size, taken: usize, message: &str) -> io::Result<()> {
    let most = (size.rows.saturating_sub(taken) + 1).min(MESSAGE_ROWS);
    let rows = wrapped_within(&plain(message), size.columns, most);
    let first = (size.rows + 1).saturating_sub(rows.len());
    for (row, text) in (first..).zip(rows) {
        queue!(out, MoveTo(0, place_of(row)), Clear(ClearType::CurrentLine), Print(text))?;
    }
    Ok(())
}

/// Reads the keys that wait; whether Ctrl-C is among them.
pub fn ctrl_c_is_pressed() -> bool {
    while event::poll(Duration::ZERO).unwrap_or(false) {
        match event::read() {
            Ok(Event::Key(key)) if key.code == KeyCode::Char('c') && key.modifiers.contains(KeyModifiers::CONTROL) => return true,
            Ok(_) => (),
            Err(_) => return false,
        }
    }
    false
}
