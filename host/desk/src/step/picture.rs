//! What a terminal shows: an event or a page of a listing, and a message, laid out for the size that the terminal has.

use super::canvas::{ctrl_c_is_pressed, Canvas};
use super::extent::Extent;
use super::fit::cut;
use super::screen::{self, Line, Look, Size};
use super::PROMPT;
use crate::portrait::Portrait;
use crate::status::{counted, grouped};
use std::cell::Cell;
use std::io::{self, stdout, Write};
use std::time::{Duration, Instant};

/// A move that takes longer tells how far it is, and listens for Ctrl-C. What is typed before waits for the prompt.
const PATIENCE: Duration = Duration::from_millis(500);

/// What is to be seen.
#[derive(Clone, Debug)]
pub struct Picture {
    pub portrait: Portrait,
    /// what the last command said
    pub message: String,
    /// rows of a listing that stand, or are still to stand, in place of the event
    pub page: Vec<String>,
}

/// The terminal, and the size that a picture was drawn for last.
#[derive(Debug)]
pub struct Stage {
    canvas: Canvas,
    extent: Extent,
    drawn: Cell<Option<Size>>,
}

impl Stage {
    pub fn take(extent: &Extent) -> io::Result<Stage> {
        Ok(Stage { canvas: Canvas::take()?, extent: extent.clone(), drawn: Cell::new(None) })
    }

    pub fn size(&self) -> Size {
        self.canvas.size()
    }

    /// Whether the terminal has another size than what was drawn last.
    pub fn is_resized(&self) -> bool {
        self.drawn.get() != Some(self.size())
    }

    pub fn draw(&self, picture: &Picture) -> io::Result<()> {
        let size = self.size();
        self.drawn.set(Some(size));
        if picture.page.is_empty() {
            return self.canvas.draw(size, &screen::lines(&picture.portrait, &self.extent, size), &picture.message);
        }
        let row = |text: &String| Line { text: cut(text, size.columns), look: Look::Plain, marked: None };
        let page: Vec<Line> = picture.page.iter().take(size.rows).map(row).collect();
        let message = match picture.page.len().saturating_sub(size.rows) {
            0 => "an empty line shows the event again".into(),
            1 => "1 line more: an empty line shows it".into(),
            more => format!("{} more: an empty line shows them", counted(more as u64, "line")),
        };
        self.canvas.draw(size, &page, &message)
    }

    /// A question for the pieces of a move that starts now: is it to stop? What cannot be drawn is no reason to.
    pub fn watch<'s>(&'s self, picture: &'s Picture) -> impl FnMut(u64) -> bool + 's {
        let start = Instant::now();
        let mut is_drawn = false;
        move |number| {
            // the typed line has ended in the last row, and all rows have moved up by one
            if !is_drawn {
                _ = self.draw(picture);
                is_drawn = true;
            }
            if start.elapsed() < PATIENCE {
                return false;
            }
            _ = self.canvas.say(&format!("at event {}; Ctrl-C stops here", grouped(number)));
            ctrl_c_is_pressed()
        }
    }

    /// Draws anew where the size has changed, with what was typed before the last letter: the editor writes either that letter alone or all again.
    pub fn follow_size(&self, picture: &Picture, typed: &str) {
        if !self.is_resized() || self.draw(picture).is_err() {
            return;
        }
        let mut letters = typed.chars();
        letters.next_back();
        _ = write!(stdout(), "{PROMPT}{}", letters.as_str()).and_then(|()| stdout().flush());
    }
}
