//! Errors and warnings as people know them: file, line and column, the line itself with a mark, and what was expected.

use crate::source::{Source, Span};
use crate::style::Style;
use fourport::{Place, Refusal, TextRefusal};
use std::fmt::Write;

/// The most columns of a line that are shown, and how many of them stand before the mark at most.
const MOST_COLUMNS: usize = 76;
const BEFORE: usize = 50;

#[derive(Clone, Copy, Debug, PartialEq, Eq)]
pub enum Level {
    Error,
    Warning,
}

/// The part of a text that a diagnostic is about.
#[derive(Clone, Debug)]
struct Extract {
    line: usize,
    column: usize,
    /// the line, or what fits of it around the mark
    shown: String,
    /// blanks, or the tabs of the line, that put the mark in its place
    indent: String,
    mark: String,
}

/// An error or a warning.
#[derive(Clone, Debug)]
pub struct Diagnostic {
    level: Level,
    file: Option<String>,
    words: String,
    extract: Option<Box<Extract>>,
    notes: Vec<String>,
}

impl Diagnostic {
    /// About no text at all.
    pub fn plain(words: impl Into<String>) -> Diagnostic {
        Diagnostic { level: Level::Error, file: None, words: words.into(), extract: None, notes: Vec::new() }
    }

    /// About a file as a whole.
    pub fn of_file(file: &str, words: impl Into<String>) -> Diagnostic {
        Diagnostic { file: Some(file.into()), ..Diagnostic::plain(words) }
    }

    /// About a part of a text.
    pub fn at(level: Level, source: &Source, span: Span, words: impl Into<String>) -> Diagnostic {
        Diagnostic { level, extract: Some(Box::new(Extract::of(source, span))), ..Diagnostic::of_file(source.name(), words) }
    }

    /// A text that the library refused. Where a full stop seems to be missing, the mark stands where it would.
    pub fn refused(source: &Source, refused: &TextRefusal) -> Diagnostic {
        let words = if refused.missing_stop.is_some() { "a full stop is missing here" } else { refused.words() };
        let words = format!("{words} (question {})", refused.refusal.number());
        let found = match (refused.missing_stop, refused.place) {
            (Some(Place { offset, .. }), _) => Diagnostic::at(Level::Error, source, Span { from: offset, to: offset }, words),
            (None, Some(Place { offset, .. })) => Diagnostic::at(Level::Error, source, Span { from: offset, to: offset + refused.length }, words),
            (None, None) => Diagnostic::of_file(source.name(), words),
        };
        if refused.expected.is_empty() {
            found
        } else {
            found.with_note(format!("expected {}", refused.expected))
        }
    }

    pub fn with_note(mut self, note: impl Into<String>) -> Diagnostic {
        self.notes.push(note.into());
        self
    }

    /// The lines to be printed, with a line feed behind each.
    pub fn lines(&self, style: Style) -> String {
        let mut text = String::new();
        text.extend(self.file.iter().map(|file| match &self.extract {
            Some(extract) => format!("{file}:{}:{}: ", extract.line, extract.column),
            None => format!("{file}: "),
        }));
        let level = if self.level == Level::Error { style.error("error:") } else { style.warning("warning:") };
        text += &format!("{level} {}\n", self.words);
        if let Some(Extract { line, shown, indent, mark, .. }) = self.extract.as_deref() {
            _ = writeln!(text, "{line:>5} | {shown}\n      | {indent}{}", style.marked(mark));
        }
        text.extend(self.notes.iter().map(|note| format!("      = {note}\n")));
        text
    }
}

impl Extract {
    fn of(source: &Source, span: Span) -> Extract {
        let place = source.place(span.from);
        let (line, before) = (source.line(place.line), place.column - 1);
        let cut = before.saturating_sub(BEFORE);
        let shown = line.get(cut..).unwrap_or_default();
        let rest = shown.get(..MOST_COLUMNS).unwrap_or(shown);
        let indent = rest.iter().chain(std::iter::repeat(&b' ')).take(before - cut).map(|&byte| if byte == b'\t' { '\t' } else { ' ' }).collect();
        // a span may go on behind the line, or behind what is shown of it; a letter has one mark, however many bytes it has
        let marked = rest.get(before - cut..).unwrap_or_default();
        let width = printable(marked.get(..span.to - span.from).unwrap_or(marked)).chars().count().max(1);
        Extract { line: place.line, column: place.column, shown: printable(rest), indent, mark: "^".repeat(width) }
    }
}

/// Bytes as they are shown: what is no text becomes a question mark, so that marks stay in their column.
fn printable(bytes: &[u8]) -> String {
    let unseen = |c: char| c.is_control() && c != '\t' || matches!(c, '\u{feff}' | '\u{200b}'..='\u{200f}' | char::REPLACEMENT_CHARACTER);
    let shown = |c: char| if unseen(c) { '?' } else { c };
    String::from_utf8_lossy(bytes).chars().map(shown).collect()
}

/// What a question that ended something says, in words for a planner.
pub fn refusal_words(refusal: Refusal) -> &'static str {
    match refusal {
        Refusal::Value => "a value would have over 8,192 bytes",
        Refusal::Locals => "a new variable would have a number over 65,535",
        Refusal::Fit => "the next event would have over 32,768 bytes, as where rules call each other in a ring, or a predicate has too many clauses",
        other => other.question(),
    }
}
