//! Lines of a text with a goal marked.

use crate::garage::Garage;
use crate::position::Position;
use crate::source::{Source, Span};

/// The most lines that are shown of a clause, and how many of them stand before the mark at most.
const MOST_LINES: usize = 9;
const BEFORE: usize = 4;

/// Lines of a text.
#[derive(Clone, Debug, PartialEq, Eq)]
pub struct Extract {
    /// what they are
    pub title: String,
    /// the number of the first line
    pub first_line: usize,
    pub lines: Vec<String>,
    pub mark: Option<Mark>,
}

/// Columns of one of the lines, from 0.
#[derive(Clone, Copy, Debug, PartialEq, Eq)]
pub struct Mark {
    pub line: usize,
    pub from: usize,
    pub to: usize,
}

impl Garage {
    /// The clause, or the query, that a position is in, with the goal marked.
    pub fn extract(&self, position: &Position) -> Option<Extract> {
        self.lines_of(position, MOST_LINES)
    }

    /// The same with all its lines.
    pub fn whole_extract(&self, position: &Position) -> Option<Extract> {
        self.lines_of(position, usize::MAX)
    }

    fn lines_of(&self, position: &Position, most: usize) -> Option<Extract> {
        let (source, goal) = position.span(self)?;
        let (title, whole) = match position.clause() {
            None => ("the query".into(), Span { from: 0, to: source.text().len() }),
            Some((of, clause)) => {
                let outline = self.clause(of, clause)?;
                let at = source.at(outline.span.from);
                (format!("clause {} of {}, {at}", clause + 1, self.shown_predicate(of)), outline.span)
            }
        };
        // of clauses that are still to be chosen from nothing is marked
        let marked = position.clause() == position.chosen();
        Some(Extract::of(source, title, whole, Some(goal).filter(|_| marked), most))
    }
}

impl Extract {
    fn of(source: &Source, title: String, whole: Span, goal: Option<Span>, most: usize) -> Extract {
        let (first, last) = (source.line_of(whole.from), source.line_of(whole.to.saturating_sub(1).max(whole.from)));
        let goal_line = goal.map_or(first, |goal| source.line_of(goal.from));
        let latest_first = last.saturating_sub(most.saturating_sub(1)).max(first);
        let first_line = goal_line.saturating_sub(BEFORE).clamp(first, latest_first);
        let shown = (first_line..=last).take(most);
        let lines = shown.map(|line| String::from_utf8_lossy(source.line(line)).replace('\t', " ")).collect();
        let mark = goal.map(|goal| {
            let (start, width) = (source.line_start(goal_line), source.tokens_width(goal_line));
            let from = goal.from - start;
            Mark { line: goal_line - first_line, from, to: (goal.to - start).min(width).max(from + 1) }
        });
        Extract { title, first_line, lines, mark }
    }
}
