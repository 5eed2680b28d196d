//! The lines of a clause, with their numbers and the current goal marked.

use super::fit::{columns, cut, cut_front, plain, width, wrapped_behind};
use crate::extract::{Extract, Mark};
use std::ops::Range;

/// The blanks before a line's number, and behind it.
const GAP: &str = "  ";
/// What still stands before a mark where the front of its line is cut.
const LEAD: usize = 20;

/// A line as it is shown.
#[derive(Clone, Debug, PartialEq, Eq)]
pub struct Row {
    pub text: String,
    /// the columns of the marked goal
    pub marked: Option<Range<usize>>,
}

impl Row {
    /// The row of `^` that belongs below this one.
    pub fn below(&self) -> Option<String> {
        let marked = self.marked.clone()?;
        Some(format!("{}{}", " ".repeat(marked.start), "^".repeat(marked.len().max(1))))
    }
}

/// All lines, each in as many rows of so many columns as it takes; the mark is below the part that it belongs to.
pub fn rows(extract: &Extract, most_columns: usize) -> Vec<Row> {
    (0..extract.lines.len()).flat_map(|place| divided(extract, place, most_columns)).collect()
}

fn divided(extract: &Extract, place: usize, most_columns: usize) -> Vec<Row> {
    let (number, line, marked) = parts(extract, place);
    let room = most_columns.saturating_sub(number.len());
    let (mut rows, mut from) = (Vec::new(), 0);
    for text in wrapped_behind(&plain(line), room, room.saturating_sub(GAP.len())) {
        let indent = if rows.is_empty() { number.clone() } else { format!("{:1$}{GAP}", "", number.len()) };
        let to = from + width(text.trim_end());
        let own = marked.as_ref().map(|marked| marked.start.clamp(from, to)..marked.end.clamp(from, to)).filter(|own| !own.is_empty());
        rows.push(Row {
            marked: own.map(|own| indent.len() + own.start - from..indent.len() + own.end - from),
            text: format!("{indent}{}", text.trim_end()),
        });
        from += width(&text);
    }
    rows
}

/// As many lines as so many rows hold, around the mark, each cut to so many columns, in a way that shows the mark. The row below the marked line counts.
pub fn fitted(extract: &Extract, most_rows: usize, most_columns: usize) -> Vec<Row> {
    let most = most_rows.saturating_sub(usize::from(extract.mark.is_some()));
    let first = match &extract.mark {
        Some(mark) => mark.line.saturating_sub(most.saturating_sub(1) / 2).min(extract.lines.len().saturating_sub(most)),
        None => 0,
    };
    (first..extract.lines.len()).take(most).map(|place| row(extract, place, most_columns)).collect()
}

/// What stands before a line, the line, and the columns of its mark.
fn parts(extract: &Extract, place: usize) -> (String, &str, Option<Range<usize>>) {
    let digits = (extract.first_line + extract.lines.len()).to_string().len();
    let number = format!("{GAP}{:>digits$}{GAP}", extract.first_line + place);
    let line = extract.lines.get(place).map(String::as_str).unwrap_or_default();
    let marked = extract.mark.as_ref().filter(|mark| mark.line == place).map(|mark| marked_columns(line, mark));
    (number, line, marked)
}

fn row(extract: &Extract, place: usize, most_columns: usize) -> Row {
    let (number, line, marked) = parts(extract, place);
    let (text, marked) = shown_around(plain(line), marked, most_columns.saturating_sub(number.len()));
    Row { text: format!("{number}{text}"), marked: marked.map(|columns| number.len() + columns.start..number.len() + columns.end) }
}

/// The columns of a mark, whose place is told in bytes.
fn marked_columns(line: &str, mark: &Mark) -> Range<usize> {
    let column = |at: usize| width(&plain(line.get(..at).unwrap_or(line)));
    column(mark.from)..column(mark.to)
}

/// A line cut to its columns so that the mark's first ones are seen.
fn shown_around(text: String, marked: Option<Range<usize>>, most: usize) -> (String, Option<Range<usize>>) {
    let Some(marked) = marked else { return (cut(&text, most), None) };
    if width(&text) <= most || marked.end + 2 * columns('.') <= most {
        return (cut(&text, most), Some(marked));
    }
    let from = marked.start.saturating_sub(LEAD.min(most / 3));
    let text = if from > 0 { cut_front(&text, from) } else { text };
    (cut(&text, most), Some(marked.start - from..marked.end.saturating_sub(from).min(most)))
}

#[cfg(test)]
mod tests {
    use super::*;

    fn extract(lines: &[&str], mark: Mark) -> Extract {
        Extract { title: "t".into(), first_line: 9, lines: lines.iter().map(|line| line.to_string()).collect(), mark: Some(mark) }
    }

    /// What stands above the marks of a row.
    fn above_the_mark(row: &Row) -> String {
        let marked = row.marked.clone().unwrap();
        row.text.chars().skip(marked.start).take(marked.len()).collect()
    }

    #[test]
    fn the_mark_stands_below_the_goal() {
        let rows = rows(&extract(&["p(X) :-", "\tq(X), r."], Mark { line: 1, from: 1, to: 5 }), 80);
        assert_eq!(rows[0].text, "   9  p(X) :-");
        assert_eq!(rows[1].text, "  10          q(X), r.");
        assert_eq!(rows[1].below().unwrap(), "              ^^^^");
    }

    #[test]
    fn a_long_line_is_cut_around_the_mark() {
        let goals: Vec<String> = (100..200).map(|number| format!("goal{number}")).collect();
        let line = goals.join(", ");
        for place in [0, 5, 50, 99] {
            let mark = Mark { line: 0, from: 9 * place, to: 9 * place + 7 };
            let rows = fitted(&extract(&[&line], mark), 2, 60);
            assert!(rows[0].text.len() <= 60, "{}", rows[0].text);
            assert_eq!(above_the_mark(&rows[0]), goals[place]);
        }
    }

    #[test]
    fn a_long_line_is_divided_and_its_mark_with_it() {
        let line = "clash(Light, A, B) :- lamp(A, Light), lamp(B, Light), colour(A, C).";
        for (goal, expected) in [("lamp(B, Light)", vec!["lamp(B, Light)"]), ("lamp(A, Light)", vec!["lamp(A,", "Light)"])] {
            let from = line.find(goal).unwrap();
            let rows = rows(&extract(&[line], Mark { line: 0, from, to: from + goal.len() }), 36);
            assert_eq!(rows[0].text, "   9  clash(Light, A, B) :- lamp(A,");
            assert_eq!(rows[1].text, "        Light), lamp(B, Light),");
            assert_eq!(rows[2].text, "        colour(A, C).");
            let above: Vec<String> = rows.iter().filter(|row| row.marked.is_some()).map(above_the_mark).collect();
            assert_eq!(above, expected);
        }
    }

    #[test]
    fn the_marked_line_is_among_those_that_fit() {
        let lines: Vec<String> = (0..30).map(|number| format!("g{number},")).collect();
        let lines: Vec<&str> = lines.iter().map(String::as_str).collect();
        for line in 0..30 {
            let rows = fitted(&extract(&lines, Mark { line, from: 0, to: 2 }), 6, 40);
            assert_eq!((rows.len(), rows.iter().filter(|row| row.marked.is_some()).count()), (5, 1));
        }
    }
}
