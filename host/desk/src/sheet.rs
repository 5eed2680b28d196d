//! The forms of a list of answers: lines to read, CSV and JSON for the planning sheet.

use std::fmt::Write as _;
use std::io::{self, Write};

/// A clause that helped to give an answer.
#[derive(Clone, Debug, PartialEq, Eq)]
pub struct UsedClause {
    /// as `light/2`
    pub predicate: String,
    pub file: String,
    pub line: usize,
    /// of its head, from 1: several clauses may share a line
    pub column: usize,
}

/// An answer: the query's variables with their values, and the clauses that gave it.
#[derive(Clone, Debug)]
pub struct Row {
    pub values: Vec<(String, String)>,
    pub clauses: Vec<UsedClause>,
}

/// How a list ends.
#[derive(Clone, Debug)]
pub struct Ending {
    pub answers: u64,
    pub steps: u32,
    /// the library's number; nothing where the planner's own limit ended the list
    pub number: Option<u32>,
    /// what stopped it; nothing where it is whole
    pub stopped: Option<&'static str>,
    pub words: String,
}

/// The form of a list.
#[derive(Clone, Copy, Debug, PartialEq, Eq)]
pub enum Form {
    Lines,
    Csv,
    Json,
}

impl Form {
    /// What stands before the first answer.
    pub fn head(self, out: &mut dyn Write, query: &str, variables: &[String]) -> io::Result<()> {
        match self {
            Form::Lines => Ok(()),
            Form::Csv => write!(out, "{}\r\n", csv(variables.iter().map(String::as_str).chain(["clauses"]))),
            Form::Json => write!(out, "{{\"query\": {}, \"answers\": [", json(query)),
        }
    }

    pub fn row(self, out: &mut dyn Write, row: &Row, is_first: bool) -> io::Result<()> {
        match self {
            Form::Lines => lines(out, row),
            Form::Csv => {
                let clauses: Vec<String> = row.clauses.iter().map(UsedClause::shown).collect();
                write!(out, "{}\r\n", csv(row.values.iter().map(|(_, value)| value.as_str()).chain([clauses.join("; ").as_str()])))
            }
            Form::Json => write!(out, "{}\n  {}", if is_first { "" } else { "," }, row.json()),
        }
    }

    /// What stands behind the last answer. In CSV nothing does: the last line goes to standard error.
    pub fn tail(self, out: &mut dyn Write, ending: &Ending) -> io::Result<()> {
        match self {
            Form::Lines => writeln!(out, "{}", ending.words),
            Form::Csv => {
                out.flush()?;
                _ = writeln!(io::stderr(), "{}", ending.words);
                Ok(())
            }
            Form::Json => {
                let number = ending.number.map_or("null".into(), |number| number.to_string());
                let stopped = ending.stopped.map_or("null".into(), json);
                let Ending { answers, steps, words, .. } = ending;
                write!(out, "\n], \"count\": {answers}, \"whole\": {}, \"stopped\": {stopped}, ", ending.stopped.is_none())?;
                writeln!(out, "\"number\": {number}, \"steps\": {steps}, \"words\": {}}}", json(words))
            }
        }
    }
}

fn lines(out: &mut dyn Write, row: &Row) -> io::Result<()> {
    let values: Vec<String> = row.values.iter().map(|(name, value)| format!("{name} = {value}")).collect();
    writeln!(out, "{}", if values.is_empty() { "true".into() } else { values.join(", ") })?;
    let clauses: Vec<String> = row.clauses.iter().map(UsedClause::shown).collect();
    if clauses.is_empty() {
        return Ok(());
    }
    writeln!(out, "{BY}{}", wrapped(&clauses))
}

/// What stands before the clauses of an answer, and the most columns of their lines.
const BY: &str = "    by ";
const COLUMNS: usize = 80;

/// Parts with commas between them, in lines that begin below the first part.
fn wrapped(parts: &[String]) -> String {
    let (mut text, mut column) = (String::new(), BY.len());
    for (i, part) in parts.iter().enumerate() {
        let comma = usize::from(i + 1 < parts.len());
        if i > 0 && column + 1 + part.len() + comma > COLUMNS {
            text = text + "\n" + &" ".repeat(BY.len());
            column = BY.len();
        } else if i > 0 {
            text.push(' ');
            column += 1;
        }
        text += part;
        text += if comma == 1 { "," } else { "" };
        column += part.len() + comma;
    }
    text
}

impl UsedClause {
    fn shown(&self) -> String {
        format!("{} {}:{}", self.predicate, self.file.rsplit('/').next().unwrap_or(&self.file), self.line)
    }
}

impl Row {
    fn json(&self) -> String {
        let values: Vec<String> = self.values.iter().map(|(name, value)| format!("{}: {}", json(name), json(value))).collect();
        let clauses: Vec<String> = self
            .clauses
            .iter()
            .map(|UsedClause { predicate, file, line, column }| {
                format!("{{\"predicate\": {}, \"file\": {}, \"line\": {line}, \"column\": {column}}}", json(predicate), json(file))
            })
            .collect();
        format!("{{\"values\": {{{}}}, \"clauses\": [{}]}}", values.join(", "), clauses.join(", "))
    }
}

/// A row of RFC 4180, without its end.
fn csv<'c>(cells: impl Iterator<Item = &'c str>) -> String {
    let quoted = |cell: &str| {
        if cell.contains(['"', ',', '\r', '\n']) {
            format!("\"{}\"", cell.replace('"', "\"\""))
        } else {
            cell.into()
        }
    };
    cells.map(quoted).collect::<Vec<String>>().join(",")
}

/// A string of RFC 8259.
fn json(text: &str) -> String {
    let mut string = String::from("\"");
    for letter in text.chars() {
        match letter {
            '"' | '\\' => string.extend(['\\', letter]),
            '\n' => string += "\\n",
            _ if letter.is_control() => _ = write!(string, "\\u{:04x}", u32::from(letter)),
            _ => string.push(letter),
        }
    }
    string + "\""
}

#[cfg(test)]
mod tests {
    use super::*;

    #[test]
    fn clauses_are_wrapped() {
        let parts: Vec<String> = (0..9).map(|i| format!("light/2 a.pl:{i}")).collect();
        let text = format!("{BY}{}", wrapped(&parts));
        assert_eq!(text.lines().map(str::len).collect::<Vec<_>>(), [70, 70, 21]);
        assert_eq!(text.replace(",\n       ", ", "), format!("{BY}{}", parts.join(", ")));
    }

    #[test]
    fn quoting() {
        assert_eq!(csv(["f(a, b)", "red", "a\"b"].into_iter()), "\"f(a, b)\",red,\"a\"\"b\"");
        assert_eq!(json("a \"b\" \\ \n\u{1}\u{e9}"), "\"a \\\"b\\\" \\\\ \\n\\u0001\u{e9}\"");
    }
}
