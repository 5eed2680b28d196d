//! The lines of a list of answers, read back.

/// An answer: its values, and the clauses that gave it, parted by a comma and a blank.
#[derive(Clone, Debug)]
pub struct Printed {
    pub values: String,
    pub clauses: String,
}

/// The answers and the last line. Clauses stand behind `by`, over several lines where one has no room for them.
pub fn printed(out: &str) -> (Vec<Printed>, String) {
    let mut lines: Vec<&str> = out.lines().collect();
    let last = lines.pop().expect("a last line").to_string();
    let mut answers: Vec<Printed> = Vec::new();
    for line in lines {
        match (line.strip_prefix("    by "), line.strip_prefix("       "), answers.last_mut()) {
            (Some(clauses), _, Some(answer)) if answer.clauses.is_empty() => answer.clauses = clauses.into(),
            (None, Some(clauses), Some(answer)) if answer.clauses.ends_with(',') => answer.clauses += &format!(" {clauses}"),
            (None, None, _) => answers.push(Printed { values: line.into(), clauses: String::new() }),
            _ => panic!("{line:?} does not belong here"),
        }
    }
    (answers, last)
}
