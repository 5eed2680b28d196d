//! Errors and warnings as they are printed, read back: the place, the words, and what the mark stands under.

/// An error or a warning.
#[derive(Clone, Debug, PartialEq)]
pub struct Marked {
    /// `error` or `warning`
    pub level: String,
    /// the file with line and column, where there are any
    pub file: String,
    pub place: Option<(usize, usize)>,
    pub words: String,
    /// the line that is shown, and the part of it that the mark stands under
    pub line: Option<String>,
    pub under: Option<String>,
    pub notes: Vec<String>,
}

/// Everything that is told, in its order.
pub fn marked(err: &str) -> Vec<Marked> {
    let mut found: Vec<Marked> = Vec::new();
    for line in err.lines() {
        if let Some(note) = line.strip_prefix("      = ") {
            found.last_mut().expect("a first line").notes.push(note.into());
        } else if let Some(mark) = line.strip_prefix("      | ") {
            let last = found.last_mut().expect("a first line");
            last.under = Some(under(last.line.as_deref().expect("a line before its mark"), mark));
        } else if let Some((number, text)) = line.split_once(" | ").filter(|(number, _)| number.len() == 5) {
            let last = found.last_mut().expect("a first line");
            assert_eq!(number.trim().parse().ok(), last.place.map(|(line, _)| line));
            last.line = Some(text.into());
        } else {
            found.push(first(line));
        }
    }
    found
}

/// `rules.pl:2:5: error: words`, or without a place.
fn first(line: &str) -> Marked {
    let level = ["error", "warning"].into_iter().find(|level| line.contains(&format!("{level}: "))).unwrap_or_else(|| panic!("no error: {line}"));
    let (file, words) = line.split_once(&format!("{level}: ")).expect("words");
    let file = file.trim_end_matches([' ', ':']);
    let mut parts = file.rsplitn(3, ':').map(str::parse);
    let place = match (parts.next(), parts.next()) {
        (Some(Ok(column)), Some(Ok(line))) => Some((line, column)),
        _ => None,
    };
    let file = if place.is_some() { file.rsplitn(3, ':').last().expect("a file") } else { file };
    Marked { level: level.into(), file: file.into(), place, words: words.into(), line: None, under: None, notes: Vec::new() }
}

/// The letters under the mark. What stands before it has the width of what stands before it in the line.
fn under(line: &str, mark: &str) -> String {
    let before = mark.trim_end_matches('^');
    assert!(mark.len() > before.len() && before.trim().is_empty(), "{mark:?}");
    for (blank, letter) in before.chars().zip(line.chars()) {
        assert_eq!(blank == '\t', letter == '\t', "{line:?} over {mark:?}");
    }
    line.chars().skip(before.chars().count()).take(mark.len() - before.len()).collect()
}
