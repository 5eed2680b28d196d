//! Text in the columns that there are.

/// What stands at the end of a line that is cut.
const CUT: &str = "..";
/// Tabs reach to the next column that is a multiple of this.
const TAB: usize = 8;

/// The columns that a letter takes. One beyond ASCII may take two, and no line may run over.
pub fn columns(letter: char) -> usize {
    if letter.is_ascii() {
        1
    } else {
        2
    }
}

/// The columns that a text takes.
pub fn width(text: &str) -> usize {
    text.chars().map(columns).sum()
}

/// The text without control characters, which a terminal would obey: blanks for tabs, a question mark for any other.
pub fn plain(text: &str) -> String {
    let mut shown = String::with_capacity(text.len());
    let mut column = 0;
    for letter in text.chars() {
        let blanks = TAB - column % TAB;
        match letter {
            '\t' => shown.extend(std::iter::repeat_n(' ', blanks)),
            _ if letter.is_control() => shown.push('?'),
            _ => shown.push(letter),
        }
        column += if letter == '\t' { blanks } else { columns(letter) };
    }
    shown
}

/// The text cut to so many columns.
pub fn cut(text: &str, most: usize) -> String {
    if width(text) <= most {
        return text.into();
    }
    let kept = front(text, most.saturating_sub(CUT.len()));
    let mark = CUT.get(..most.min(CUT.len())).unwrap_or_default();
    format!("{kept}{mark}")
}

/// The text from a column on, with the mark of a cut in front of it.
pub fn cut_front(text: &str, from: usize) -> String {
    let behind = front(text, from + CUT.len()).len();
    format!("{CUT}{}", text.get(behind..).unwrap_or_default())
}

/// The text in lines of so many columns, broken behind a blank where one stands in the second half of a line.
pub fn wrapped(text: &str, most: usize) -> Vec<String> {
    wrapped_behind(text, most, most)
}

/// The same with another number of columns for the first line.
pub fn wrapped_behind(text: &str, first: usize, most: usize) -> Vec<String> {
    let mut lines = Vec::new();
    let mut rest = text;
    let room = |lines: &[String]| if lines.is_empty() { first } else { most }.max(2);
    while width(rest) > room(&lines) {
        let line = front(rest, room(&lines));
        let blank = line.rfind(' ').map(|at| at + 1).filter(|&behind| behind > line.len() / 2);
        let line = blank.and_then(|behind| line.get(..behind)).unwrap_or(line);
        rest = rest.get(line.len()..).unwrap_or_default();
        lines.push(line.into());
    }
    lines.push(rest.into());
    lines
}

/// The text in at most so many lines, the last one cut where there would be more.
pub fn wrapped_within(text: &str, most: usize, most_lines: usize) -> Vec<String> {
    let mut lines = wrapped(text, most);
    if lines.len() > most_lines {
        let kept = lines.iter().take(most_lines.saturating_sub(1)).map(String::len).sum();
        lines.truncate(most_lines.saturating_sub(1));
        lines.push(cut(text.get(kept..).unwrap_or_default(), most));
    }
    lines
}

/// As much of the text as so many columns hold.
fn front(text: &str, most: usize) -> &str {
    let mut taken = 0;
    let beyond = text.char_indices().find(|(_, letter)| {
        taken += columns(*letter);
        taken > most
    });
    beyond.and_then(|(at, _)| text.get(..at)).unwrap_or(text)
}

#[cfg(test)]
mod tests {
    use super::*;

    #[test]
    fn what_does_not_fit_is_cut() {
        assert_eq!(cut("light(bay1, red)", 16), "light(bay1, red)");
        assert_eq!(cut("light(bay1, red)", 15), "light(bay1, r..");
        assert_eq!((cut("light", 2), cut("light", 1), cut("light", 0)), ("..".into(), ".".into(), String::new()));
        assert_eq!(cut("ééé", 4), "é..");
        assert_eq!(cut_front("abcdefgh", 3), "..fgh");
        assert_eq!(cut_front("ab", 3), "..");
    }

    #[test]
    fn nothing_controls_the_terminal() {
        assert_eq!(plain("a\tb\u{1b}[2J\u{9b}c"), "a       b?[2J?c");
    }

    #[test]
    fn lines_hold_all_of_a_text() {
        assert_eq!(wrapped("abcdefgh", 3), ["abc", "def", "gh"]);
        assert_eq!(wrapped("abc", 3), ["abc"]);
        assert_eq!(wrapped("light(bay1, red) by clause 2", 20), ["light(bay1, red) by ", "clause 2"]);
        assert_eq!(wrapped_behind("abcdefgh", 4, 2), ["abcd", "ef", "gh"]);
        assert_eq!(wrapped_within("abcdefgh", 3, 3), ["abc", "def", "gh"]);
        assert_eq!(wrapped_within("abcdefgh", 3, 2), ["abc", "d.."]);
        assert_eq!(wrapped_within("abcdefgh", 3, 1), ["a.."]);
        assert_eq!(wrapped("", 3), [""]);
        assert_eq!(wrapped("éé", 0), ["é", "é"]);
    }
}
