//! The screen: what is shown of an event, laid out for a size. It depends on the event, the length of the walk and the size alone.

use super::clause::fitted;
use super::extent::Extent;
use super::fit::{cut, plain, width};
use crate::portrait::Portrait;
use crate::status::{counted, grouped};
use fourport::Port;
use std::ops::Range;

/// What stands before each line of a section.
const INDENT: &str = "  ";
/// What stands between two values on a line, and before the place of an ancestor.
const BETWEEN: &str = "   ";

/// Ancestors, the values of the clause, those of the query, the clause.
const SECTIONS: usize = 4;

/// Columns and rows.
#[derive(Clone, Copy, Debug, PartialEq, Eq)]
pub struct Size {
    pub columns: usize,
    pub rows: usize,
}

/// How a line is to look where there is colour.
#[derive(Clone, Copy, Debug, PartialEq, Eq)]
pub enum Look {
    Head(Port),
    Strong,
    Title,
    Plain,
    Mark,
}

/// A line of the screen.
#[derive(Clone, Debug, PartialEq, Eq)]
pub struct Line {
    pub text: String,
    pub look: Look,
    /// the columns of the current goal in its clause
    pub marked: Option<Range<usize>>,
}

/// A title and what stands below it.
type Section = (String, Vec<Line>);

/// The lines of the screen, no more and none wider than the size allows.
pub fn lines(portrait: &Portrait, extent: &Extent, size: Size) -> Vec<Line> {
    let mut lines = heading(portrait, extent, size.columns);
    let wants = wants(portrait, size.columns);
    let titles = wants.iter().filter(|&&wanted| wanted > 0).count();
    let room = size.rows.saturating_sub(lines.len() + titles);
    for (title, section) in sections(portrait, shares(wants, room), size.columns).into_iter().filter(|(_, section)| !section.is_empty()) {
        lines.push(line(cut(&title, size.columns), Look::Title));
        lines.extend(section);
    }
    lines.truncate(size.rows);
    lines
}

fn line(text: String, look: Look) -> Line {
    Line { text, look, marked: None }
}

/// The event, its goal, and what there is to note.
fn heading(portrait: &Portrait, extent: &Extent, columns: usize) -> Vec<Line> {
    let bets = if portrait.bets == 0 { "no bets".into() } else { counted(portrait.bets as u64, "bet") };
    let depth = grouped(portrait.depth as u64);
    let head = format!("event {}{}  {}  depth {depth}  {bets}", grouped(portrait.number), extent.behind(portrait.number), portrait.port);
    let mut lines = vec![line(cut(&head, columns), Look::Head(portrait.port)), indented(&portrait.goal, Look::Strong, columns)];
    lines.extend(portrait.note.as_ref().map(|note| indented(note, Look::Strong, columns)));
    lines
}

fn indented(text: &str, look: Look, columns: usize) -> Line {
    line(cut(&format!("{INDENT}{}", plain(text)), columns), look)
}

/// A line cut so that the place at its end, behind the last wide gap, stays.
fn cut_before_place(text: &str, columns: usize) -> String {
    match text.rsplit_once(BETWEEN) {
        Some((goal, place)) if width(text) > columns && width(place) < columns / 2 => {
            format!("{}{BETWEEN}{place}", cut(goal, columns - width(place) - BETWEEN.len()))
        }
        _ => text.into(),
    }
}

/// How many lines the sections would have if there were room.
fn wants(portrait: &Portrait, columns: usize) -> [usize; SECTIONS] {
    let clause = portrait.clause.as_ref().map_or(0, |extract| extract.lines.len() + usize::from(extract.mark.is_some()));
    [portrait.ancestor_count, packed(&portrait.values, columns).len(), packed(&portrait.query_values, columns).len(), clause]
}

/// The room divided: what one section leaves of an equal share, the others have.
fn shares(wants: [usize; SECTIONS], mut room: usize) -> [usize; SECTIONS] {
    let mut order: Vec<(usize, usize)> = wants.into_iter().zip(0..).collect();
    order.sort_unstable();
    let mut shares = [0; SECTIONS];
    for (done, (wanted, section)) in order.into_iter().enumerate() {
        let share = wanted.min(room / (SECTIONS - done));
        room -= share;
        if let Some(place) = shares.get_mut(section) {
            *place = share;
        }
    }
    shares
}

fn sections(portrait: &Portrait, [ancestors, values, query_values, clause]: [usize; SECTIONS], columns: usize) -> [Section; SECTIONS] {
    let shown = |text: &String| indented(text, Look::Plain, columns);
    let placed = |text: &String| indented(&cut_before_place(text, columns.saturating_sub(INDENT.len())), Look::Plain, columns);
    let valued = |values: &[(String, String)], most| {
        let packed = packed(values, columns);
        listed(&packed, packed.len(), most, shown)
    };
    let extract = portrait.clause.as_ref();
    let title = extract.map(|extract| plain(&extract.title)).unwrap_or_default();
    let mut lines = Vec::new();
    for row in extract.map(|extract| fitted(extract, clause, columns)).unwrap_or_default() {
        let below = row.below();
        lines.push(Line { text: row.text, look: Look::Plain, marked: row.marked });
        lines.extend(below.map(|below| line(cut(&below, columns), Look::Mark)));
    }
    [
        ("ancestors".into(), listed(&portrait.ancestors, portrait.ancestor_count, ancestors, placed)),
        ("values".into(), valued(&portrait.values, values)),
        ("values of the query".into(), valued(&portrait.query_values, query_values)),
        (title, lines),
    ]
}

/// The first lines of a list, and how many more of all there are where not all fit.
fn listed(list: &[String], all: usize, most: usize, shown: impl Fn(&String) -> Line) -> Vec<Line> {
    if all <= most {
        return list.iter().map(shown).collect();
    }
    let kept = most.saturating_sub(1).min(list.len());
    let more = shown(&format!(".. {} more", grouped((all - kept) as u64)));
    list.iter().take(kept).map(shown).chain([more]).take(most).collect()
}

/// Values, several on a line where they fit.
fn packed(values: &[(String, String)], columns: usize) -> Vec<String> {
    let most = columns.saturating_sub(INDENT.len());
    let mut lines: Vec<String> = Vec::new();
    for (name, value) in values {
        let text = cut(&plain(&format!("{name} = {value}")), most);
        match lines.last_mut() {
            Some(last) if width(last) + BETWEEN.len() + width(&text) <= most => {
                last.push_str(BETWEEN);
                last.push_str(&text);
            }
            _ => lines.push(text),
        }
    }
    lines
}

#[cfg(test)]
mod tests {
    use super::*;
    use crate::extract::{Extract, Mark};

    fn crowded() -> Portrait {
        let many = |front: &str, count: usize| (0..count).map(|number| format!("{front}{number}({})", "x".repeat(number))).collect::<Vec<_>>();
        Portrait {
            number: 12_345,
            port: Port::Redo,
            goal: "g".repeat(500),
            depth: 40,
            bets: 1,
            note: Some("n".repeat(200)),
            ancestors: many("ancestor", 40),
            ancestor_count: 90,
            values: many("value", 60).into_iter().map(|value| ("Name".into(), value)).collect(),
            query_values: vec![("Light".into(), "red".into())],
            clause: Some(Extract { title: "clause".into(), first_line: 7, lines: many("line", 50), mark: Some(Mark { line: 45, from: 50, to: 52 }) }),
        }
    }

    #[test]
    fn no_screen_is_larger_than_its_size() {
        for (columns, rows) in [(80, 22), (100, 38), (40, 10), (20, 5), (3, 3), (0, 0), (300, 200)] {
            let lines = lines(&crowded(), &Extent::counted(" of 99,999", 99_999), Size { columns, rows });
            assert!(lines.len() <= rows);
            assert!(lines.iter().all(|line| width(&line.text) <= columns), "{columns} {lines:?}");
        }
    }

    #[test]
    fn a_crowded_screen_has_some_of_all() {
        let lines = lines(&crowded(), &Extent::counted(" of 99,999", 99_999), Size { columns: 80, rows: 22 });
        assert_eq!(lines.len(), 22);
        assert_eq!(lines[0].text, "event 12,345 of 99,999  redo  depth 40  1 bet");
        let texts: Vec<&str> = lines.iter().map(|line| line.text.as_str()).collect();
        assert!(texts.contains(&"  .. 86 more"));
        assert_eq!(lines.iter().filter(|line| line.marked.is_some()).count(), 1);
        assert_eq!(lines.iter().filter(|line| line.look == Look::Mark).count(), 1);
    }

    #[test]
    fn the_place_of_an_ancestor_stays() {
        assert_eq!(cut_before_place("half 1 of light(bay1, red), free(bay2)   garage.pl:14", 40), "half 1 of light(bay1, r..   garage.pl:14");
        assert_eq!(cut_before_place("light(bay1)   garage.pl:14", 40), "light(bay1)   garage.pl:14");
    }

    #[test]
    fn room_is_divided() {
        assert_eq!(shares([2, 3, 4, 1], 20), [2, 3, 4, 1]);
        assert_eq!(shares([40, 2, 1, 50], 17), [7, 2, 1, 7]);
        assert_eq!(shares([0, 0, 0, 50], 16), [0, 0, 0, 16]);
        assert_eq!(shares([5, 5, 5, 5], 0), [0, 0, 0, 0]);
    }
}
