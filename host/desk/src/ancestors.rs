//! Ancestors in words, the nearest first: a line for each atom that is being walked, with the halves that lead from its body to what stands above it, and
//! one for the query where it has halves itself.

use crate::garage::Garage;
use crate::naming::EventNames;
use crate::position::Position;
use crate::short::short;
use fourport::{Ancestor, Event, GoalView, Half};

/// Halves that are alike are counted where there are as many in a row.
const MANY: usize = 4;

/// An atom, or nothing for the query; the halves within it, the nearest first; and how many ancestors stand above it.
struct Line<'e> {
    atom: Option<GoalView<'e>>,
    halves: Vec<Half>,
    above: usize,
}

impl Garage {
    /// The lines, so many at the most, and how many there are in all. The conjunction around the query is in none of them.
    pub fn ancestors_shown(&self, event: &Event, most: usize) -> (Vec<String>, usize) {
        let (lines, mut names) = (lines(event), EventNames::of(self, event));
        let shown = lines.iter().take(most).map(|line| self.line_shown(event, line, &mut names)).collect();
        (shown, lines.len())
    }

    fn line_shown(&self, event: &Event, line: &Line<'_>, names: &mut EventNames<'_>) -> String {
        let (goal, at) = match line.atom {
            Some(atom) => {
                names.add_values(event, atom);
                (short(atom.shown(names)), self.at(&Position::under(self, event, line.above + 1)))
            }
            None => ("the query".into(), self.at(&Position::Query(Vec::new()))),
        };
        let at = at.map(|at| format!("   {at}")).unwrap_or_default();
        format!("{goal}{}{at}", halves_shown(&line.halves))
    }
}

fn lines(event: &Event) -> Vec<Line<'_>> {
    let count = usize::from(event.ancestor_count()).saturating_sub(1);
    let (mut lines, mut halves) = (Vec::new(), Vec::new());
    for (above, ancestor) in event.ancestors().take(count).enumerate() {
        match ancestor {
            Ancestor::Atom(atom) => lines.push(Line { atom: Some(atom), halves: std::mem::take(&mut halves), above }),
            Ancestor::Conjunction { half, .. } | Ancestor::Disjunction { half, .. } => halves.push(half),
        }
    }
    if !halves.is_empty() {
        lines.push(Line { atom: None, halves, above: count });
    }
    lines
}

/// Halves that are kept the nearest first, shown the outermost first: ` in half 1`, ` in halves 2 2 1`, ` in halves 2 (54 times) 1`.
fn halves_shown(halves: &[Half]) -> String {
    let outermost: Vec<Half> = halves.iter().rev().copied().collect();
    let runs = outermost.chunk_by(|left, right| left == right).flat_map(|run| {
        let number = run.first().map_or(0, |half| *half as u8);
        if run.len() < MANY {
            vec![number.to_string(); run.len()]
        } else {
            vec![format!("{number} ({} times)", run.len())]
        }
    });
    let shown = runs.collect::<Vec<_>>().join(" ");
    match halves.len() {
        0 => String::new(),
        1 => format!(" in half {shown}"),
        _ => format!(" in halves {shown}"),
    }
}

#[cfg(test)]
mod tests {
    use super::*;
    use Half::{First, Second};

    #[test]
    fn halves_from_the_outermost() {
        assert_eq!(halves_shown(&[]), "");
        assert_eq!(halves_shown(&[First]), " in half 1");
        assert_eq!(halves_shown(&[First, Second, Second]), " in halves 2 2 1");
        assert_eq!(halves_shown(&[First, Second, Second, Second, Second, First]), " in halves 1 2 (4 times) 1");
    }
}
