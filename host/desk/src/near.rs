//! The name that somebody may have meant.

/// Names longer than this are not compared.
const MOST_LETTERS: usize = 40;
/// The most letters that may be wrong.
const MOST_WRONG: usize = 2;

/// The nearest of the names, where at most two letters are wrong and most are right; of equals the first.
pub fn nearest<'n>(name: &str, names: impl IntoIterator<Item = &'n str>) -> Option<&'n str> {
    let most = MOST_WRONG.min(name.len().saturating_sub(1) / 2).max(usize::from(name.len() > 1));
    let compared = names.into_iter().filter(|other| other.len().max(name.len()) <= MOST_LETTERS && other.len().abs_diff(name.len()) <= most);
    let distances = compared.map(|other| (distance(name.as_bytes(), other.as_bytes()), other));
    distances.filter(|(wrong, _)| *wrong <= most).min_by_key(|(wrong, _)| *wrong).map(|(_, other)| other)
}

/// A row of the table of distances.
type Row = [usize; MOST_LETTERS + 1];

/// The letters that have to be put in, taken out, changed or exchanged with their neighbour. No more letters are looked at than are compared.
fn distance(left: &[u8], right: &[u8]) -> usize {
    let (mut before, mut row): (Row, Row) = ([usize::MAX / 2; MOST_LETTERS + 1], std::array::from_fn(|j| j));
    for (i, a) in left.iter().enumerate() {
        let mut next: Row = [i + 1; MOST_LETTERS + 1];
        for (j, b) in right.iter().enumerate().take(MOST_LETTERS) {
            let at = |row: &Row, j: usize| row.get(j).copied().unwrap_or(usize::MAX / 2);
            let swapped = match (i.checked_sub(1), j.checked_sub(1)) {
                (Some(p), Some(q)) if left.get(p) == Some(b) && right.get(q) == Some(a) => at(&before, q) + 1,
                _ => usize::MAX / 2,
            };
            let least = (at(&row, j) + usize::from(a != b)).min(at(&row, j + 1) + 1).min(at(&next, j) + 1).min(swapped);
            next.get_mut(j + 1).into_iter().for_each(|place| *place = least);
        }
        before = std::mem::replace(&mut row, next);
    }
    row.get(right.len()).copied().unwrap_or(usize::MAX)
}

#[cfg(test)]
mod tests {
    use super::*;

    #[test]
    fn names_meant() {
        let names = ["light", "lights", "taken", "p"];
        assert_eq!(nearest("lihgt", names), Some("light"));
        assert_eq!(nearest("light", names), Some("light"));
        assert_eq!(nearest("tken", names), Some("taken"));
        assert_eq!(nearest("bay", names), None);
        assert_eq!(nearest("q", names), None);
        assert_eq!((distance(b"kitten", b"sitting"), distance(b"ab", b"ba"), distance(b"", b"abc")), (3, 1, 3));
    }
}
