//! Texts of clauses: of the grammar with any spacing, with a byte changed, tokens in any order, and near the longest.

use crate::compare::{Checked, Checker, Difference};
use crate::generate::texts::{self, Change};
use crate::generate::{room, Dice};
use crate::texts::{place_holds, typed, Sort, MOST_NAMES};
use twin::text::TEXT_LIMIT;

/// Texts up to this length are looked at for the place of a refusal.
const SHORT: usize = 400;

pub fn round(checker: &mut Checker, dice: &mut Dice) -> Checked<()> {
    let text = if dice.one_in(400) { long(dice) } else { texts::rules(dice) };
    let named = put(checker, &text, MOST_NAMES, layout::RECORD_LIMIT)?;
    let names = texts::names_room(dice, named);
    put(checker, &text, names, room(dice))?;
    let length = dice.between(TEXT_LIMIT - 2, TEXT_LIMIT + 2);
    if dice.one_in(300) && text.len() < length {
        put(checker, &texts::stretched(dice, &text, length), MOST_NAMES, layout::RECORD_LIMIT)?;
    }
    for _ in 0..3 {
        let (other, change) = texts::changed(dice, &text);
        let number = checker.read(&other, MOST_NAMES, layout::RECORD_LIMIT)?.number;
        checker.table.add_text(changed_sort(change, number == 0));
        placed(&other)?;
    }
    let soup = texts::soup(dice);
    put(checker, &soup, MOST_NAMES, layout::RECORD_LIMIT)?;
    placed(&soup)
}

/// The text put to both, and its typed reading where the output and the names have room; the bytes of its names.
pub fn put(checker: &mut Checker, text: &[u8], names: usize, room: usize) -> Checked<usize> {
    let answer = checker.read(text, names, room)?;
    let named = answer.beside[0] as usize;
    if names == MOST_NAMES && room == layout::RECORD_LIMIT {
        let (list, record) = answer.bytes.split_at(named);
        typed(text, answer.number, list, record).map_err(|words| broken(text, &words))?;
    }
    Ok(named)
}

pub fn broken(text: &[u8], words: &str) -> Difference {
    Difference(format!("{words}\n  text {:?}", String::from_utf8_lossy(text)))
}

fn placed(text: &[u8]) -> Checked<()> {
    if text.len() > SHORT || twin::text::read(text, 0, 0).number != 21 {
        return Ok(());
    }
    place_holds(text).map_err(|words| broken(text, &words))
}

fn changed_sort(change: Change, read: bool) -> Sort {
    match (change, read) {
        (Change::Changed, true) => Sort::ChangedRead,
        (Change::Changed, false) => Sort::ChangedRefused,
        (Change::Inserted, true) => Sort::InsertedRead,
        (Change::Inserted, false) => Sort::InsertedRefused,
        (Change::Removed, true) => Sort::RemovedRead,
        (Change::Removed, false) => Sort::RemovedRefused,
    }
}

/// A text of one of the long families, of any length up to the longest.
fn long(dice: &mut Dice) -> Vec<u8> {
    let part = |dice: &mut Dice, most: usize| if dice.one_in(3) { most } else { dice.below(most) };
    match dice.below(8) {
        0 => texts::brackets(part(dice, 32_765)),
        1 => texts::deep_term(part(dice, 21_843)),
        2 => texts::conjuncts(part(dice, 32_765).max(1), texts::mark(dice)),
        3 => texts::facts_of_many_names(part(dice, TEXT_LIMIT)),
        4 => texts::long_variables(*dice.pick(&[10, 64, 65]), dice.below(990)),
        5 => texts::of_record(dice.between(32_760, 32_776)),
        6 => texts::deep_term(dice.between(8_180, 8_195)),
        _ => (0..dice.between(100, 2_000)).flat_map(|_| texts::rules(dice)).take(TEXT_LIMIT).collect(),
    }
}
