//! Queries as text: a goal behind the clauses of other texts, each with a byte changed or not.

use super::texts::broken;
use crate::compare::{Checked, Checker};
use crate::generate::{room, texts, Dice};
use crate::texts::{shown_again, typed_query, Sort, MOST_NAMES};
use layout::RECORD_LIMIT;
use twin::text::TEXT_LIMIT;

pub fn round(checker: &mut Checker, dice: &mut Dice) -> Checked<()> {
    let (rules, query) = (texts::rules(dice), if dice.one_in(300) { long(dice) } else { texts::query(dice) });
    let named = put(checker, &rules, &query, MOST_NAMES, RECORD_LIMIT)?;
    let names = texts::names_room(dice, named);
    put(checker, &rules, &query, names, room(dice))?;
    let length = dice.between(TEXT_LIMIT - 2, TEXT_LIMIT + 2);
    if dice.one_in(300) && rules.len() + query.len() < length {
        put(checker, &texts::stretched(dice, &rules, length - query.len()), &query, MOST_NAMES, RECORD_LIMIT)?;
        let blanks = vec![b' '; length - query.len() - rules.len()];
        put(checker, &rules, &[&query[..], &blanks].concat(), MOST_NAMES, RECORD_LIMIT)?;
    }
    let (other_rules, other_query) = (texts::changed(dice, &rules).0, texts::changed(dice, &query).0);
    put(checker, &other_rules, &query, MOST_NAMES, RECORD_LIMIT)?;
    put(checker, &rules, &other_query, MOST_NAMES, RECORD_LIMIT)?;
    put(checker, &other_rules, &other_query, MOST_NAMES, RECORD_LIMIT)?;
    put(checker, &rules, &texts::soup(dice), MOST_NAMES, RECORD_LIMIT)?;
    if dice.one_in(4) {
        let looked = shown_again(&rules, &query, 30).map_err(|words| broken(&rules, &words))?;
        (0..looked).for_each(|_| checker.table.add_text(Sort::ShownAgain));
    }
    // a query with the full stop of a clause, and clauses without it
    put(checker, &rules, &[&query[..], b"."].concat(), MOST_NAMES, RECORD_LIMIT)?;
    put(checker, &query, &query, MOST_NAMES, RECORD_LIMIT)?;
    Ok(())
}

/// Both texts put to both, and their typed reading where output and names have room; the bytes of the names.
pub fn put(checker: &mut Checker, rules: &[u8], query: &[u8], names: usize, room: usize) -> Checked<usize> {
    let answer = checker.read_query(rules, query, names, room)?;
    let named = answer.beside[0] as usize;
    let (list, record) = answer.bytes.split_at(named);
    if names == MOST_NAMES && room == RECORD_LIMIT {
        typed_query(rules, query, answer.number, list, record).map_err(|words| broken(&[rules, b" ?- ", query].concat(), &words))?;
    }
    if answer.number == 0 {
        let own = twin::text::read_query(rules, b"true", MOST_NAMES, RECORD_LIMIT).names;
        if !list.starts_with(&own) {
            return Err(broken(query, "the names of the rules are not the front of the list"));
        }
        checker.table.add_text(if list.len() > own.len() { Sort::NewName } else { Sort::NoNewName });
    }
    Ok(named)
}

/// A goal of one of the long families.
fn long(dice: &mut Dice) -> Vec<u8> {
    let clause = match dice.below(4) {
        0 => texts::brackets(dice.below(32_765)),
        1 => texts::conjuncts(dice.between(1, 32_765), texts::mark(dice)),
        2 => texts::long_variables(*dice.pick(&[10, 64, 65]), dice.below(990)),
        _ => return texts::goal_of(dice.between(32_755, 32_775)),
    };
    // without head, neck and full stop
    clause[3..clause.len() - 1].to_vec()
}
