//! Every answer of a query: counts of steps at and beside exits and the final fail, outputs that are just long enough or just not, damaged records.
//! The list within fewer steps or less room is a front of the longer one (SPECIFICATION 9.10).

use crate::compare::{Answer, Checked, Checker, Difference, LONGEST};
use crate::generate::answers::{asked, Asked};
use crate::generate::sized::{goal_of, term_of};
use crate::generate::{damage, Dice};
use crate::listings::{exits, held, laid_out, typed, Exits, Sort};
use layout::{atom, conjunction, constant, definition, disjunction, equality, program, record, symbol, variable, FAIL, RECORD_LIMIT as ROOM, TRUE};

/// The steps within which a list is asked for whole.
const MOST: u32 = 700;
/// The steps of a longer list, more than the typed one asks for at once.
const LONGER: u32 = 3_000;

pub fn round(checker: &mut Checker, dice: &mut Dice) -> Checked<()> {
    let (program, query) = asked(dice);
    if dice.below(10) == 0 {
        listed(checker, &program, &query, LONGER)?;
    }
    let (whole, found) = listed(checker, &program, &query, MOST)?;
    counted(checker, dice, (&program, &query), &whole, found)?;
    lent(checker, dice, (&program, &query), &whole)?;
    let (steps, room) = (dice.below(60) as u32, *dice.pick(&[0, ROOM - 1, ROOM, ROOM + 1]));
    checker.answers(&program, &query, steps, room)?;
    checker.answers(&damage::damaged(dice, &program), &query, steps, room)?;
    checker.answers(&program, &damage::damaged(dice, &query), steps, room)?;
    Ok(())
}

fn broken<T>(words: &str) -> Checked<T> {
    Err(Difference(format!("answers: {words}")))
}

/// The list within so many steps and the longest output, and how many answers it has; the typed list is the same.
fn listed(checker: &mut Checker, program: &[u8], query: &[u8], most: u32) -> Checked<(Answer, usize)> {
    let whole = checker.answers(program, query, most, LONGEST)?;
    let Some((found, number)) = typed(program, query, most, LONGEST) else { return broken("a record that passes is refused") };
    if (laid_out(&found), number) != (whole.bytes.clone(), whole.number) {
        return broken("the typed list is another one");
    }
    held(&found).into_iter().for_each(|sort| checker.table.add_listing(sort));
    if whole.number == 6 && found.is_empty() {
        checker.table.add_listing(Sort::NoAnswer);
    }
    refused(checker, program, query, &whole)?;
    Ok((whole, found.len()))
}

/// Which thing 8 or 10 refused: asked for the steps taken alone, an answer is refused again, and a step is not.
fn refused(checker: &mut Checker, program: &[u8], query: &[u8], whole: &Answer) -> Checked<()> {
    if whole.number != 8 && whole.number != 10 {
        return Ok(());
    }
    let (taken, kept) = (whole.beside[1] as u32, !whole.bytes.is_empty());
    let again = checker.answers(program, query, taken, LONGEST)?;
    match (whole.number, again.number) {
        (10, 0) => checker.table.add_listing(Sort::StepRefused),
        (10, 10) if taken == 0 => checker.table.add_listing(Sort::FirstRefused),
        (10, 10) if kept => checker.table.add_listing(Sort::KeptBefore10),
        (8, 8) if kept => checker.table.add_listing(Sort::KeptBefore8),
        _ => (),
    }
    Ok(())
}

/// No steps; up to an exit and one less; up to the final fail and one more; any number. Each list is a front of the whole one.
fn counted(checker: &mut Checker, dice: &mut Dice, (program, query): (&[u8], &[u8]), whole: &Answer, found: usize) -> Checked<()> {
    let mut at = |steps: u32, met: Option<Sort>| {
        let list = checker.answers(program, query, steps, LONGEST)?;
        met.into_iter().for_each(|sort| checker.table.add_listing(sort));
        if whole.bytes.starts_with(&list.bytes) {
            Ok(list)
        } else {
            broken("fewer steps give another list")
        }
    };
    at(0, Some(Sort::NoSteps))?;
    at(dice.below(MOST as usize) as u32, None)?;
    let taken = whole.beside[1] as u32;
    if whole.number == 6 {
        let ends = [at(taken, Some(Sort::ToTheFail))?, at(taken + 1, Some(Sort::BeyondTheFail))?, at(u32::MAX, None)?];
        if ends.each_ref().map(|list| list.number) != [0, 6, 6] || ends.iter().any(|list| list.bytes != whole.bytes) {
            return broken("more steps than the walk has give another list");
        }
    }
    let Some(Exits { answers, deeper }) = exits(program, query, taken) else { return Ok(()) };
    // the answer of the last exit may be refused by 8 or 10
    if answers.len() != found && (answers.len() != found + 1 || ![8, 10].contains(&whole.number) || answers.last() != Some(&taken)) {
        return broken("there are not as many as exits of the query");
    }
    if found > 0 {
        let steps = answers[dice.below(found)];
        let [less, more] = [at(steps - 1, Some(Sort::BeforeAnExit))?, at(steps, Some(Sort::ToAnExit))?];
        if less.bytes.len() >= more.bytes.len() {
            return broken("an exit of the query gives no answer");
        }
    }
    if deeper {
        checker.table.add_listing(Sort::Deeper);
    }
    Ok(())
}

/// Outputs that have room for the whole list to the last byte, for one byte less, and for any front of it.
fn lent(checker: &mut Checker, dice: &mut Dice, (program, query): (&[u8], &[u8]), whole: &Answer) -> Checked<()> {
    let length = whole.bytes.len();
    if length <= ROOM {
        let same = checker.answers(program, query, MOST, ROOM)? == *whole;
        return if same { Ok(()) } else { broken("a list that fits the least output is another one there") };
    }
    let steps = whole.beside[1] as u32;
    let rooms = [(length, Some(Sort::LastByte)), (length - 1, Some(Sort::OneByteLess)), (dice.between(ROOM, length), None)];
    for (room, met) in rooms {
        let list = checker.answers(program, query, steps, room)?;
        met.into_iter().for_each(|sort| checker.table.add_listing(sort));
        if !whole.bytes.starts_with(&list.bytes) || (room < length) != (list.bytes.len() < length) {
            return broken("less room gives no front of the list");
        }
    }
    Ok(())
}

/// Each limit on both sides.
pub fn boundaries(checker: &mut Checker) -> Checked<()> {
    let none = program(&[]);
    for room in [0, 1, 9, 32_766, 32_767, 32_768, 32_769, 65_536, LONGEST] {
        for goal in [&TRUE[..], &FAIL, &goal_of(32_759)] {
            for steps in [0, 1, 2, 7, 8, u32::MAX] {
                checker.answers(&none, &record(goal), steps, room)?;
            }
        }
    }
    for length in 32_755..=32_765 {
        listed(checker, &none, &record(&goal_of(length)), MOST)?;
        checker.answers(&none, &record(&goal_of(length)), 0, ROOM)?;
    }
    for (program, query) in values().iter().chain(&lists()).chain(&locals()).chain(&[too_many()]) {
        listed(checker, program, query, MOST)?;
    }
    fits(checker)
}

/// V0 = f(V1, V2), V1 = .., V2 = .., behind an answer without them: V0 has 8,190 to 8,195 bytes.
fn values() -> Vec<Asked> {
    let bound = |v, length| equality(&variable(v), &term_of(length));
    let whole = equality(&variable(0), &symbol(6, &[variable(1), variable(2)]));
    let goal = |length: usize| conjunction(&whole, &conjunction(&bound(1, 2_000), &bound(2, length - 2_004)));
    (8_190..=8_195).map(|length| (program(&[]), record(&disjunction(&TRUE, &goal(length))))).collect()
}

/// Lists of p(V), p(W) whose length steps over the least output, one byte at a time.
fn lists() -> Vec<Asked> {
    let body = |length| disjunction(&equality(&variable(0), &term_of(length)), &equality(&variable(0), &constant(1)));
    let query = record(&conjunction(&atom(5, &[variable(8)]), &atom(5, &[variable(9)])));
    (2_040..2_060).map(|length| (program(&[definition(5, 1, 3, &body(length))]), query.clone())).collect()
}

/// Sixteen answers, some of 14 KB: they outgrow the longest output.
fn too_many() -> Asked {
    let body = disjunction(&equality(&variable(0), &term_of(1_800)), &equality(&variable(0), &term_of(1_796)));
    let [one, two, three, four] = [0, 1, 2, 3].map(|v| atom(5, &[variable(v)]));
    let query = conjunction(&one, &conjunction(&two, &conjunction(&three, &four)));
    (program(&[definition(5, 1, 0, &body)]), record(&query))
}

/// The last local gets 65,535, or would get 65,536, behind an answer.
fn locals() -> Vec<Asked> {
    let program = program(&[definition(5, 1, 1, &equality(&variable(0), &variable(1)))]);
    [65_534, 65_535].map(|v| (program.clone(), record(&disjunction(&TRUE, &atom(5, &[variable(v)]))))).to_vec()
}

/// Outputs of each length about the whole list's and about its answers'.
fn fits(checker: &mut Checker) -> Checked<()> {
    for (program, query) in lists().iter().step_by(6) {
        let whole = checker.answers(program, query, MOST, LONGEST)?;
        for less in [0, 1, 2, 3, 4, 5, 100] {
            checker.answers(program, query, MOST, whole.bytes.len().saturating_sub(less))?;
        }
    }
    Ok(())
}
