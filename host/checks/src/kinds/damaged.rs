//! Damaged records for every service; program and event damaged together, which shows the order of the questions.

use crate::compare::{Checked, Checker};
use crate::generate::{clauses, damage, events, programs, room, Dice};

/// One of: as it is, damaged, damaged twice, breaking question 4, any bytes.
fn spoilt(dice: &mut Dice, good: fn(&mut Dice) -> Vec<u8>, breaking: fn(&mut Dice) -> Vec<u8>) -> Vec<u8> {
    match dice.below(10) {
        0..=2 => good(dice),
        3 => breaking(dice),
        4 => {
            let record = breaking(dice);
            damage::damaged(dice, &record)
        }
        5 => (0..dice.below(20)).map(|_| dice.byte()).collect(),
        more => {
            let mut record = good(dice);
            for _ in 5..more {
                if record.len() >= 3 {
                    record = damage::damaged(dice, &record);
                }
            }
            record
        }
    }
}

pub fn round(checker: &mut Checker, dice: &mut Dice) -> Checked<()> {
    let program = spoilt(dice, programs::program, programs::breaking);
    let event = spoilt(dice, events::event, events::breaking);
    let query = spoilt(dice, programs::query, programs::breaking);
    let set = spoilt(dice, clauses::clauses, clauses::breaking);
    checker.canonical(&set, room(dice))?;
    checker.first(&query, room(dice))?;
    checker.forward(&program, &event, room(dice))?;
    checker.back(&program, &event, room(dice))?;
    checker.run(&program, &event, dice.below(4) as u32, dice.below(2) as u8, room(dice))?;
    checker.door(&program, &event, dice.below(4) as u32, room(dice))?;
    checker.answers(&program, &query, dice.below(40) as u32, room(dice))?;
    checker.value(&event, dice.below(8) as u16, room(dice))?;
    checker.lookup(&program, &event)?;
    checker.greatest(&event)?;
    checker.count(&event, [dice.long(), dice.long(), dice.long(), dice.long()])?;
    // one record in the place of another
    let mut all = [program, event, query, set];
    dice.shuffle(&mut all);
    let [a, b, ..] = all;
    checker.forward(&a, &b, room(dice))?;
    checker.back(&b, &a, room(dice))?;
    checker.canonical(&a, room(dice))?;
    checker.first(&b, room(dice))?;
    Ok(())
}
