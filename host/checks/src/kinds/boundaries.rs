//! Each limit of SPECIFICATION 10 on both sides, and empty things.

use super::{answers, doors, numbering};
use crate::compare::{Checked, Checker};
use crate::generate::clauses::fact_of;
use crate::generate::families::{chain, doubling, ladder, system};
use crate::generate::greatest::{called, PLACES};
use crate::generate::sized::{bet_of, goal_of, term_of};
use crate::generate::Dice;
use layout::{
    atom, by, clause, clauses, conjunction, definition, disjunction, equality, event, nested, or, program, record, symbol, unifier, variable, FAIL,
    RECORD_LIMIT as ROOM, TRUE,
};

pub fn round(checker: &mut Checker, dice: &mut Dice) -> Checked<()> {
    outputs(checker)?;
    record_lengths(checker)?;
    results(checker)?;
    values(checker)?;
    locals(checker, dice)?;
    canonical_locals(checker)?;
    canonical_lengths(checker)?;
    arities(checker)?;
    short_slices(checker)?;
    ends_of_walks(checker)?;
    doublings(checker)?;
    orders(checker)?;
    answers::boundaries(checker)?;
    doors::boundaries(checker, dice)?;
    counts(checker)
}

fn none() -> Vec<u8> {
    program(&[])
}

/// Question 5, and that it comes after the records' questions and before all others.
fn outputs(checker: &mut Checker) -> Checked<()> {
    let (call, redo) = (event(1, &TRUE, &[], &[]), event(4, &FAIL, &[], &[]));
    let large = event(1, &equality(&variable(0), &term_of(8_193)), &[], &[]);
    for room in [0, 1, 9, 32_766, 32_767, 32_768, 32_769, 65_536, 70_000] {
        checker.canonical(&program(&[]), room)?;
        checker.first(&record(&TRUE), room)?;
        checker.first(&record(&goal_of(32_761)), room)?;
        for event in [&call, &redo, &large, &call[1..].to_vec()] {
            checker.forward(&none(), event, room)?;
            checker.back(&none(), event, room)?;
            for steps in [0, 1, u32::MAX] {
                checker.run(&none(), event, steps, 0, room)?;
                checker.run(&none(), event, steps, 1, room)?;
                checker.door(&none(), event, steps, room)?;
            }
            checker.value(event, 0, room)?;
        }
    }
    Ok(())
}

/// Records of 32,766 to 32,769 bytes, of each kind.
fn record_lengths(checker: &mut Checker) -> Checked<()> {
    for length in 32_765..=32_770 {
        let query = record(&goal_of(length - 3));
        let full = event(1, &TRUE, &[], &[by(&goal_of(length - 10))]);
        let definitions = program(&[definition(5, 0, 0, &goal_of(length - 9))]);
        let set = clauses(&[clause(5, 0, &[], &goal_of(length - 9))]);
        let call = event(1, &atom(5, &[]), &[], &[]);
        assert_eq!([query.len(), full.len(), definitions.len(), set.len()], [length; 4]);
        checker.first(&query, ROOM)?;
        checker.canonical(&set, ROOM)?;
        for event in [&full, &call] {
            for program in [&none(), &definitions] {
                checker.forward(program, event, ROOM)?;
                checker.back(program, event, ROOM)?;
                checker.run(program, event, 0, 0, ROOM)?;
                checker.run(program, event, 9, 0, ROOM)?;
                checker.door(program, event, 9, ROOM)?;
                checker.lookup(program, event)?;
            }
            checker.value(event, 1, ROOM)?;
            checker.greatest(event)?;
            checker.count(event, [0; 4])?;
        }
    }
    Ok(())
}

/// Question 10 on both sides, for rules that lengthen an event, in both directions.
fn results(checker: &mut Checker) -> Checked<()> {
    for length in 32_757..=32_762 {
        checker.first(&record(&goal_of(length)), ROOM)?;
    }
    let goals = [equality(&variable(0), &variable(0)), conjunction(&TRUE, &FAIL), disjunction(&TRUE, &FAIL), atom(5, &[]), TRUE.to_vec()];
    let definitions = program(&[definition(5, 0, 0, &FAIL)]);
    for goal in &goals {
        for (port, top) in [(1, None), (2, None), (3, None), (2, Some(or(2))), (4, Some(or(1))), (2, Some(by(&TRUE))), (4, Some(by(&FAIL)))] {
            let shortest = event(port, goal, &[atom(7, &[])], &top.clone().map_or(vec![], |bet| vec![bet])).len();
            for length in 32_755..=32_768 {
                let bets: Vec<Vec<u8>> = top.iter().cloned().chain([bet_of(length - shortest)]).collect();
                let event = event(port, goal, &[atom(7, &[])], &bets);
                checker.forward(&definitions, &event, ROOM)?;
                checker.back(&definitions, &event, ROOM)?;
                checker.run(&definitions, &event, 3, 0, ROOM)?;
                checker.run(&definitions, &event, 3, 1, ROOM)?;
                checker.door(&definitions, &event, 3, ROOM)?;
            }
        }
    }
    Ok(())
}

/// Question 8: a value of 8,191 to 8,194 bytes, as it stands and by a bet, forward and back, and as the value wanted.
fn values(checker: &mut Checker) -> Checked<()> {
    for length in 8_190..=8_195 {
        let (term, bound) = (term_of(length), unifier(&[(9, term_of(length))]));
        for goal in [equality(&variable(0), &term), equality(&term, &variable(0)), equality(&term, &term), equality(&term, &symbol(5, &[]))] {
            for port in 1..=4 {
                let (bare, betted) = (event(port, &goal, &[], &[]), event(port, &goal, &[], &[unifier(&[(0, term.clone())])]));
                for event in [bare, betted] {
                    checker.forward(&none(), &event, ROOM)?;
                    checker.back(&none(), &event, ROOM)?;
                    checker.door(&none(), &event, 1, ROOM)?;
                }
            }
        }
        for port in 1..=4 {
            let bets = [unifier(&[]), bound.clone()];
            for goal in [equality(&variable(9), &symbol(5, &[])), equality(&symbol(6, &[variable(9)]), &variable(0))] {
                let event = event(port, &goal, &[], &bets);
                checker.forward(&none(), &event, ROOM)?;
                checker.back(&none(), &event, ROOM)?;
                checker.value(&event, 9, ROOM)?;
            }
        }
    }
    Ok(())
}

/// Question 9: the last local at 65,534 to 65,536, from each part that can have the greatest variable; forward and both ways back.
fn locals(checker: &mut Checker, dice: &mut Dice) -> Checked<()> {
    for (count, highest) in [(1, 65_533), (1, 65_534), (1, 65_535), (255, 65_280), (255, 65_281), (0, 65_535), (0, 65_534), (2, 65_533), (2, 65_534)]
    {
        let definitions = numbering::definitions(dice, count);
        for place in PLACES {
            let called = called(dice, &[place], highest);
            numbering::each_way(checker, &definitions, &called)?;
        }
    }
    Ok(())
}

/// Locals of 255 and 256 in the canonical form, also where the program is too long as well: then 9 comes before 10.
fn canonical_locals(checker: &mut Checker) -> Checked<()> {
    // with the facts below the clause record still fits, and its program does not
    let long = clause(1, 0, &[nested(7_927, &symbol(2, &[]))], &TRUE);
    for last in [62, 63, 64] {
        let facts: Vec<Vec<u8>> = [64, 64, 64, last].map(|variables| fact_of(3, variables)).to_vec();
        let spread: Vec<Vec<u8>> = [64, 64, 64, last].iter().enumerate().map(|(i, &variables)| fact_of(i as u16 % 2, variables)).collect();
        let longer = [&facts[..], std::slice::from_ref(&long)].concat();
        for set in [facts, spread, longer] {
            checker.canonical(&clauses(&set), ROOM)?;
        }
    }
    for variables in [63, 64, 65, 255] {
        checker.canonical(&clauses(&[fact_of(3, variables)]), ROOM)?;
    }
    Ok(())
}

/// The canonical form of one fact, of 32,765 to 32,770 bytes, and of the most clauses.
fn canonical_lengths(checker: &mut Checker) -> Checked<()> {
    for length in 32_765..=32_770 {
        let term = [&term_of(length - 15)[..]].concat();
        let variables = [0, 3, 2, 1][(length - 15) % 4];
        // term_of's variables are 1 to 3: one more clause variable stands for 0
        let head = [term, variable(0)];
        checker.canonical(&clauses(&[clause(5, variables + 1, &head, &TRUE)]), ROOM)?;
        let head = [nested((length - 19) / 4, &symbol(2, &[])), symbol(2, &[]), variable(0)];
        checker.canonical(&clauses(&[clause(5, 1, &head[..1 + length % 3], &goal_of(3))]), ROOM)?;
    }
    for shape in [&TRUE, &FAIL] {
        for count in [6_551, 6_552, 6_553, 6_554] {
            let set: Vec<Vec<u8>> = (0..count).map(|i| clause((count - i) as u16 * 3, 0, &[], shape)).collect();
            checker.canonical(&clauses(&set), ROOM)?;
            let set: Vec<Vec<u8>> = (0..count).map(|_| clause(3, 0, &[], shape)).collect();
            checker.canonical(&clauses(&set), ROOM)?;
        }
    }
    Ok(())
}

/// Arities 16 and 17, wherever one stands.
fn arities(checker: &mut Checker) -> Checked<()> {
    for arity in [0, 1, 15, 16, 17, 255] {
        let arguments = vec![symbol(2, &[]); arity];
        let (atom, term) = (atom(5, &arguments), symbol(3, &arguments));
        let definitions = program(&[definition(5, arity as u8, 0, &TRUE)]);
        let set = clauses(&[clause(5, 0, &arguments, &TRUE)]);
        let events =
            [event(1, &atom, &[], &[]), event(1, &equality(&variable(0), &term), &[], &[]), event(1, &TRUE, std::slice::from_ref(&atom), &[])];
        let betted = [event(4, &atom, &[], &[by(&atom)]), event(2, &TRUE, &[], &[unifier(&[(1, term.clone())])])];
        checker.canonical(&set, ROOM)?;
        checker.first(&record(&atom), ROOM)?;
        for event in events.iter().chain(&betted) {
            checker.forward(&definitions, event, ROOM)?;
            checker.back(&definitions, event, ROOM)?;
            checker.lookup(&definitions, event)?;
            checker.lookup(&none(), event)?;
            checker.value(event, 1, ROOM)?;
            checker.greatest(event)?;
            checker.count(event, [7; 4])?;
        }
    }
    Ok(())
}

/// Slices of 0 to 4 bytes, for each record.
fn short_slices(checker: &mut Checker) -> Checked<()> {
    let good = event(1, &TRUE, &[], &[]);
    let slices: [&[u8]; 12] =
        [&[], &[0], &[1], &[0, 0], &[0, 1], &[0, 0, 1], &[0, 1, 1], &[0, 1, 0], &[0, 1, 2], &[0, 2, 1], &[0, 2, 1, 0x10], &[0, 2, 0, 0x10]];
    for slice in slices {
        checker.canonical(slice, ROOM)?;
        checker.first(slice, ROOM)?;
        for (program, event) in [(slice, &good[..]), (&none(), slice), (slice, slice)] {
            checker.forward(program, event, ROOM)?;
            checker.back(program, event, ROOM)?;
            checker.run(program, event, 1, 0, ROOM)?;
            checker.run(program, event, 1, 0, 0)?;
            checker.door(program, event, 1, ROOM)?;
            checker.door(program, event, 1, 0)?;
            checker.answers(program, event, 9, ROOM)?;
            checker.lookup(program, event)?;
        }
        checker.value(slice, 0, ROOM)?;
        checker.greatest(slice)?;
        checker.count(slice, [u32::MAX; 4])?;
    }
    Ok(())
}

/// Runs of no steps and of 4,294,967,295 over walks that end; question 6 on both sides.
fn ends_of_walks(checker: &mut Checker) -> Checked<()> {
    let goals = [TRUE.to_vec(), FAIL.to_vec(), equality(&variable(3), &variable(7)), disjunction(&FAIL, &TRUE), atom(5, &[variable(0)])];
    let definitions = program(&[definition(5, 1, 1, &conjunction(&equality(&variable(0), &variable(1)), &FAIL))]);
    for goal in &goals {
        let start = checker.first(&record(goal), ROOM)?.bytes;
        for (steps, back) in [(0, 0), (0, 1), (u32::MAX, 0), (u32::MAX, 1), (u32::MAX, 255)] {
            let there = checker.run(&definitions, &start, steps, back, ROOM)?;
            checker.run(&definitions, &there.bytes, u32::MAX, 1, ROOM)?;
        }
        for port in 1..=4 {
            for (ancestors, bets) in [(vec![], vec![]), (vec![], vec![or(1)]), (vec![atom(1, &[])], vec![])] {
                let event = event(port, goal, &ancestors, &bets);
                checker.forward(&definitions, &event, ROOM)?;
                checker.back(&definitions, &event, ROOM)?;
            }
        }
    }
    Ok(())
}

/// The longest rows whose unifier would have some 2^n bytes, and the longest chains: alone, with a clash, and with a cycle.
fn doublings(checker: &mut Checker) -> Checked<()> {
    let clash = [(variable(0), symbol(3, &[])), (variable(0), symbol(4, &[]))];
    let families = [doubling(10, false), doubling(797, false), doubling(798, false), doubling(800, true), chain(1_300), ladder(790)];
    for family in families {
        let n = family.len() as u16;
        for more in [&[][..], &clash, &[(variable(0), variable(n))], &[(variable(n), symbol(8, &[variable(0)]))]] {
            let goal = system(&[&family[..], more].concat());
            let next = checker.forward(&none(), &event(1, &goal, &[], &[]), ROOM)?;
            checker.back(&none(), &event(3, &goal, &[], &[]), ROOM)?;
            checker.back(&none(), &event(2, &goal, &[], &[unifier(&[])]), ROOM)?;
            if next.number == 0 {
                checker.back(&none(), &next.bytes, ROOM)?;
            }
        }
    }
    Ok(())
}

/// Steps that two questions refuse: 8 and 9 come before 10, and the first 7 before 8.
fn orders(checker: &mut Checker) -> Checked<()> {
    let definitions = program(&[definition(5, 1, 1, &equality(&variable(0), &variable(1)))]);
    for goal in [equality(&variable(0), &term_of(8_193)), equality(&term_of(8_192), &variable(1)), atom(5, &[variable(65_535)])] {
        for port in 1..=4 {
            let shortest = event(port, &goal, &[], &[or(1)]).len();
            for length in [shortest + 9, 32_764, 32_768] {
                let event = event(port, &goal, &[], &[or(1), bet_of(length - shortest)]);
                checker.forward(&definitions, &event, ROOM)?;
                checker.back(&definitions, &event, ROOM)?;
                checker.run(&definitions, &event, 2, 0, ROOM)?;
            }
        }
    }
    Ok(())
}

/// Counts at and below 4,294,967,295, for each port, and for a refused event.
fn counts(checker: &mut Checker) -> Checked<()> {
    for port in 0..=5 {
        for before in [[0; 4], [u32::MAX; 4], [u32::MAX - 1; 4], [1, 2, 3, 4]] {
            checker.count(&event(port, &TRUE, &[], &[]), before)?;
        }
    }
    Ok(())
}
