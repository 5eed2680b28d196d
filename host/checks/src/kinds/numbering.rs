//! Bodies whose locals are numbered by each part of the call event, up to 65,535 and past it: stepped forward, and read back from the body and from
//! fail (SPECIFICATION 4).

use crate::compare::{Checked, Checker, Difference};
use crate::generate::goals::goal_bytes;
use crate::generate::greatest::{called, Called, LEAST, PLACES, PREDICATE};
use crate::generate::terms::Names;
use crate::generate::Dice;
use layout::{byte_at, conjunction, definition, equality, program, symbol, variable, PORT_AT, RECORD_LIMIT as ROOM, TRUE};

/// Definitions of one argument and of two, with that many locals, the last of which occurs.
pub fn definitions(dice: &mut Dice, locals: u8) -> Vec<u8> {
    let all: Vec<Vec<u8>> = [1, 2]
        .map(|arity| {
            let count = u16::from(arity) + u16::from(locals);
            let last = equality(&variable(count - 1), &symbol(1, &[]));
            definition(PREDICATE, arity, locals, &conjunction(&last, &goal_bytes(dice, Names::low(count), 1)))
        })
        .to_vec();
    program(&all)
}

/// The greatest variable: the last local gets 65,535, or it would get 65,536, or it is anywhere.
fn greatest(dice: &mut Dice, locals: u8) -> u16 {
    let last = 65_535 - u16::from(locals);
    match dice.below(5) {
        0 => last,
        1 => last.saturating_add(1),
        2 => 65_535,
        3 => dice.between(usize::from(LEAST), 300) as u16,
        _ => dice.number().max(LEAST),
    }
}

pub fn round(checker: &mut Checker, dice: &mut Dice) -> Checked<()> {
    let locals = *dice.pick(&[0, 1, 1, 2, 3, 255]);
    let (place, number) = (*dice.pick(&PLACES), greatest(dice, locals));
    let program = definitions(dice, locals);
    let called = called(dice, &[place], number);
    each_way(checker, &program, &called)
}

/// Every step that numbers the body of the atom.
pub fn each_way(checker: &mut Checker, program: &[u8], called: &Called) -> Checked<()> {
    let call = called.at(1);
    checker.back(program, &call, ROOM)?;
    checker.run(program, &call, 2, 0, ROOM)?;
    let next = checker.forward(program, &call, ROOM)?;
    if next.number == 0 && checker.back(program, &next.bytes, ROOM)?.bytes != call {
        return Err(Difference("a step back from the body's call did not give the atom's".into()));
    }
    // a goal that is no body of the atom
    checker.back(program, &called.calling(&TRUE), ROOM)?;
    // the body that goal and ancestors alone would number
    let bare = checker.forward(program, &called.bare(), ROOM)?;
    if bare.number == 0 && byte_at(&bare.bytes, PORT_AT) == 1 {
        checker.back(program, &called.betted(&bare.bytes), ROOM)?;
    }
    let fail = called.at(3);
    checker.forward(program, &fail, ROOM)?;
    checker.door(program, &fail, 2, ROOM)?;
    let source = checker.back(program, &fail, ROOM)?;
    if source.number == 0 && checker.forward(program, &source.bytes, ROOM)?.bytes != fail {
        return Err(Difference("the fail of the body did not lead to the atom's".into()));
    }
    Ok(())
}
