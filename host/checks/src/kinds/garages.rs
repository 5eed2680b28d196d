//! The little garages of the repository's examples, walked to their end and back, each service at each event.

use crate::compare::{Checked, Checker};
use crate::generate::Dice;

const GARAGES: [&[u8]; 6] = [
    include_bytes!("../../../../examples/door-sign.in"),
    include_bytes!("../../../../examples/one-bay.in"),
    include_bytes!("../../../../examples/one-light.in"),
    include_bytes!("../../../../examples/open-bay.in"),
    include_bytes!("../../../../examples/sensor-line.in"),
    include_bytes!("../../../../examples/three-bays.in"),
];

const MOST_STEPS: usize = 2_000;

pub fn round(checker: &mut Checker, dice: &mut Dice) -> Checked<()> {
    for input in GARAGES {
        let (program, query) = layout::split_record(input);
        let mut events = vec![checker.first(query, 32_768)?.bytes];
        for _ in 0..MOST_STEPS {
            let event = &events[events.len() - 1];
            checker.value(event, dice.below(8) as u16, 32_768)?;
            checker.lookup(program, event)?;
            checker.greatest(event)?;
            checker.count(event, [dice.long(); 4])?;
            checker.door(program, event, u32::MAX, 32_768)?;
            let next = checker.forward(program, event, 32_768)?;
            if next.number != 0 {
                break;
            }
            events.push(next.bytes);
        }
        checker.walked(program, query, &events)?;
        checker.answers(program, query, MOST_STEPS as u32, 32_768)?;
    }
    Ok(())
}
