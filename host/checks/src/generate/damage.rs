//! Records that were damaged.

use super::Dice;
use layout::mended;

/// Bytes that mean something somewhere.
const TELLING: [u8; 22] = [0, 1, 2, 3, 4, 5, 16, 17, 0x10, 0x11, 0x12, 0x13, 0x14, 0x15, 0x16, 0x20, 0x21, 0x22, 0x30, 0x31, 64, 255];

/// A byte of the body changed, the frame right.
pub fn one_byte(dice: &mut Dice, record: &[u8]) -> Vec<u8> {
    let mut record = record.to_vec();
    let at = dice.between(3, record.len().max(4) - 1);
    if let Some(byte) = record.get_mut(at) {
        *byte = if dice.one_in(2) { *dice.pick(&TELLING) } else { *byte ^ 1 << dice.below(8) };
    }
    record
}

/// Bytes flipped, cut, added, taken out or put in; a wrong length field; a wrong version.
pub fn damaged(dice: &mut Dice, record: &[u8]) -> Vec<u8> {
    let mut damaged = record.to_vec();
    let (at, more) = (dice.below(record.len()), dice.between(1, 5));
    match dice.below(14) {
        0..=3 => return one_byte(dice, record),
        4 => damaged.truncate(record.len().saturating_sub(more)),
        5 => {
            damaged.truncate(record.len().saturating_sub(more));
            damaged = mended(damaged);
        }
        6 => damaged.extend((0..more).map(|_| dice.byte())),
        7 => {
            damaged.extend((0..more).map(|_| *dice.pick(&TELLING)));
            damaged = mended(damaged);
        }
        8 => damaged[dice.below(2)] ^= 1 << dice.below(8),
        9 => damaged[2] = *dice.pick(&[0, 2, 3, 17, 255]),
        10 => {
            damaged.remove(at);
            damaged = mended(damaged);
        }
        11 => {
            damaged.insert(at, *dice.pick(&TELLING));
            damaged = mended(damaged);
        }
        12 => damaged.truncate(dice.below(4)),
        _ => {
            damaged.resize(*dice.pick(&[32_767, 32_768, 32_769, 33_000, 65_537, 65_538]), *dice.pick(&[0, 0x10]));
            damaged = mended(damaged);
        }
    }
    damaged
}
