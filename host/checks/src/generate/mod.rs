//! The generator: dice with a seed, and records made with them. Mostly small, sometimes near the limits.

pub mod answers;
pub mod clauses;
pub mod damage;
pub mod dice;
pub mod doors;
pub mod events;
pub mod families;
pub mod goals;
pub mod greatest;
pub mod programs;
pub mod sized;
pub mod terms;
pub mod texts;

pub use dice::Dice;

/// An output's length: mostly the least that passes question 5, sometimes less, sometimes more.
pub fn room(dice: &mut Dice) -> usize {
    match dice.below(40) {
        0 => 32_767,
        1 => dice.below(32_768),
        2 => 32_769,
        3 => 32_768 + dice.below(30_000),
        _ => 32_768,
    }
}
