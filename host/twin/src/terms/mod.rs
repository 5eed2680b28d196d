//! Terms at work: what variables become, S(T), the unifier, the body of an atom.

pub mod body;
pub mod rebuild;
pub mod unifier;
pub mod value;
