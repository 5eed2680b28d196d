//! The rule desk of docs/SPECIFICATION.md once more, in plain Rust: an oracle for the proved desk, and the speed to beat.
//!
//! Bytes are read into trees and written from trees at the boundary alone (`records`); everything between works on trees. Trees share their parts
//! through `Rc`, each knows the length of its bytes and the greatest variable in it, and every walk over a tree has a stack of its own, its end too:
//! no nesting that fits a record runs out of native stack.
#![forbid(unsafe_code)]

pub mod answers;
pub mod canonical;
pub mod door;
pub mod gate;
pub mod records;
pub mod rules;
pub mod services;
pub mod terms;
pub mod text;
pub mod training;
pub mod walk;
