//! The layout of records (SPECIFICATION 1): kind bytes, places, and records from their parts. The other host crates have it from here; only the
//! twin states it a second time, since it is to share nothing with what it is held against.
//!
//! Nothing here judges a record: what is laid out may break the rules, and what is read need not keep them. Nothing panics.
#![forbid(unsafe_code)]

mod parts;
mod places;

pub use parts::*;
pub use places::*;

/// The longest record, and the shortest output that passes question 5.
pub const RECORD_LIMIT: usize = 32_768;
/// The longest value, as the bytes of a term.
pub const VALUE_LIMIT: usize = 8_192;

pub const VERSION: u8 = 1;

/// The bytes of ports.
pub mod port {
    pub const CALL: u8 = 1;
    pub const EXIT: u8 = 2;
    pub const FAIL: u8 = 3;
    pub const REDO: u8 = 4;
}

// Kinds of terms.
pub const VARIABLE: u8 = 0x01;
pub const SYMBOL: u8 = 0x02;

// Kinds of goals.
pub const TRUTH: u8 = 0x10;
pub const FAILURE: u8 = 0x11;
pub const EQUALITY: u8 = 0x12;
pub const CONJUNCTION: u8 = 0x13;
pub const DISJUNCTION: u8 = 0x14;
pub const ATOM: u8 = 0x15;

// Kinds of bets.
pub const UNIFIER: u8 = 0x20;
pub const OR: u8 = 0x21;
pub const BY: u8 = 0x22;

// Kinds of ancestors beside the atom.
pub const IN_CONJUNCTION: u8 = 0x30;
pub const IN_DISJUNCTION: u8 = 0x31;
