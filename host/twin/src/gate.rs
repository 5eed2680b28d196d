//! The gate's questions (SPECIFICATION 7), their numbers, and the limits they speak of.

/// The longest record, and the least output that question 5 lets pass.
pub const RECORD_LIMIT: usize = 32_768;
/// The longest value of question 8.
pub const VALUE_LIMIT: u32 = 8_192;
/// The most locals of a definition in a canonical form.
pub const LOCALS_LIMIT: u32 = 255;

#[derive(Clone, Copy, Debug, PartialEq, Eq)]
pub enum Question {
    /// has the slice 3 to 32,768 bytes, and does its length field say how many stand behind it?
    Frame = 1,
    /// is byte 2, the version, a 1?
    Version = 2,
    /// is the body, from its first to its last byte, of the kind that was asked for?
    Grammar = 3,
    /// are the record rules of SPECIFICATION 1.10 kept?
    Rules = 4,
    /// has the lent output at least 32,768 bytes?
    Room = 5,
    /// can the walk go on in this direction?
    Walk = 6,
    /// forward, does the event match the left side of a rule? Back, has it a row in SPECIFICATION 6.1, and does the candidate, stepped forward,
    /// give the event?
    Match = 7,
    /// have S(T1) and S(T2), or the one value asked for, at most 8,192 bytes each?
    Value = 8,
    /// has each local of the body a number of at most 65,535? For the canonical form: has each definition at most 255 locals?
    Locals = 9,
    /// has the record of the result at most 32,768 bytes?
    Fit = 10,
    /// of a text: may a token, or the space between tokens, hold each of its bytes?
    Byte = 20,
    /// of a text: is it of the grammar?
    Text = 21,
    /// of a text, or a query and its rules together: has it at most 65,535 bytes, and has its list of names room?
    Length = 22,
    /// on the way back to a door: is a step left within the limit?
    Limit = 32,
}

/// The number of the question whose answer was no.
#[derive(Clone, Copy, Debug, PartialEq, Eq)]
pub struct Refusal(pub u8);

impl From<Question> for Refusal {
    fn from(question: Question) -> Self {
        Refusal(question as u8)
    }
}

/// A query's or an event's own questions are numbered 11 to 14.
pub fn second<T>(answer: Result<T, Question>) -> Result<T, Refusal> {
    answer.map_err(|question| Refusal(question as u8 + 10))
}

/// Question 5.
pub fn room(out_len: usize) -> Result<(), Refusal> {
    if out_len >= RECORD_LIMIT {
        Ok(())
    } else {
        Err(Question::Room.into())
    }
}
