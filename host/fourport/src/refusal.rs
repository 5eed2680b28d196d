//! The gate's questions (SPECIFICATION 7): a refusal names the one that was answered no.

use std::fmt;

/// Which of the lent records a question was about.
#[derive(Clone, Copy, Debug, PartialEq, Eq, Hash)]
pub enum Which {
    /// the program or clause record, which is questioned first: numbers 1 to 4
    Program,
    /// the query or event: numbers 11 to 14
    Event,
}

/// A no to one of the gate's questions. `Display` puts the question in words. Later versions of the desk may have more questions, so a `match` needs
/// an arm for any other.
///
/// ```
/// use fourport::{Program, Refusal, Which};
/// let refusal = Program::from_bytes([0, 3, 9, 0, 0]).unwrap_err();
/// assert_eq!(refusal, Refusal::Version(Which::Program));
/// assert_eq!(refusal.number(), 2);
/// assert_eq!(refusal.to_string(), "no to question 2, put to the program or clause record: is the version 1?");
/// ```
#[derive(Clone, Copy, Debug, PartialEq, Eq, Hash)]
#[non_exhaustive]
pub enum Refusal {
    /// 1 or 11: has the slice 3 to 32,768 bytes, and does its length field say how many stand behind it?
    Frame(Which),
    /// 2 or 12: is byte 2, the version, a 1?
    Version(Which),
    /// 3 or 13: is the body, from its first to its last byte, of the kind that was asked for (SPECIFICATION 1.2 to 1.9)? 3 of a text, of rules or of a
    /// query: has each name at most 16 arguments, and each clause at most 64 variables? No record was lent then.
    Grammar(Which),
    /// 4 or 14: are the record rules kept: the order of definitions, the variables, the pairs of unifiers (SPECIFICATION 1.10)?
    Rules(Which),
    /// 5: has the lent output at least 32,768 bytes? The typed services always lend that many.
    Room,
    /// 6: can the walk go on in this direction? Not forward from exit or fail without ancestors, nor back from call with neither ancestors nor bets.
    Walk,
    /// 7: does the event match the left side of a rule, or for a step back the right side? A step back also asks, after 10: does the candidate,
    /// stepped forward, give the event (SPECIFICATION 7.7)?
    Match,
    /// 8: have S(T1) and S(T2), or the one value asked for, at most 8,192 bytes each?
    Value,
    /// 9: has each local of the body a number of at most 65,535? For the canonical form: has each definition at most 255 locals?
    Locals,
    /// 10: has the record of the result at most 32,768 bytes? Of an answer of a query: does it fit what is left of the output?
    Fit,
    /// 20: of a text, may a token or the space between tokens hold each of its bytes?
    Byte,
    /// 21: is a text of the grammar?
    Text,
    /// 22: has a text at most 65,535 bytes, a query with its rules, and its list of names room in the lent buffer? The typed services always lend
    /// enough.
    Length,
    /// 32: on the way back to a door, is a step left within the limit? It is put after all questions of the step back that would be next.
    Limit,
    /// A number that the specification does not have. The desk gives none; this is here so that nothing has to panic.
    Unknown(u32),
}

impl Refusal {
    /// The refusal that a number means; nothing for 0, which is done.
    ///
    /// ```
    /// # use fourport::{Refusal, Which};
    /// assert_eq!(Refusal::from_number(0), None);
    /// assert_eq!(Refusal::from_number(7), Some(Refusal::Match));
    /// assert_eq!(Refusal::from_number(13), Some(Refusal::Grammar(Which::Event)));
    /// assert_eq!(Refusal::from_number(99), Some(Refusal::Unknown(99)));
    /// ```
    pub fn from_number(number: u32) -> Option<Refusal> {
        use Refusal::*;
        Some(match number {
            0 => return None,
            1 => Frame(Which::Program),
            2 => Version(Which::Program),
            3 => Grammar(Which::Program),
            4 => Rules(Which::Program),
            5 => Room,
            6 => Walk,
            7 => Match,
            8 => Value,
            9 => Locals,
            10 => Fit,
            11 => Frame(Which::Event),
            12 => Version(Which::Event),
            13 => Grammar(Which::Event),
            14 => Rules(Which::Event),
            20 => Byte,
            21 => Text,
            22 => Length,
            32 => Limit,
            other => Unknown(other),
        })
    }

    /// The question's number.
    ///
    /// ```
    /// # use fourport::{Refusal, Which};
    /// assert_eq!(Refusal::Fit.number(), 10);
    /// assert_eq!(Refusal::Frame(Which::Event).number(), 11);
    /// ```
    pub fn number(self) -> u32 {
        let at = |which, number| if which == Which::Event { number + 10 } else { number };
        match self {
            Refusal::Frame(which) => at(which, 1),
            Refusal::Version(which) => at(which, 2),
            Refusal::Grammar(which) => at(which, 3),
            Refusal::Rules(which) => at(which, 4),
            Refusal::Room => 5,
            Refusal::Walk => 6,
            Refusal::Match => 7,
            Refusal::Value => 8,
            Refusal::Locals => 9,
            Refusal::Fit => 10,
            Refusal::Byte => 20,
            Refusal::Text => 21,
            Refusal::Length => 22,
            Refusal::Limit => 32,
            Refusal::Unknown(number) => number,
        }
    }

    /// The record that was refused; nothing where it was not a record but the output or the work itself. Of a text this says nothing, since 3 is a
    /// number of texts too: [`TextRefusal::text`](crate::TextRefusal::text) says which text it was.
    ///
    /// ```
    /// # use fourport::{Query, Refusal, Which, WhichText};
    /// assert_eq!(Refusal::Rules(Which::Event).record(), Some(Which::Event));
    /// assert_eq!(Refusal::Walk.record(), None);
    /// // 17 arguments
    /// let refused = Query::from_text("", "p(a, a, a, a, a, a, a, a, a, a, a, a, a, a, a, a, a)").unwrap_err();
    /// assert_eq!((refused.refusal, refused.text), (Refusal::Grammar(Which::Program), WhichText::Query));
    /// ```
    pub fn record(self) -> Option<Which> {
        match self {
            Refusal::Frame(which) | Refusal::Version(which) | Refusal::Grammar(which) | Refusal::Rules(which) => Some(which),
            _ => None,
        }
    }

    /// The question, in words.
    ///
    /// ```
    /// # use fourport::Refusal;
    /// assert_eq!(Refusal::Walk.question(), "can the walk go on?");
    /// ```
    pub fn question(self) -> &'static str {
        match self {
            Refusal::Frame(_) => "has the slice 3 to 32,768 bytes, and does its length field say how many follow?",
            Refusal::Version(_) => "is the version 1?",
            Refusal::Grammar(Which::Program) => {
                "is the body, from its first byte to its last, of the kind asked for? Of a text: has each name at most 16 arguments, and each clause at \
                 most 64 variables?"
            }
            Refusal::Grammar(Which::Event) => "is the body, from its first byte to its last, of the kind asked for?",
            Refusal::Rules(_) => "does it keep the record rules: order, variables, pairs?",
            Refusal::Room => "has the output at least 32,768 bytes?",
            Refusal::Walk => "can the walk go on?",
            Refusal::Match => "does a rule match?",
            Refusal::Value => "has each value at most 8,192 bytes?",
            Refusal::Locals => "has each new local a number of at most 65,535, or in a canonical form each definition at most 255 locals?",
            Refusal::Fit => "has the result at most 32,768 bytes, or an answer room in the output?",
            Refusal::Byte => "may a token, or the space between tokens, hold each byte of the text?",
            Refusal::Text => "is the text of the grammar?",
            Refusal::Length => "has the text, a query with its rules, at most 65,535 bytes, and its list of names room?",
            Refusal::Limit => "is a step back left within the limit?",
            Refusal::Unknown(_) => "a question that the specification does not have",
        }
    }

    /// Done, or the refusal.
    pub(crate) fn unless_done(number: u32) -> Result<(), Refusal> {
        Refusal::from_number(number).map_or(Ok(()), Err)
    }
}

impl fmt::Display for Refusal {
    fn fmt(&self, f: &mut fmt::Formatter<'_>) -> fmt::Result {
        let about = match self.record() {
            Some(Which::Program) => ", put to the program or clause record",
            Some(Which::Event) => ", put to the query or event",
            None => "",
        };
        write!(f, "no to question {}{about}: {}", self.number(), self.question())
    }
}

impl std::error::Error for Refusal {}
