//! How the program ends, and numbers as people read them.

use std::process::ExitCode;

/// What the exit status says.
#[derive(Clone, Copy, Debug, PartialEq, Eq)]
pub enum Status {
    Done = 0,
    NoAnswer = 1,
    Refused = 2,
    /// a limit stopped the walk
    Stopped = 3,
}

impl From<Status> for ExitCode {
    fn from(status: Status) -> ExitCode {
        ExitCode::from(status as u8)
    }
}

/// A number with a comma before each three digits.
pub fn grouped(number: u64) -> String {
    let digits = number.to_string();
    let parted = |(i, digit)| [(i > 0 && (digits.len() - i) % 3 == 0).then_some(','), Some(digit)];
    digits.chars().enumerate().flat_map(parted).flatten().collect()
}

/// `1 answer`, `2 answers`, `no answer`.
pub fn counted(number: u64, what: &str) -> String {
    match number {
        0 => format!("no {what}"),
        1 => format!("1 {what}"),
        _ => format!("{} {what}s", grouped(number)),
    }
}

#[cfg(test)]
mod tests {
    use super::*;

    #[test]
    fn numbers_for_people() {
        assert_eq!([0, 7, 999, 1_000, 1_234_567].map(grouped), ["0", "7", "999", "1,000", "1,234,567"]);
        assert_eq!([0, 1, 1_024].map(|number| counted(number, "step")), ["no step", "1 step", "1,024 steps"]);
    }
}
