//! Texts that may be long, cut where they are to stand in a line.

use std::fmt::{self, Display, Write};

/// The most bytes of a goal or a term in a line.
const MOST_BYTES: usize = 300;

struct Cut {
    text: String,
}

impl Write for Cut {
    fn write_str(&mut self, part: &str) -> fmt::Result {
        let left = MOST_BYTES.saturating_sub(self.text.len());
        match part.get(..left).filter(|_| part.len() > left) {
            Some(front) => {
                self.text += front;
                Err(fmt::Error)
            }
            None => {
                self.text += part;
                Ok(())
            }
        }
    }
}

/// The text, or its front and two points where it is long. What is behind the front is not even made.
pub fn short(text: impl Display) -> String {
    let mut cut = Cut { text: String::new() };
    match write!(cut, "{text}") {
        Ok(()) => cut.text,
        Err(_) => cut.text + "..",
    }
}

#[cfg(test)]
mod tests {
    use super::*;

    #[test]
    fn long_texts_are_cut() {
        assert_eq!(short("red"), "red");
        assert_eq!(short("x".repeat(300)), "x".repeat(300));
        assert_eq!(short("x".repeat(301)), "x".repeat(300) + "..");
    }
}
