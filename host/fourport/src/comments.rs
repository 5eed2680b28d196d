//! Comments, which no text that the library reads has.

/// The text with blanks in place of each comment, from `%` to the end of its line, byte for byte: what is read of it stands where it stood, so the place
/// of a refusal is right in the text as it was. No token holds a `%`, so it starts nothing else. Line feeds and carriage returns stay.
///
/// ```
/// use fourport::{without_comments, Clauses};
/// let rules = "taken(bay1). % since May\nlight(Bay, red) :- taken Bay.";
/// assert_eq!(Clauses::from_text(rules).unwrap_err().words(), "`%` cannot be used here: comments are blanked before a text is read");
/// let refused = Clauses::from_text(without_comments(rules.as_bytes())).unwrap_err();
/// assert_eq!(refused.to_string(), "the rules, line 2, column 26: unexpected `Bay` (question 21)");
/// ```
pub fn without_comments(text: &[u8]) -> Vec<u8> {
    let mut within = false;
    let blanked = |&byte: &u8| {
        within = byte != b'\n' && (within || byte == b'%');
        if within && byte != b'\r' {
            b' '
        } else {
            byte
        }
    };
    text.iter().map(blanked).collect()
}
