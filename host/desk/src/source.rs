//! A text and where it is from: its bytes as they stand, the bytes that the library reads, and its lines.

use fourport::{without_comments, Place};
use std::fs::File;
use std::io::{self, Read};

/// The most bytes of a file that are read; the library refuses texts far below this.
const MOST_BYTES: u64 = 64 << 20;

/// A span of a text, in bytes.
#[derive(Clone, Copy, Debug, PartialEq, Eq)]
pub struct Span {
    pub from: usize,
    pub to: usize,
}

/// A text with its name.
#[derive(Clone, Debug)]
pub struct Source {
    name: String,
    bytes: Vec<u8>,
    text: Vec<u8>,
    /// where each line starts
    lines: Vec<usize>,
}

impl Source {
    pub fn new(name: impl Into<String>, bytes: Vec<u8>) -> Source {
        let text = without_comments(&bytes);
        let ends = bytes.iter().zip(1..).filter(|(&byte, _)| byte == b'\n').map(|(_, next)| next);
        let lines = std::iter::once(0).chain(ends).collect();
        Source { name: name.into(), bytes, text, lines }
    }

    pub fn from_file(path: &str) -> io::Result<Source> {
        let mut bytes = Vec::new();
        let read = File::open(path)?.take(MOST_BYTES + 1).read_to_end(&mut bytes)?;
        if read as u64 > MOST_BYTES {
            return Err(io::Error::new(io::ErrorKind::InvalidData, "it has over 64 MiB"));
        }
        Ok(Source::new(path, bytes))
    }

    pub fn name(&self) -> &str {
        &self.name
    }

    /// What the library reads: the same bytes, with blanks for comments, so that places stay.
    pub fn text(&self) -> &[u8] {
        &self.text
    }

    /// The text as somebody typed it.
    pub fn typed(&self) -> String {
        String::from_utf8_lossy(&self.bytes).trim().into()
    }

    /// The part of the text in a span.
    pub fn part(&self, span: Span) -> String {
        String::from_utf8_lossy(self.text.get(span.from..span.to).unwrap_or_default()).into_owned()
    }

    pub fn place(&self, offset: usize) -> Place {
        let line = self.line_of(offset);
        Place { offset, line, column: 1 + offset - self.line_start(line) }
    }

    /// The line, from 1, that holds a byte.
    pub fn line_of(&self, offset: usize) -> usize {
        self.lines.partition_point(|&start| start <= offset)
    }

    /// Where a line starts.
    pub fn line_start(&self, line: usize) -> usize {
        line.checked_sub(1).and_then(|i| self.lines.get(i)).copied().unwrap_or(self.bytes.len())
    }

    /// A line as it stands, without its end.
    pub fn line(&self, line: usize) -> &[u8] {
        let part = self.bytes.get(self.line_start(line)..self.line_start(line + 1)).unwrap_or_default();
        let part = part.strip_suffix(b"\n").unwrap_or(part);
        part.strip_suffix(b"\r").unwrap_or(part)
    }

    /// How many bytes of a line stand up to the end of its last token: blanks and a comment behind that are none of it.
    pub fn tokens_width(&self, line: usize) -> usize {
        self.text.get(self.line_start(line)..self.line_start(line + 1)).unwrap_or_default().trim_ascii_end().len()
    }

    /// The file, without its folder, and the line that hold a byte, as `rules.pl:14`.
    pub fn at(&self, offset: usize) -> String {
        format!("{}:{}", self.short_name(), self.line_of(offset))
    }

    /// The name of the file without its folder.
    pub fn short_name(&self) -> &str {
        self.name.rsplit('/').next().unwrap_or(&self.name)
    }
}

#[cfg(test)]
mod tests {
    use super::*;

    #[test]
    fn comments_are_blanked_byte_for_byte() {
        let source = Source::new("rules/a.pl", b"p. % \xc3\xa9 100 %\r\nq. %".to_vec());
        assert_eq!(source.text(), b"p.           \r\nq.  ");
        assert_eq!((source.line(1), source.line(2), source.line(3)), (&b"p. % \xc3\xa9 100 %"[..], &b"q. %"[..], &b""[..]));
        assert_eq!((source.tokens_width(1), source.tokens_width(2), source.tokens_width(3)), (2, 2, 0));
        assert_eq!((source.place(15).line, source.place(15).column, source.at(0)), (2, 1, "a.pl:1".into()));
    }
}
