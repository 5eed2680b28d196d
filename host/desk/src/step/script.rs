//! `desk step` without a screen to draw on: commands from a pipe, each echoed, or typed behind a prompt, answered as plain text.

use super::extent::Extent;
use super::fit::plain;
use super::screen::{self, Size};
use super::session::Session;
use super::PROMPT;
use std::io::{self, BufRead, Write};

/// What is said first to somebody who types.
const WELCOME: &str = "`help` lists the commands; Ctrl-D or Ctrl-C ends the desk";

/// How the session is written.
pub struct Writing<'e> {
    pub extent: &'e Extent,
    pub size: Size,
    /// whether somebody types the commands, and sees them without an echo
    pub is_typed: bool,
}

impl Writing<'_> {
    /// Commands from the input until it ends or one of them is `quit`; whether each was understood.
    pub fn run(&self, session: &mut Session, input: &mut dyn BufRead, output: &mut dyn Write) -> io::Result<bool> {
        let mut understood = true;
        if self.is_typed {
            writeln!(output, "{WELCOME}")?;
        }
        self.show(session, output)?;
        while let Some(line) = self.next_line(input, output)? {
            if line.is_empty() || line.starts_with(['%', '#']) {
                continue;
            }
            if !self.is_typed {
                writeln!(output, "{PROMPT}{line}")?;
            }
            let reply = session.obey_line(&line, self.size.columns, &mut |_| false);
            understood &= !reply.misunderstood;
            for text in reply.words.iter().chain(&reply.listing) {
                writeln!(output, "{}", plain(text))?;
            }
            if reply.quits {
                break;
            }
            match reply.shows {
                true => self.show(session, output)?,
                false => writeln!(output)?,
            }
            output.flush()?;
        }
        Ok(understood)
    }

    /// The next line, behind a prompt where it is typed; nothing where the input has ended.
    fn next_line(&self, input: &mut dyn BufRead, output: &mut dyn Write) -> io::Result<Option<String>> {
        if self.is_typed {
            write!(output, "{PROMPT}")?;
            output.flush()?;
        }
        let mut bytes = Vec::new();
        if input.read_until(b'\n', &mut bytes)? > 0 {
            return Ok(Some(plain(String::from_utf8_lossy(&bytes).trim())));
        }
        if self.is_typed {
            writeln!(output)?;
        }
        Ok(None)
    }

    /// The screen, and an empty line behind it.
    fn show(&self, session: &Session, output: &mut dyn Write) -> io::Result<()> {
        for line in screen::lines(&session.portrait(), self.extent, self.size) {
            writeln!(output, "{}", line.text.trim_end())?;
        }
        writeln!(output)
    }
}
