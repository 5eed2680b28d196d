//! Colour, where there is a terminal that shows it.

use crossterm::style::{Attribute, Color, ContentStyle, Stylize};
use std::env;
use std::io::IsTerminal;

/// Whether colour is used.
#[derive(Clone, Copy, Debug, PartialEq, Eq)]
pub struct Style {
    coloured: bool,
}

impl Style {
    pub const PLAIN: Style = Style { coloured: false };

    /// Colour for a stream that is a terminal, unless `NO_COLOR` is set and not empty.
    pub fn of(stream: &impl IsTerminal) -> Style {
        let refused = env::var_os("NO_COLOR").is_some_and(|value| !value.is_empty());
        Style { coloured: stream.is_terminal() && !refused }
    }

    pub fn error(self, text: &str) -> String {
        self.styled(text, ContentStyle::new().with(Color::Red).attribute(Attribute::Bold))
    }

    pub fn warning(self, text: &str) -> String {
        self.styled(text, ContentStyle::new().with(Color::Yellow).attribute(Attribute::Bold))
    }

    /// What a mark stands under, or the mark.
    pub fn marked(self, text: &str) -> String {
        self.styled(text, ContentStyle::new().with(Color::Green).attribute(Attribute::Bold))
    }

    /// What is to be seen first.
    pub fn strong(self, text: &str) -> String {
        self.styled(text, ContentStyle::new().attribute(Attribute::Bold))
    }

    /// What may be passed over.
    pub fn quiet(self, text: &str) -> String {
        self.styled(text, ContentStyle::new().attribute(Attribute::Dim))
    }

    fn styled(self, text: &str, style: ContentStyle) -> String {
        if self.coloured {
            style.apply(text).to_string()
        } else {
            text.into()
        }
    }
}
