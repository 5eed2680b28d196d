//! What a command gives back.

/// Words, a listing, and what is to be shown.
#[derive(Clone, Debug, Default, PartialEq, Eq)]
pub struct Reply {
    /// a line about what happened
    pub words: Option<String>,
    /// what was asked for, as many lines as it has
    pub listing: Vec<String>,
    /// whether the screen is to be shown
    pub shows: bool,
    /// whether the command could not be understood
    pub misunderstood: bool,
    pub quits: bool,
}

impl Reply {
    pub fn said(words: impl Into<String>) -> Reply {
        Reply { words: Some(words.into()), ..Reply::default() }
    }

    pub fn misunderstood(words: impl Into<String>) -> Reply {
        Reply { misunderstood: true, ..Reply::said(words) }
    }

    pub fn listed(listing: Vec<String>) -> Reply {
        Reply { listing, ..Reply::default() }
    }

    pub fn screen() -> Reply {
        Reply { shows: true, ..Reply::default() }
    }

    pub fn quit() -> Reply {
        Reply { quits: true, ..Reply::default() }
    }

    /// A move; where it led nowhere, the screen is as it was.
    pub fn of_a_move(words: Option<String>, moved: bool) -> Reply {
        Reply { words, shows: moved, ..Reply::default() }
    }
}
