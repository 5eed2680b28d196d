//! How long the walk is, as the screen says it.

use crate::garage::Garage;
use crate::status::grouped;
use fourport::{Direction, Refusal};

/// The most steps that are counted.
const MOST_COUNTED: u32 = 100_000;

/// The number of the walk's last event, as far as it was counted.
#[derive(Clone, Debug, PartialEq, Eq)]
pub struct Extent {
    words: String,
    /// the last event of which the words say something
    last: u64,
}

impl Extent {
    /// Found once, by one run, so that it depends on rules and query alone.
    pub fn of(garage: &Garage) -> Extent {
        let (words, last) = match garage.program.run(garage.first(), MOST_COUNTED + 1, Direction::Forward) {
            Err(_) => (String::new(), 0),
            Ok(run) if run.taken > MOST_COUNTED => (format!(" of more than {}", grouped(MOST_COUNTED.into())), MOST_COUNTED.into()),
            Ok(run) => {
                let last = grouped(run.taken.into());
                let refused = run.stopped.filter(|&refusal| refusal != Refusal::Walk);
                let why = refused.map(|refusal| format!(", where question {} stops it", refusal.number())).unwrap_or_default();
                (format!(" of {last}{why}"), run.taken.into())
            }
        };
        Extent { words, last }
    }

    /// What stands behind the number of an event; nothing where the event is beyond those that were counted.
    pub fn behind(&self, number: u64) -> &str {
        if number > self.last {
            ""
        } else {
            &self.words
        }
    }
}

#[cfg(test)]
impl Extent {
    pub fn counted(words: &str, last: u64) -> Extent {
        Extent { words: words.into(), last }
    }
}
