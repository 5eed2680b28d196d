//! The port counts of a walk.

use crate::{raw, Event, Refusal};

/// How many events of each port a walk passed. No count grows beyond 4,294,967,295 (SPECIFICATION 8.8).
///
/// ```
/// use fourport::{Counts, Event, Query};
/// let query = Query::from_bytes([0, 2, 1, 0x10])?;
/// let mut counts = Counts::default();
/// counts.add(&Event::first(&query)?)?;
/// assert_eq!(counts, Counts { call: 1, ..Counts::default() });
/// # Ok::<(), fourport::Refusal>(())
/// ```
#[repr(C)]
#[derive(Clone, Copy, Debug, Default, PartialEq, Eq, Hash)]
pub struct Counts {
    /// calls
    pub call: u32,
    /// exits
    pub exit: u32,
    /// fails
    pub fail: u32,
    /// redos
    pub redo: u32,
}

impl Counts {
    /// Adds the event's port. An [`Event`] has passed the gate, so this is not refused.
    ///
    /// ```
    /// # use fourport::{Counts, Event};
    /// let mut counts = Counts { redo: u32::MAX, ..Counts::default() };
    /// counts.add(&Event::from_bytes([0, 7, 1, 4, 0x10, 0, 0, 0, 0])?)?;
    /// assert_eq!(counts.redo, u32::MAX);
    /// # Ok::<(), fourport::Refusal>(())
    /// ```
    pub fn add(&mut self, event: &Event) -> Result<(), Refusal> {
        Refusal::unless_done(raw::count(self, event.as_bytes()))
    }
}
