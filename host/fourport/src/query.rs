//! Query records.

use crate::record::record_type;
use crate::{raw, GoalView, Refusal};
use layout::{conjunction, BODY_AT, FAIL};

record_type! {
    /// A query record that passed questions 11 to 13; a query has no question 14.
    ///
    /// ```
    /// use fourport::{Event, Query};
    /// // V0 = a
    /// let query = Query::from_bytes([0, 9, 1, 0x12, 1, 0, 0, 2, 0, 2, 0])?;
    /// assert_eq!(Event::first(&query)?.as_bytes(), [0, 14, 1, 1, 0x12, 1, 0, 0, 2, 0, 2, 0, 0, 0, 0, 0]);
    /// # Ok::<(), fourport::Refusal>(())
    /// ```
    Query,
    /// The record, if it passes the questions. They are put by the first event; that this may not fit a record is no matter here.
    ///
    /// ```
    /// use fourport::{Query, Refusal, Which};
    /// assert_eq!(Query::from_bytes([0, 2, 1, 0x16]), Err(Refusal::Grammar(Which::Event)));
    /// ```
    puts: raw::first
}

impl Query {
    /// The goal.
    ///
    /// ```
    /// # use fourport::{GoalKind, Query};
    /// let query = Query::from_bytes([0, 2, 1, 0x11])?;
    /// assert_eq!(query.goal().kind(), GoalKind::Fail);
    /// # Ok::<(), fourport::Refusal>(())
    /// ```
    pub fn goal(&self) -> GoalView<'_> {
        GoalView::split(self.0.get(BODY_AT..).unwrap_or_default()).0
    }

    /// The query 'Q, fail', Q being the goal: its walk goes on behind each exit of Q, as that of [`Answers`](crate::Answers) does. Refused by
    /// [`Refusal::Fit`] only.
    ///
    /// ```
    /// # use fourport::{Event, Port, Program, Query};
    /// // true ; true
    /// let query = Query::from_bytes([0, 4, 1, 0x14, 0x10, 0x10])?;
    /// let program = Program::from_bytes([0, 3, 1, 0, 0])?;
    /// let mut walk = program.walk(Event::first(&query.then_fail()?)?);
    /// let is_answer = |event: &Event| event.port() == Port::Exit && event.goal() == query.goal() && event.ancestor_count() == 1;
    /// assert_eq!(walk.forwards().filter(is_answer).count(), 2);
    /// # Ok::<(), fourport::Refusal>(())
    /// ```
    pub fn then_fail(&self) -> Result<Query, Refusal> {
        // of a record that is too long the gate says 1, and the answers of such a query end in 10: the record is a result here
        Query::from_bytes(layout::record(&conjunction(self.goal().as_bytes(), &FAIL))).map_err(|_| Refusal::Fit)
    }

    /// A record that the desk wrote.
    pub(crate) fn written(bytes: Vec<u8>) -> Query {
        Query(bytes)
    }
}
