//! What training material says of every event of a walk (SPECIFICATION 9.9), asked of the records of the events that a walk comes to.

use crate::records::event::{Event, Port};
use crate::records::goal::{same_goal, GoalRef};
use crate::records::reader;
use std::collections::HashSet;
use std::ops::AddAssign;

/// An event's port stands here in its record.
const PORT_AT: usize = 3;

/// How many events of a walk the sentences are about: fails and redos, which have a call or an exit before them; final ones; those under ancestors.
#[derive(Clone, Copy, Debug, Default, PartialEq, Eq)]
pub struct Examined {
    pub fails: u64,
    pub redos: u64,
    pub finals: u64,
    pub under: u64,
}

impl Examined {
    pub fn each(&self) -> [(&'static str, u64); 4] {
        [
            ("fail with its call", self.fails),
            ("redo with its exit", self.redos),
            ("final event of the query", self.finals),
            ("event under the query", self.under),
        ]
    }
}

impl AddAssign for Examined {
    fn add_assign(&mut self, walk: Examined) {
        self.fails += walk.fails;
        self.redos += walk.redos;
        self.finals += walk.finals;
        self.under += walk.under;
    }
}

/// The number of the event that breaks a sentence, from 0, and how.
pub type Broken = (usize, &'static str);

/// The port of the event that one of this port has before it.
fn port_before(port: Port) -> Option<Port> {
    match port {
        Port::Fail => Some(Port::Call),
        Port::Redo => Some(Port::Exit),
        Port::Call | Port::Exit => None,
    }
}

/// The first event is a call of the query with both stacks empty. Any other has the query at the bottom of its ancestors, without its tag; or none, and
/// then it is final, of the query itself.
fn is_about(query: &GoalRef, number: usize, event: &Event) -> bool {
    match (event.ancestors.bottom(), event.port) {
        (bottom, port) if number == 0 => bottom.is_none() && port == Port::Call && event.bets.count() == 0 && same_goal(&event.goal, query),
        (Some(ancestor), _) => same_goal(ancestor.goal(), query),
        (None, Port::Exit | Port::Fail) => same_goal(&event.goal, query),
        (None, Port::Call | Port::Redo) => false,
    }
}

/// A walk from the first event of a query: each event is examined when the walk comes to it, and a step back leaves it again.
pub struct Examiner {
    query: GoalRef,
    walk: Vec<Vec<u8>>,
    passed: HashSet<Vec<u8>>,
    pub met: Examined,
}

impl Examiner {
    /// Of the walk of a query's record, before its first event.
    pub fn new(query: &[u8]) -> Result<Examiner, Broken> {
        let query = reader::query(query).map_err(|_| (0, "is of no query"))?;
        Ok(Examiner { query, walk: Vec::new(), passed: HashSet::new(), met: Examined::default() })
    }

    /// The walk comes to an event.
    pub fn reach(&mut self, record: &[u8]) -> Result<(), Broken> {
        let number = self.walk.len();
        let event = reader::event(record).map_err(|_| (number, "is no event"))?;
        if !is_about(&self.query, number, &event) {
            return Err((number, "is not about the query"));
        }
        if let Some(port) = port_before(event.port) {
            let mut before = record.to_vec();
            before[PORT_AT] = port as u8;
            if !self.passed.contains(&before) {
                return Err((number, "has no call or exit before it"));
            }
        }
        self.met.fails += u64::from(event.port == Port::Fail);
        self.met.redos += u64::from(event.port == Port::Redo);
        self.met.under += u64::from(event.ancestors.count() > 0);
        self.met.finals += u64::from(event.ancestors.count() == 0 && event.port != Port::Call);
        self.walk.push(record.to_vec());
        self.passed.insert(record.to_vec());
        Ok(())
    }

    /// A step back leaves the event that the walk came to last.
    pub fn leave(&mut self) {
        if let Some(record) = self.walk.pop() {
            self.passed.remove(&record);
        }
    }
}

/// What the events of a walk are, straight on from the first event of a query, or the first that breaks a sentence.
pub fn examined(query: &[u8], walk: &[Vec<u8>]) -> Result<Examined, Broken> {
    let mut examiner = Examiner::new(query)?;
    walk.iter().try_for_each(|record| examiner.reach(record))?;
    Ok(examiner.met)
}
