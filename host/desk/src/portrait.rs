//! What is shown of an event. It is made of the garage, the number and the event alone: an event looks the same however one came to it.

use crate::extract::Extract;
use crate::garage::Garage;
use crate::naming::EventNames;
use crate::position::Position;
use fourport::{Event, Port};

/// The most ancestors that a portrait lists.
const MOST_ANCESTORS: usize = 40;

/// What is shown of an event.
#[derive(Clone, Debug, PartialEq, Eq)]
pub struct Portrait {
    pub number: u64,
    pub port: Port,
    /// the goal with values and names, or what it is a part of in words
    pub goal: String,
    /// the rules that the goal stands in
    pub depth: usize,
    pub bets: usize,
    /// an answer, what an equality has bound, or that there is no other answer
    pub note: Option<String>,
    /// the nearest first; not more lines than fit a screen
    pub ancestors: Vec<String>,
    /// how many lines there are in all
    pub ancestor_count: usize,
    /// the variables of the clause that the goal stands in
    pub values: Vec<(String, String)>,
    pub query_values: Vec<(String, String)>,
    pub clause: Option<Extract>,
}

impl Garage {
    pub fn portrait(&self, number: u64, event: &Event) -> Portrait {
        let (position, names) = (Position::of(self, event), EventNames::of(self, event));
        let (ancestors, ancestor_count) = self.ancestors_shown(event, MOST_ANCESTORS);
        Portrait {
            number,
            port: event.port(),
            goal: self.goal_shown(event, &position),
            depth: self.depth(event),
            bets: usize::from(event.bet_count()),
            note: self.note(event),
            ancestors,
            ancestor_count,
            values: self.clause_values(event, &position, &names),
            query_values: self.query_values(event, &names),
            clause: self.extract(&position),
        }
    }
}
