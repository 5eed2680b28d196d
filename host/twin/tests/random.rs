//! Random equalities against the textbook's unifier, and random walks: a run equals single steps, steps back find the events again, and every fail has
//! its call, every redo its exit.

use layout::*;
use std::collections::BTreeMap;
use twin::gate::RECORD_LIMIT as ROOM;
use twin::records::{reader, writer, Shape, Term, TermRef};
use twin::rules::Direction::{Back, Forward};
use twin::services::{back, first, forward, run, Reply};
use twin::terms::unifier::unifier as unify;
use twin::training::{examined, Examined, Examiner};

/// Numbers by a fixed rule, the same in each test run.
struct Dice(u64);

impl Dice {
    fn below(&mut self, most: u64) -> u64 {
        self.0 = self.0.wrapping_mul(6_364_136_223_846_793_005).wrapping_add(1_442_695_040_888_963_407);
        (self.0 >> 33) % most
    }

    fn term(&mut self, depth: u64, variables: u64) -> Vec<u8> {
        match self.below(if depth == 0 { 3 } else { 6 }) {
            0 => symbol(self.below(2) as u16, &[]),
            1 | 2 => variable(self.below(variables) as u16),
            _ => {
                let arguments: Vec<Vec<u8>> = (0..1 + self.below(2)).map(|_| self.term(depth - 1, variables)).collect();
                symbol(6, &arguments)
            }
        }
    }

    fn goal(&mut self, depth: u64, variables: u64) -> Vec<u8> {
        match self.below(if depth == 0 { 6 } else { 10 }) {
            0 => TRUE.to_vec(),
            1 => FAIL.to_vec(),
            2 | 3 => equality(&self.term(2, variables), &self.term(2, variables)),
            4 | 5 => atom(self.below(4) as u16, &[self.term(1, variables)]),
            6 | 7 => conjunction(&self.goal(depth - 1, variables), &self.goal(depth - 1, variables)),
            _ => disjunction(&self.goal(depth - 1, variables), &self.goal(depth - 1, variables)),
        }
    }
}

type Bindings = BTreeMap<u16, TermRef>;

fn resolved(term: &TermRef, bindings: &Bindings) -> TermRef {
    match term.shape() {
        Shape::Variable(variable) => bindings.get(variable).map_or_else(|| term.clone(), |bound_to| resolved(bound_to, bindings)),
        Shape::Symbol(symbol, arguments) => Term::symbol(*symbol, arguments.iter().map(|part| resolved(part, bindings)).collect()),
    }
}

fn occurs(variable: u16, term: &TermRef) -> bool {
    let mut met = false;
    term.each_variable(|other| met |= other == variable);
    met
}

/// The textbook: solve one equation after another, each under the bindings so far; of two variables the higher is bound.
fn textbook(left: &TermRef, right: &TermRef, bindings: &mut Bindings) -> bool {
    let (left, right) = (resolved(left, bindings), resolved(right, bindings));
    match (left.shape(), right.shape()) {
        (Shape::Variable(v), Shape::Variable(w)) if v == w => true,
        (Shape::Variable(v), Shape::Variable(w)) if v < w => bindings.insert(*w, left.clone()).is_none(),
        (Shape::Variable(v), _) => !occurs(*v, &right) && bindings.insert(*v, right.clone()).is_none(),
        (_, Shape::Variable(w)) => !occurs(*w, &left) && bindings.insert(*w, left.clone()).is_none(),
        (Shape::Symbol(f, x), Shape::Symbol(g, y)) => f == g && x.len() == y.len() && x.iter().zip(y).all(|(s, t)| textbook(s, t, bindings)),
    }
}

fn bytes(term: &TermRef) -> Vec<u8> {
    let mut out = Vec::new();
    writer::term(&mut out, term);
    out
}

#[test]
fn unifiers() {
    let (mut dice, mut found) = (Dice(1), 0);
    for _ in 0..20_000 {
        let goal = reader::query(&record(&equality(&dice.term(4, 5), &dice.term(4, 5)))).expect("a query");
        let mut terms = Vec::new();
        goal.each_term(|term| terms.push(term.clone()));
        let mut bindings = Bindings::new();
        let want = textbook(&terms[0], &terms[1], &mut bindings)
            .then(|| bindings.iter().map(|(&v, term)| (v, bytes(&resolved(term, &bindings)))).collect::<Vec<_>>());
        let got = unify(&terms[0], &terms[1]).map(|unifier| unifier.pairs().iter().map(|(v, term)| (*v, bytes(term))).collect::<Vec<_>>());
        assert_eq!(got, want, "{:?} = {:?}", bytes(&terms[0]), bytes(&terms[1]));
        found += u32::from(got.is_some());
    }
    println!("{found} of 20000 have a unifier");
}

#[test]
fn walks() {
    let (mut dice, mut total, mut met) = (Dice(2), 0, Examined::default());
    for _ in 0..1_000 {
        let program = program(&[0, 1, 2].map(|predicate| definition(predicate, 1, 2, &dice.goal(3, 3))));
        let query = record(&dice.goal(3, 3));
        let start = first(&query, ROOM).bytes;
        let mut events = vec![start];
        let stopped = loop {
            let next = forward(&program, &events[events.len() - 1], ROOM);
            if next.number != 0 || events.len() > 100 {
                break next.number;
            }
            events.push(next.bytes);
        };
        let (steps, last) = (events.len() as u32 - 1, &events[events.len() - 1]);
        let there = run(&program, &events[0], steps + u32::from(stopped != 0), Forward, ROOM);
        assert_eq!((there.number, there.steps, &there.bytes), (stopped, steps, last));
        for pair in events.windows(2).rev() {
            assert_eq!(back(&program, &pair[1], ROOM).bytes, pair[0]);
        }
        met += examined(&query, &events).expect("what training material says");
        let again = run(&program, last, u32::MAX, Back, ROOM);
        assert_eq!((again.number, again.steps, &again.bytes), (6, steps, &events[0]));
        total += steps;
    }
    println!("{total} steps forward and back");
    met.each().into_iter().for_each(|(what, count)| assert!(count > 0, "{what}"));
}

/// The walk of true,fail, and lists of events that are no walk: one that lacks the call or the exit of a later event, or has it with other ancestors or
/// bets, or has an event of another query, or one that no walk comes to; `examined` says which.
#[test]
fn walks_that_are_none() {
    let none = program(&[]);
    let walked = |query: &[u8]| {
        let mut events = vec![first(&record(query), ROOM).bytes];
        while let Reply { number: 0, bytes } = forward(&none, &events[events.len() - 1], ROOM) {
            events.push(bytes);
        }
        events
    };
    let goal = conjunction(&TRUE, &FAIL);
    let (query, walk, one, two) = (record(&goal), walked(&goal), walked(&TRUE), walked(&conjunction(&TRUE, &TRUE)));
    assert_eq!(examined(&query, &walk), Ok(Examined { fails: 3, redos: 1, finals: 1, under: 6 }));
    let without = |number: usize| examined(&query, &[&walk[..number], &walk[number + 1..]].concat());
    let alone = |number| Err((number, "has no call or exit before it"));
    assert_eq!(without(1), alone(5));
    assert_eq!(without(2), alone(4));
    let then = |number: usize, event: Vec<u8>| examined(&query, &[&walk[..number], &[event]].concat());
    let halves = [1, 2].map(|tag| half(IN_CONJUNCTION, tag, &TRUE, &FAIL));
    assert_eq!(then(4, event(port::FAIL, &FAIL, &halves[1..], &[or(1)])), alone(4), "called with other bets");
    assert_eq!(then(3, event(port::FAIL, &TRUE, &halves[1..], &[])), alone(3), "called under another ancestor");
    assert_eq!(then(5, event(port::REDO, &TRUE, &halves[..1], &[or(1)])), alone(5), "exited with other bets");
    assert_eq!(then(5, event(port::REDO, &TRUE, &halves[1..], &[])), alone(5), "exited under another ancestor");
    let strange = Err((3, "is not about the query"));
    assert_eq!(then(3, one[1].clone()), strange, "the end of another query");
    assert_eq!(then(3, two[1].clone()), strange, "under another query");
    assert_eq!(then(3, walk[0].clone()), strange, "the first event once more");
    assert_eq!(then(3, event(port::REDO, &goal, &[], &[])), strange, "a redo without ancestors");
    let first_strange = Err((0, "is not about the query"));
    assert_eq!(examined(&query, &walk[1..]), first_strange, "no first event");
    assert_eq!(examined(&query, &[event(port::EXIT, &goal, &[], &[])]), first_strange, "an end first");
    assert_eq!(examined(&record(&TRUE), &walk), first_strange, "the walk of another query");
}

/// A step back leaves an event: what was passed by it alone is not before the next one.
#[test]
fn left_by_a_step_back() {
    let goal = disjunction(&TRUE, &TRUE);
    let (query, none) = (record(&goal), program(&[]));
    let mut events = vec![first(&query, ROOM).bytes];
    while let Reply { number: 0, bytes } = forward(&none, &events[events.len() - 1], ROOM) {
        events.push(bytes);
    }
    let mut examiner = Examiner::new(&query).expect("a query");
    events.iter().try_for_each(|record| examiner.reach(record)).expect("a walk");
    // back to the first event, and the exit of a half without its call
    (1..events.len()).for_each(|_| examiner.leave());
    let mut redo = events[2].clone();
    redo[3] = port::REDO;
    assert_eq!(examiner.reach(&redo), Err((1, "has no call or exit before it")));
    assert_eq!(examiner.reach(&events[1]), Ok(()));
}
