//! From bytes to trees: questions 1 to 4. The grammar reads the whole record before the order, variable and pair rules are looked at.

use super::ancestors::{Ancestor, Ancestors};
use super::bets::{Bet, Bets, Unifier};
use super::event::{Event, Port};
use super::goal::{Goal, GoalRef, GoalShape, Half};
use super::program::{Clause, Definition, Program};
use super::term::{Term, TermRef};
use crate::gate::{Question, RECORD_LIMIT};

type Read<T> = Result<T, Question>;

/// The bytes of a record and the place of the next one to be read.
struct Reader<'a> {
    bytes: &'a [u8],
    at: usize,
}

/// Questions 1 and 2; the reader stands at the body.
fn opened(record: &[u8]) -> Read<Reader<'_>> {
    if record.len() < 3 || record.len() > RECORD_LIMIT || usize::from(record[0]) * 256 + usize::from(record[1]) != record.len() - 2 {
        return Err(Question::Frame);
    }
    if record[2] != 1 {
        return Err(Question::Version);
    }
    Ok(Reader { bytes: record, at: 3 })
}

/// A body read to its last byte: question 3.
fn body<'a, T>(record: &'a [u8], read: impl FnOnce(&mut Reader<'a>) -> Read<T>) -> Read<T> {
    let mut reader = opened(record)?;
    let tree = read(&mut reader)?;
    if reader.at == record.len() {
        Ok(tree)
    } else {
        Err(Question::Grammar)
    }
}

/// Question 4.
fn kept<T>(tree: T, rules: impl FnOnce(&T) -> bool) -> Read<T> {
    if rules(&tree) {
        Ok(tree)
    } else {
        Err(Question::Rules)
    }
}

pub fn query(record: &[u8]) -> Read<GoalRef> {
    body(record, Reader::goal)
}

pub fn event(record: &[u8]) -> Read<Event> {
    kept(body(record, Reader::event)?, |event| {
        event.bets.top_first().all(|bet| match bet {
            Bet::Unifier(unifier) => pairs_kept(unifier.pairs()),
            Bet::Or(_) | Bet::By(_) => true,
        })
    })
}

pub fn program(record: &[u8]) -> Read<Program> {
    kept(body(record, Reader::program)?, |program| {
        let rise = program.definitions.windows(2).all(|d| (d[0].predicate, d[0].arity) < (d[1].predicate, d[1].arity));
        rise && program.definitions.iter().all(|d| d.goal.above() <= u32::from(d.arity) + u32::from(d.locals))
    })
}

pub fn clauses(record: &[u8]) -> Read<Vec<Clause>> {
    kept(body(record, Reader::clauses)?, |clauses| clauses.iter().all(variables_kept))
}

/// Pairs rise strictly by variable, and no pair's term contains a bound variable.
fn pairs_kept(pairs: &[(u16, TermRef)]) -> bool {
    let rise = pairs.windows(2).all(|two| two[0].0 < two[1].0);
    let bound = |variable| pairs.binary_search_by_key(&variable, |pair| pair.0).is_ok();
    rise && pairs.iter().all(|(_, term)| {
        let mut free = true;
        term.each_variable(|variable| free &= !bound(variable));
        free
    })
}

/// The variables in head and body are those with a number below v: each of them occurs, and no other does (SPECIFICATION 1.10).
fn variables_kept(clause: &Clause) -> bool {
    let mut met = 0u128;
    let mut meet = |term: &TermRef| term.each_variable(|variable| met |= 1 << variable.min(64));
    clause.head.iter().for_each(&mut meet);
    clause.goal.each_term(&mut meet);
    met == (1u128 << clause.variables) - 1
}

impl Reader<'_> {
    fn byte(&mut self) -> Read<u8> {
        let byte = *self.bytes.get(self.at).ok_or(Question::Grammar)?;
        self.at += 1;
        Ok(byte)
    }

    /// A byte that is at most `most`.
    fn small(&mut self, most: u8) -> Read<u8> {
        let byte = self.byte()?;
        if byte <= most {
            Ok(byte)
        } else {
            Err(Question::Grammar)
        }
    }

    fn number(&mut self) -> Read<u16> {
        Ok(u16::from_be_bytes([self.byte()?, self.byte()?]))
    }

    fn tag(&mut self) -> Read<Half> {
        match self.byte()? {
            1 => Ok(Half::First),
            2 => Ok(Half::Second),
            _ => Err(Question::Grammar),
        }
    }

    fn term(&mut self) -> Read<TermRef> {
        // the symbols whose arguments are being read, each with its arity
        let mut open: Vec<(u16, usize, Vec<TermRef>)> = Vec::new();
        loop {
            let mut done = match self.byte()? {
                0x01 => Term::variable(self.number()?),
                0x02 => {
                    let (symbol, arity) = (self.number()?, usize::from(self.small(16)?));
                    if arity > 0 {
                        open.push((symbol, arity, Vec::with_capacity(arity)));
                        continue;
                    }
                    Term::symbol(symbol, Vec::new())
                }
                _ => return Err(Question::Grammar),
            };
            loop {
                let Some((symbol, arity, mut arguments)) = open.pop() else { return Ok(done) };
                arguments.push(done);
                if arguments.len() < arity {
                    open.push((symbol, arity, arguments));
                    break;
                }
                done = Term::symbol(symbol, arguments);
            }
        }
    }

    fn terms(&mut self, count: u8) -> Read<Vec<TermRef>> {
        (0..count).map(|_| self.term()).collect()
    }

    /// The rest of an atom, after its kind.
    fn atom(&mut self) -> Read<GoalRef> {
        let (predicate, arity) = (self.number()?, self.small(16)?);
        Ok(Goal::new(GoalShape::Atom(predicate, self.terms(arity)?)))
    }

    fn goal(&mut self) -> Read<GoalRef> {
        // the conjunctions and disjunctions whose halves are being read, each with its first half once that is there
        let mut open: Vec<(bool, Option<GoalRef>)> = Vec::new();
        loop {
            let mut done = match self.byte()? {
                0x10 => Goal::new(GoalShape::True),
                0x11 => Goal::new(GoalShape::Fail),
                0x12 => Goal::new(GoalShape::Equality(self.term()?, self.term()?)),
                kind @ (0x13 | 0x14) => {
                    open.push((kind == 0x13, None));
                    continue;
                }
                0x15 => self.atom()?,
                _ => return Err(Question::Grammar),
            };
            loop {
                match open.pop() {
                    None => return Ok(done),
                    Some((both, None)) => {
                        open.push((both, Some(done)));
                        break;
                    }
                    Some((true, Some(first))) => done = Goal::new(GoalShape::Conjunction(first, done)),
                    Some((false, Some(first))) => done = Goal::new(GoalShape::Disjunction(first, done)),
                }
            }
        }
    }

    fn ancestor(&mut self) -> Read<Ancestor> {
        match self.byte()? {
            0x15 => Ok(Ancestor::Atom(self.atom()?)),
            0x30 => Ok(Ancestor::Join(self.tag()?, Goal::new(GoalShape::Conjunction(self.goal()?, self.goal()?)))),
            0x31 => Ok(Ancestor::Join(self.tag()?, Goal::new(GoalShape::Disjunction(self.goal()?, self.goal()?)))),
            _ => Err(Question::Grammar),
        }
    }

    fn bet(&mut self) -> Read<Bet> {
        match self.byte()? {
            0x20 => Ok(Bet::Unifier(Unifier::new(self.listed(|r| Ok((r.number()?, r.term()?)))?))),
            0x21 => Ok(Bet::Or(self.tag()?)),
            0x22 => Ok(Bet::By(self.goal()?)),
            _ => Err(Question::Grammar),
        }
    }

    /// A two-byte count and that many parts.
    fn listed<T>(&mut self, mut part: impl FnMut(&mut Self) -> Read<T>) -> Read<Vec<T>> {
        let count = self.number()?;
        (0..count).map(|_| part(self)).collect()
    }

    fn event(&mut self) -> Read<Event> {
        let port = match self.byte()? {
            1 => Port::Call,
            2 => Port::Exit,
            3 => Port::Fail,
            4 => Port::Redo,
            _ => return Err(Question::Grammar),
        };
        let goal = self.goal()?;
        let mut ancestors = Ancestors::default();
        self.listed(Self::ancestor)?.into_iter().rev().for_each(|ancestor| ancestors.push(ancestor));
        let mut bets = Bets::default();
        self.listed(Self::bet)?.into_iter().rev().for_each(|bet| bets.push(bet));
        Ok(Event { port, goal, ancestors, bets })
    }

    fn program(&mut self) -> Read<Program> {
        let definitions = self.listed(|r| {
            let start = r.at;
            let (predicate, arity, locals, goal) = (r.number()?, r.small(16)?, r.byte()?, r.goal()?);
            Ok(Definition { predicate, arity, locals, goal, place: start..r.at })
        })?;
        Ok(Program { definitions })
    }

    fn clauses(&mut self) -> Read<Vec<Clause>> {
        self.listed(|r| {
            let (predicate, arity, variables) = (r.number()?, r.small(16)?, r.small(64)?);
            Ok(Clause { predicate, variables, head: r.terms(arity)?, goal: r.goal()? })
        })
    }
}
