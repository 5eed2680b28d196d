//! Ways of a walk to an event that is looked for.

use crate::{Event, Refusal, Walk};

impl Walk<'_> {
    /// Forward to the next event that is met by `met`, by at most so many steps. Gives whether it was found: where not, the steps are spent. The event
    /// at which the walk stands is not looked at. An error is what refused the next step. In each case the walk stands at the last event it came to.
    ///
    /// Each step is a call of its own: see the [cost](Walk#cost). [`Event::goal`] is the goal as it stands in the query or in a definition; where the
    /// values of its variables matter, look at [`Event::goal_value`].
    ///
    /// ```
    /// # use fourport::{Clauses, Event, Port, Query, Refusal};
    /// let rules = "light(bay1, red). light(bay2, green).";
    /// let program = Clauses::from_text(rules)?.0.canonical()?;
    /// let (query, names) = Query::from_text(rules, "light(bay2, Light)")?;
    /// let mut walk = program.walk(Event::first(&query)?);
    /// assert!(walk.forward_until(1_000, |event| event.port() == Port::Fail)?);
    /// assert_eq!((walk.net(), walk.event().shown(&names).to_string()), (4, "fail bay2 = bay1".into()));
    /// assert!(!walk.forward_until(1, |event| event.port() == Port::Exit)?);
    /// assert_eq!(walk.forward_until(1_000, |event| event.port() == Port::Redo), Err(Refusal::Walk));
    /// assert_eq!(walk.event().shown(&names).to_string(), "exit light(bay2, Light)");
    /// # Ok::<(), Box<dyn std::error::Error>>(())
    /// ```
    pub fn forward_until(&mut self, limit: u64, met: impl FnMut(&Event) -> bool) -> Result<bool, Refusal> {
        self.until(limit, met, Walk::forward)
    }

    /// Back to the nearest event before this one that is met by `met`: as [`Walk::forward_until`].
    ///
    /// Back to the call of a goal, by its value. It is read in one text with the query, for its names ([`Names`](crate::Names)).
    ///
    /// ```
    /// # use fourport::{Clauses, Direction, Event, GoalKind, Port, Query};
    /// let rules = "cable(left). cable(right). lamp(Side) :- cable(Side).";
    /// let program = Clauses::from_text(rules)?.0.canonical()?;
    /// let (query, _) = Query::from_text(rules, "lamp(left), lamp(right)")?;
    /// let (both, names) = Query::from_text(rules, "(lamp(left), lamp(right)), cable(left)")?;
    /// let GoalKind::Conjunction(_, goal) = both.goal().kind() else { panic!("a conjunction") };
    /// let mut walk = program.walk(Event::first(&query)?);
    /// walk.run(u32::MAX, Direction::Forward)?;
    /// let calls = |event: &Event| event.port() == Port::Call && event.goal_value().is_ok_and(|value| value.view() == goal);
    /// assert!(walk.back_until(1_000, calls)?);
    /// assert_eq!((walk.net(), walk.event().shown(&names).to_string()), (5, "call cable(V0)".into()));
    /// # Ok::<(), Box<dyn std::error::Error>>(())
    /// ```
    ///
    /// There are two ways of not being found, and the walk has moved in both: the steps are spent, `Ok(false)`, or the way back has ended at the first
    /// event, `Err(Refusal::Walk)`.
    ///
    /// ```
    /// # use fourport::{Event, Port, Program, Query, Refusal};
    /// let program = Program::from_bytes([0, 3, 1, 0, 0])?;
    /// // true, true
    /// let mut walk = program.walk(Event::first(&Query::from_bytes([0, 4, 1, 0x13, 0x10, 0x10])?)?);
    /// walk.forwards().for_each(drop);
    /// assert!(walk.back_until(1_000, |event| event.port() == Port::Call)?);
    /// assert_eq!(walk.net(), 3);
    /// assert_eq!((walk.back_until(2, |event| event.port() == Port::Fail), walk.net()), (Ok(false), 1));
    /// assert_eq!((walk.back_until(2, |event| event.port() == Port::Fail), walk.net()), (Err(Refusal::Walk), 0));
    /// # Ok::<(), Refusal>(())
    /// ```
    pub fn back_until(&mut self, limit: u64, met: impl FnMut(&Event) -> bool) -> Result<bool, Refusal> {
        self.until(limit, met, Walk::back)
    }

    fn until(&mut self, limit: u64, mut met: impl FnMut(&Event) -> bool, step: fn(&mut Self) -> Result<&Event, Refusal>) -> Result<bool, Refusal> {
        for _ in 0..limit {
            if met(step(self)?) {
                return Ok(true);
            }
        }
        Ok(false)
    }

    /// Back to the event at which the variable was bound, the exit of an equality: the nearest one, itself included, with an event before it in which
    /// the variable is not bound. Gives false, and does not move, where it is not bound here. An error is what refused a step back, which of an event
    /// that a walk reaches none does; the walk then stands at the last event it came to.
    ///
    /// A variable may be bound to another variable first. To find where it got the value that it has now, take its value at the event found; while
    /// that is a variable, go back to the binding of that one, from the same place as before.
    ///
    /// ```
    /// # use fourport::{Clauses, Direction, Event, Query, Refusal, TermKind, Walk};
    /// fn back_to_value(walk: &mut Walk, mut v: u16) -> Result<bool, Refusal> {
    ///     let here = walk.clone();
    ///     while walk.back_to_binding(v)? {
    ///         match walk.event().value(v)?.view().kind() {
    ///             TermKind::Variable(other) => v = other,
    ///             TermKind::Symbol(..) => return Ok(true),
    ///         }
    ///         *walk = here.clone();
    ///     }
    ///     Ok(false)
    /// }
    ///
    /// let program = Clauses::from_text("")?.0.canonical()?;
    /// let (query, names) = Query::from_text("", "X = Y, X = red")?;
    /// let mut walk = program.walk(Event::first(&query)?);
    /// walk.run(u32::MAX, Direction::Forward)?;
    /// let (mut bound, y) = (walk.clone(), names.variable_number("Y").unwrap());
    /// assert!(bound.back_to_binding(y)? && back_to_value(&mut walk, y)?);
    /// assert_eq!(bound.event().shown(&names).to_string(), "exit X = Y");
    /// assert_eq!(walk.event().shown(&names).to_string(), "exit X = red");
    /// # Ok::<(), Box<dyn std::error::Error>>(())
    /// ```
    ///
    /// ```
    /// # use fourport::{Clauses, Event, Query};
    /// let rules = "bay(bay1). bay(bay2). light(Bay, red) :- bay(Bay).";
    /// let program = Clauses::from_text(rules)?.0.canonical()?;
    /// let (query, names) = Query::from_text(rules, "light(Bay, Light), Bay = bay2")?;
    /// let mut walk = program.walk(Event::first(&query)?);
    /// walk.forwards().for_each(drop);
    /// let light = names.variable_number("Light").unwrap();
    /// assert!(walk.back_to_binding(light)?);
    /// assert_eq!((walk.net(), walk.event().shown(&names).to_string()), (7, "exit Light = red".into()));
    /// walk.back()?;
    /// assert!(!walk.back_to_binding(light)?);
    /// # Ok::<(), Box<dyn std::error::Error>>(())
    /// ```
    pub fn back_to_binding(&mut self, v: u16) -> Result<bool, Refusal> {
        if !self.event().is_bound(v) {
            return Ok(false);
        }
        self.back_until(u64::MAX, |event| !event.is_bound(v))?;
        self.forward().map(|_| true)
    }
}
