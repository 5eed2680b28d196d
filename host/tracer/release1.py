"""Whether release 1 would have caught a variable. Its m was one above the highest variable number of goal and ancestors alone, so that a local could
get a number that stood in a bet. The model walks with that m, up to the first event that shows something else than the desk's."""
from unittest import mock

from desk_model import steps
from desk_model.body import body
from desk_model.gate import Refused
from desk_model.substitution import replaced
from desk_model.trees import *
from desk_model.walk import WORDS
from prolog import renamed


def body_of_release_1(program, found):
    return body(program, found['P'], found['U'], EMPTY)


class Bindings:
    """S as one substitution; of two unifiers that bind a variable the lower one counts. Stacks are shared between events, so each is looked at once."""

    def __init__(self):
        self.known = {id(EMPTY): (EMPTY, {})}

    def of(self, bets):
        if id(bets) not in self.known:
            bound = self.of(bets.rest)
            if isinstance(bets.top, Unifier) and bets.top.pairs:
                new = {p.variable: p.term for p in bets.top.pairs}
                bound = {**new, **{v: replaced(t, new) if t.greatest >= 0 else t for v, t in bound.items()}}
            self.known[id(bets)] = bets, bound
        return self.known[id(bets)][1]


def shown(program, goal):
    """port and depth, and the goal under its bets, of each event of release 1's walk"""
    event, bindings = Event(CALL, goal, EMPTY, EMPTY), Bindings()
    try:
        while True:
            yield f'{WORDS[event.port]} {event.ancestors.count}', renamed(replaced(event.goal, bindings.of(event.bets)))
            event = steps.step_forward(program, event)
    except Refused:
        return


def would_have_caught(walk, goal):
    """whether release 1's walk of the goal shows another port, depth or goal than the desk's"""
    desk = list(zip(walk.ports(), walk.goals()))
    with mock.patch.object(steps, 'call_body', body_of_release_1):
        other = shown(walk.program, goal)
        return any(next(other, None) != each for each in desk) or walk.ended() and next(other, None) is not None
