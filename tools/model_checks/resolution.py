"""The answers of a walk of 'Q, fail' against those of plain resolution, which takes the locals of each call from a counter. Which numbers the free
variables of an answer have is not compared."""
import itertools

from desk_model.body import definition
from desk_model.substitution import replaced, replaced_all, value
from desk_model.trees import *
from desk_model.unifier import unifier
from model_checks.chance import Chance
from model_checks.walks import events_of

MOST_STEPS = 20000
QUERY_VARIABLES = 3


def answers(program, goal, bets, fresh):
    """each way to prove the goal, as the unifiers so far, the last one first"""
    if isinstance(goal, Truth):
        yield bets
    elif isinstance(goal, Equal):
        found = unifier(value(bets, goal.left), value(bets, goal.right))
        if found is not None:
            yield [found, *bets]
    elif isinstance(goal, Conj):
        for middle in answers(program, goal.first, bets, fresh):
            yield from answers(program, goal.second, middle, fresh)
    elif isinstance(goal, Disj):
        yield from answers(program, goal.first, bets, fresh)
        yield from answers(program, goal.second, bets, fresh)
    elif isinstance(goal, Atom):
        found = definition(program, goal)
        if found is not None:
            new = [Var(next(fresh)) for _ in range(found.locals)]
            yield from answers(program, replaced(found.body, dict(enumerate([*goal.args, *new]))), bets, fresh)


def shown(goal, bets):
    """the values of the goal's variables, with what is free in them numbered as it occurs"""
    values = [value(bets, Var(v)) for v in sorted(variables(goal))]
    return replaced_all(values, {v: Var(i) for i, v in enumerate(in_order(values))})


def compared(chance, most_locals):
    """the answers of a program by chance"""
    program, keys = chance.program(most_locals)
    goal = chance.goal(QUERY_VARIABLES, keys, 3)
    events = events_of(program, Conj(goal, Failure()), MOST_STEPS)
    door = stack([Half(CONJUNCTION, 1, goal, Failure())])
    walked = [shown(goal, e.bets) for e in events if e.port == EXIT and e.goal == goal and e.ancestors == door]
    assert len(events) <= MOST_STEPS and events[-1].port == FAIL and events[-1].ancestors == EMPTY
    assert walked == [shown(goal, bets) for bets in answers(program, goal, [], itertools.count(QUERY_VARIABLES))], goal
    return len(walked)


def answers_of_walks_by_chance():
    for most_locals in 0, 2:
        chance = Chance(5 + most_locals)
        assert sum(compared(chance, most_locals) for _ in range(400)) > 200


GROUPS = answers_of_walks_by_chance,
