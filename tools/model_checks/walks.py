"""Walks by chance: every step back gives the event before, a mixture of steps ends where its count says, and a run is its single steps."""
from desk_model.gate import Refused
from desk_model.services import BACK, FORWARD, run, step
from desk_model.steps import step_back, step_forward
from desk_model.trees import *
from desk_model.writer import listed_record, record
from model_checks.chance import Chance

ROOM = 32768


def stepped(direction, program, event):
    try:
        return direction(program, event)
    except Refused:
        return None


def events_of(program, goal, most):
    events = [Event(CALL, goal, EMPTY, EMPTY)]
    while len(events) <= most:
        following = stepped(step_forward, program, events[-1])
        if following is None:
            break
        assert step_back(program, following) == events[-1], following
        events.append(following)
    return events


def mixtures_of_steps():
    chance = Chance(2)
    for _ in range(300):
        program, keys = chance.program(2)
        events = events_of(program, chance.goal(3, keys, 3), 120)
        at = 0
        for _ in range(60):
            ahead = chance.random() < 0.6
            if 0 <= at + (1 if ahead else -1) < len(events):
                event = (step_forward if ahead else step_back)(program, events[at])
                at += 1 if ahead else -1
                assert event == events[at]


def runs_and_their_single_steps():
    chance = Chance(3)
    for _ in range(60):
        program, keys = chance.program(2)
        data = listed_record(program)
        event = record(Event(CALL, chance.goal(3, keys, 3), EMPTY, EMPTY))
        for direction in FORWARD, BACK:
            steps = chance.randint(0, 60)
            number, taken, reached = run(direction, data, event, steps, ROOM)
            for _ in range(taken):
                assert step(direction, data, event, ROOM)[0] == 0
                event = step(direction, data, event, ROOM)[1]
            assert event == reached and (number == 0) == (taken == steps)
            assert number == 0 or step(direction, data, event, ROOM) == (number, None)


def events_by_chance():
    """any event that steps back comes from an event that steps to it"""
    chance, met = Chance(4), 0
    for _ in range(20000):
        program, keys = chance.program(1)
        event = chance.event(keys)
        source = stepped(step_back, program, event)
        if source is not None:
            met += 1
            assert step_forward(program, source) == event
    assert met > 1000


GROUPS = mixtures_of_steps, runs_and_their_single_steps, events_by_chance
