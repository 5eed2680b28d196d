"""The table of cases: each has words, its four fields as they stand on standard input, and the answer that was worked out by hand, or None.

A hand-made answer is the number, the steps back made and the record of the event reached, None where nothing is written; a bare number stands for any
answer with it.
"""
from desk_model.services import FORWARD, first_event, step
from step_cases.table import CALL, EXIT, FAILS, NO_DEFINITIONS, REDO, ROOM, at, number, program
from stored.layout import *
from stored.table import Table

MOST = 4294967295
PORT = 3  # the place of the port in an event's record
MOST_ROOM = 40000
cases = Table()
heading = cases.heading


def asked(words, program_record, event_record, limit=MOST, room=ROOM, want=None):
    assert room <= MOST_ROOM and len(program_record) <= 40000 and len(event_record) <= 40000, words
    cases.case(words, (program_record, event_record, number(limit), number(room)), want)


def events(program_record, goal, most):
    """the records of a query's walk, its first event and at most so many behind it"""
    made = [first_event(record(goal), ROOM)[1]]
    while len(made) <= most:
        refused, following = step(FORWARD, program_record, made[-1], ROOM)
        if refused:
            break
        made.append(following)
    return made


def door_at(words, program_record, walk, n, door, limit=MOST):
    """event n of a walk, whose door is an earlier one or itself"""
    asked(f'{words}, event {n}', program_record, walk[n], limit, want=(0, n - door, walk[door]))


def spent_at(words, program_record, walk, n, limit):
    """event n of a walk, with a limit under which its door is not met"""
    asked(f'{words}, event {n}, limit {limit}', program_record, walk[n], limit, want=(32, limit, walk[n - limit]))
