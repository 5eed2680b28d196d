"""The services on bytes. Each gives its number and, where one is written, the record; room is the length of the lent output."""
from desk_model import gate
from desk_model.body import definition
from desk_model.gate import Refused, record_fits
from desk_model.steps import step_back, step_forward
from desk_model.substitution import value
from desk_model.trees import *
from desk_model.writer import record, written

FORWARD, BACK = step_forward, step_back
GREATEST_COUNT = 4294967295


def first_event(query_record, room):
    try:
        goal = gate.query(query_record)
        gate.room_enough(room)
        event = Event(CALL, goal, EMPTY, EMPTY)
        record_fits(event.length)
        return 0, record(event)
    except Refused as no:
        return no.number, None


def questioned(program_record, event_record, room):
    program, event = gate.program(program_record), gate.event(event_record)
    gate.room_enough(room)
    return program, event


def step(direction, program_record, event_record, room):
    try:
        return 0, record(direction(*questioned(program_record, event_record, room)))
    except Refused as no:
        return no.number, None


def run(direction, program_record, event_record, steps, room):
    """the number, the steps taken, and the record"""
    try:
        program, event = questioned(program_record, event_record, room)
    except Refused as no:
        return no.number, 0, None
    for taken in range(steps):
        try:
            event = direction(program, event)
        except Refused as no:
            return no.number, taken, record(event)
    return 0, steps, record(event)


def variable_value(event_record, variable, room):
    """the number and the bare bytes of S(v)"""
    try:
        event = gate.event(event_record)
        gate.room_enough(room)
        return 0, written(value(event.bets, Var(variable)))
    except Refused as no:
        return no.number, None


def lookup(program_record, event_record):
    """the place of the definition in the program record and its length; (0, 0) for the empty part"""
    try:
        program, event = gate.program(program_record), gate.event(event_record)
    except Refused:
        return 0, 0
    found = definition(program, event.goal) if isinstance(event.goal, Atom) else None
    if found is None:
        return 0, 0
    return 5 + sum(d.length for d in program[:program.index(found)]), found.length


def count(event_record, counts):
    """the number and the four counts: calls, exits, fails, redos"""
    try:
        port = gate.event(event_record).port
    except Refused as no:
        return no.number, counts
    counts = list(counts)
    counts[port - CALL] = min(counts[port - CALL] + 1, GREATEST_COUNT)
    return 0, tuple(counts)


def greatest(event_record):
    """the number, the first of bets, goal and ancestors (1, 2, 3) that holds the greatest variable, and that variable; 0 and 0 where there is none"""
    try:
        event = gate.event(event_record)
    except Refused as no:
        return no.number, 0, 0
    parts = event.bets.greatest, event.goal.greatest, event.ancestors.greatest
    most = max(parts)
    return (0, 0, 0) if most < 0 else (0, 1 + parts.index(most), most)
