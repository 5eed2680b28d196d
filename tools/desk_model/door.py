"""Back to the door of a goal: steps back from an event to the nearest one, itself included, that calls the same goal with the same ancestors
(SPECIFICATION 8.13)."""
from desk_model.gate import Refused, ask
from desk_model.services import questioned
from desk_model.steps import step_back
from desk_model.trees import *
from desk_model.writer import record


def is_door(event, given):
    """tags are part of the ancestors; the bets may be any"""
    return event.port == CALL and event.goal == given.goal and event.ancestors == given.ancestors


def door(program_record, event_record, limit, room):
    """the number, the steps back made, and the record of the event reached"""
    try:
        program, given = questioned(program_record, event_record, room)
    except Refused as no:
        return no.number, 0, None
    event, taken = given, 0
    try:
        while not is_door(event, given):
            # 32 is put after all questions of the step back
            before = step_back(program, event)
            ask(32, taken < limit)
            event, taken = before, taken + 1
        return 0, taken, record(event)
    except Refused as no:
        return no.number, taken, record(event)
