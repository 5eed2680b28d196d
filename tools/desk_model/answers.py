"""Every answer of a query Q, and what gave it: the walk of 'Q, fail', with an answer at each exit of Q whose only ancestor is 1/Q,fail
(SPECIFICATION 8.12)."""
from desk_model import gate
from desk_model.gate import Refused, ask, record_fits
from desk_model.steps import step_forward
from desk_model.substitution import value
from desk_model.trees import *
from desk_model.writer import written
from stored.layout import listed, word


def begun(program_record, query_record, room):
    """the program, Q, and the first event of 'Q, fail'"""
    program, goal = gate.program(program_record), gate.query(query_record)
    gate.room_enough(room)
    first = Event(CALL, Conj(goal, Failure()), EMPTY, EMPTY)
    record_fits(first.length)
    return program, goal, first


def is_answer(goal, event):
    return event.port == EXIT and event.ancestors.count == 1 and event.ancestors.top == Half(CONJUNCTION, 1, goal, Failure()) and event.goal == goal


def values(goal, bets):
    """each variable of Q once, with its value, by rising number; puts question 8"""
    return [(v, value(bets, Var(v))) for v in sorted(variables(goal))]


def used(bets):
    """the bodies and branches, the oldest first"""
    return [bet for bet in reversed(list(bets)) if isinstance(bet, (By, Or))]


def answer(goal, bets):
    pairs = [word(v) + written(term) for v, term in values(goal, bets)]
    return listed(pairs) + listed(list(map(written, used(bets))))


def answers(program_record, query_record, steps, room):
    """the number, the steps made, and the answers that are kept, each as its bytes"""
    kept, taken = [], 0
    try:
        program, goal, event = begun(program_record, query_record, room)
        while taken < steps:
            event = step_forward(program, event)
            taken += 1
            if is_answer(goal, event):
                made = answer(goal, event.bets)
                ask(10, sum(map(len, kept)) + len(made) <= room)
                kept.append(made)
        return 0, taken, kept
    except Refused as no:
        return no.number, taken, kept
