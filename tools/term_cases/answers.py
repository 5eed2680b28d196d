"""The model's answer to a case, as the program prints it."""
from desk_model import gate, services
from desk_model.body import body
from desk_model.gate import Refused
from desk_model.substitution import value
from desk_model.trees import Atom, Equal
from desk_model.unifier import unifier
from desk_model.writer import written
from stored.shown import shown

ROOM = 32768
WHOLE = 256  # at most so many bytes are printed whole


def printed(data):
    return '0 ' + shown(data, WHOLE)


def variable_value(event_record, numbers):
    variable, room = (int.from_bytes(n, 'big') for n in (numbers[:2], numbers[2:]))
    number, data = services.variable_value(event_record, variable, room)
    return str(number) if number else printed(data)


def unified(event_record):
    """the unifier's count and pairs: the bet without its kind byte"""
    event = gate.event(event_record)
    if not isinstance(event.goal, Equal):
        return 'other'
    found = unifier(value(event.bets, event.goal.left), value(event.bets, event.goal.right))
    if found is None:
        return 'none'
    return 'long' if found.length - 1 > ROOM else printed(written(found)[1:])


def atom_body(program_record, event_record):
    program, event = gate.program(program_record), gate.event(event_record)
    if not isinstance(event.goal, Atom):
        return 'other'
    found = body(program, event.goal, event.ancestors, event.bets)
    if found is None:
        return 'none'
    return 'long' if found.length > ROOM else printed(written(found))


def greatest(event_record):
    """the part and the variable"""
    number, part, variable = services.greatest(event_record)
    return str(number) if number else f'0 {part} {variable}'


ANSWERS = {'v': variable_value, 'u': unified, 'b': atom_body, 'g': greatest}


def answer(kind, fields):
    try:
        return ANSWERS[kind](*fields)
    except Refused as no:
        return str(no.number)
