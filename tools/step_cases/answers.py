"""The model's answer to a case, and the lines that the program prints for it."""
from desk_model import services
from desk_model.services import BACK, FORWARD
from stored.shown import shown

ROOM = 32768


def number(field):
    return int.from_bytes(field, 'big')


def walked(program, query, steps):
    """(direction, number, record) of the first event, of each step forward and of each step back, up to the first refusal in either direction"""
    first, event = services.first_event(query, ROOM)
    lines = [('=', first, event)]
    if first != 0:
        return lines
    for direction, step, most in ('>', FORWARD, number(steps)), ('<', BACK, None):
        made = 0
        while made != most:
            refused, following = services.step(step, program, event, ROOM)
            lines.append((direction, refused, following))
            if refused != 0:
                break
            event, made = following, made + 1
    return lines


def counted(event, counts):
    refused, after = services.count(event, tuple(number(counts[i:i + 4]) for i in range(0, 16, 4)))
    return (refused, *after)


ANSWERS = {
    'q': lambda query, room: services.first_event(query, number(room)),
    'f': lambda program, event, room: services.step(FORWARD, program, event, number(room)),
    'b': lambda program, event, room: services.step(BACK, program, event, number(room)),
    'r': lambda program, event, steps, room: services.run(FORWARD, program, event, number(steps), number(room)),
    's': lambda program, event, steps, room: services.run(BACK, program, event, number(steps), number(room)),
    'w': walked,
    'l': services.lookup,
    'c': counted,
}


def answer(kind, fields):
    return ANSWERS[kind](*fields)


def agrees(answered, want):
    """with what was worked out by hand"""
    return want is None or answered == want or (isinstance(want, int) and answered[0] == want)


# ---- Printing
WHOLE = 200  # a record of at most so many bytes is printed whole


def line(values):
    """values apart by a blank, without those that are None"""
    return ' '.join(shown(v, WHOLE) if isinstance(v, bytes) else str(v) for v in values if v is not None)


def lines(kind, answered):
    return list(map(line, answered)) if kind == 'w' else [line(answered)]

