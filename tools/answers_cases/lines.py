"""The model's answer to a case, and the line that the program prints for it."""
from desk_model.answers import answers
from stored.shown import shown

WHOLE = 200  # answers of at most so many bytes are printed whole


def number(field):
    return int.from_bytes(field, 'big')


def answer(program, query, steps, room):
    return answers(program, query, number(steps), number(room))


def agrees(answered, want):
    """with what was worked out by hand, as far as it was"""
    worked_out = want if isinstance(want, tuple) else (want,)
    return all(known is None or known == got for known, got in zip(worked_out, answered))


def line(answered, fields):
    """the bytes behind those written are all as they were lent"""
    stopped, taken, kept = answered
    written = b''.join(kept)
    return ' '.join(map(str, [stopped, len(written), taken, number(fields[3]) - len(written)] + [shown(written, WHOLE)] * bool(written)))
