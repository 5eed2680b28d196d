"""The model's answer to a case, and the line that the program prints for it."""
from desk_model.door import door
from stored.shown import checksum, shown

LENT = b'\xA5'  # each byte of an output that is lent
WHOLE = 200  # a record of at most so many bytes is printed whole


def number(field):
    return int.from_bytes(field, 'big')


def answer(program, event, limit, room):
    return door(program, event, number(limit), number(room))


def agrees(answered, want):
    """with what was worked out by hand"""
    return want is None or answered == want or answered[0] == want


def line(answered, fields):
    """the bytes behind the record are all as they were lent"""
    stopped, taken, written = answered
    out = (written or b'').ljust(number(fields[3]), LENT)
    return ' '.join([str(stopped), str(taken), f'{checksum(out):08x}'] + ([shown(written, WHOLE)] if written else []))
