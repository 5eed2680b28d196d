"""The model's answer to a case, the line that the program prints for it, and the case as it stands on standard input."""
from functools import lru_cache

from desk_model.text import read, read_query
from reader_cases.pieces import number, stored, whole
from stored.shown import checksum, shown

LENT = b'\xA5'  # each byte of a buffer that is lent
WHOLE = 200  # a record or a name list of at most so many bytes is printed whole
SERVICES = {'r': read, 'q': read_query}


def answer(kind, texts, rooms):
    return SERVICES[kind](*map(whole, texts), *rooms)


def agrees(answered, want):
    """with what was worked out by hand"""
    return want is None or answered == want or answered[0] == want


@lru_cache
def summed(part, room):
    """the checksum of a buffer; the bytes behind the part are all as they were lent. Many buffers are lent in vain, and alike"""
    return f'{checksum(part.ljust(room, LENT)):08x}'


def line(answered, rooms):
    refused, names, record = answered
    sums = [summed(part or b'', room) for part, room in zip((names, record), rooms)]
    parts = [shown(part, WHOLE) for part in (record, names) if part]
    return ' '.join([str(refused), str(len(names or b'')), *sums, *parts])


def given(kind, texts, rooms):
    return kind.encode() + b''.join(map(stored, texts)) + b''.join(map(number, rooms))
