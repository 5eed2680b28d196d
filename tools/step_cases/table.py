"""The table of cases: each has words, a kind, the fields as they stand on standard input, and the answer that was worked out by hand, or None.

q query  f forward  b back  r run forward  s run back  w walk  l lookup  c counter
A hand-made answer has the form that answers.py gives; a bare number stands for any answer with that number.
"""
from stored.layout import *
from stored.table import Table

ROOM = 32768
CALL, EXIT, FAILS, REDO = 1, 2, 3, 4
cases = Table()
heading = cases.heading


def case(kind, words, fields, want):
    cases.case(words, kind, fields, want)


def number(n):
    return n.to_bytes(4, 'big')


# ---- Records
def program(*definitions):
    return record(listed(definitions))


def at(port, goal, ancestors=(), bets=(), size=None):
    """an event's record; size: the length that the words promise"""
    made = record(event(port, goal, ancestors, bets))
    assert size is None or len(made) == size, len(made)
    return made


def body(text):
    """a record whose body is given in hexadecimal"""
    return record(hexa(text))


NO_DEFINITIONS = program()


# ---- Cases by service
def query(words, query_record, room=ROOM, want=None):
    case('q', words, [query_record, number(room)], want)


def forward(words, program_record, event_record, room=ROOM, want=None):
    case('f', words, [program_record, event_record, number(room)], want)


def back(words, program_record, event_record, room=ROOM, want=None):
    case('b', words, [program_record, event_record, number(room)], want)


def there_and_back(words, program_record, left, right):
    """forward from left gives right, back from right gives left"""
    forward(words, program_record, left, want=(0, right))
    back(words, program_record, right, want=(0, left))


def run_forward(words, program_record, event_record, steps, room=ROOM, want=None):
    case('r', words, [program_record, event_record, number(steps), number(room)], want)


def run_back(words, program_record, event_record, steps, room=ROOM, want=None):
    case('s', words, [program_record, event_record, number(steps), number(room)], want)


def walk(words, program_record, query_record, steps, want=None):
    case('w', words, [program_record, query_record, number(steps)], want)


def lookup(words, program_record, event_record, want=None):
    case('l', words, [program_record, event_record], want)


def counter(words, event_record, counts, want=None):
    case('c', words, [event_record, b''.join(map(number, counts))], want)
