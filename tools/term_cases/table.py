"""The table of cases: each has words, a kind (v value, u equality, b body, g greatest variable), the answer that was worked out by hand, or None, and its fields."""
from stored.layout import *
from stored.table import Table
from term_cases.answers import ROOM, printed

cases = Table()
heading = cases.heading


def case(kind, answer, words, *fields):
    cases.case(words, kind, answer, fields)


def pairs(*bindings):
    """a unifier's count and pairs"""
    return unifier(*bindings)[1:]


# ---- Terms
def row(terms):
    """a list of terms: 15 of them and the next part of the list in each symbol"""
    if len(terms) <= 16:
        return sym(6, *terms)
    return sym(6, *terms[:15], row(terms[15:]))


# ---- Cases of an accepted event, with an answer or without one
def given(answer, size):
    """as it is printed: a number, a word, or bytes, which have the size that the words promise"""
    if answer is None or isinstance(answer, (int, str)):
        return answer if answer is None else str(answer)
    assert size is None or len(answer) == size, len(answer)
    return printed(answer) if len(answer) <= ROOM else 'long'


def value(words, answer, v, bets, room=ROOM, size=None):
    """the answer: a number, or the value's bytes"""
    case('v', given(answer, size), words, record(event(4, TRUE, (), bets)), word(v) + word(room))


def equality(words, answer, t, u, bets=(), port=1, size=None):
    """the answer: 8, 'none', 'long', or the bindings"""
    bound = answer if answer is None or isinstance(answer, (int, str)) else pairs(*answer)
    case('u', given(bound, size), words, record(event(port, eq(t, u), (P,), bets)))


def body(words, answer, definitions, goal, ancestors=(), bets=(), port=1, size=None):
    """the answer: 9, 'none', 'long', or the body's bytes"""
    case('b', given(answer, size), words, record(listed(definitions)), record(event(port, goal, ancestors, bets)))


def greatest(words, part, variable, goal=TRUE, ancestors=(), bets=(), port=1):
    """the answer: the part and the variable"""
    case('g', f'0 {part} {variable}', words, record(event(port, goal, ancestors, bets)))
