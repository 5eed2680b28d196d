"""The table of cases: each has words, a kind (q query, e event, p program, c clauses), the number worked out by hand, and the slice."""
from stored.layout import *
from stored.table import Table

cases = Table()
heading = cases.heading


def case(kind, number, words, data, size=None):
    """size: the length that the words promise"""
    assert size is None or len(data) == size, (words, len(data))
    cases.case(words, kind, number, data)


def query(number, words, goal, size=None):
    case('q', number, words, record(goal), size)


def equality(number, words, *terms):
    query(number, words, b'\x12' + b''.join(terms))


def an_event(number, words, body, size=None):
    case('e', number, words, record(body), size)


def ancestors(number, words, *parts):
    an_event(number, words, event(1, TRUE, ancestors=parts))


def bets(number, words, *parts, size=None):
    an_event(number, words, event(2, TRUE, bets=parts), size)


def pairs(number, words, *parts, size=None):
    bets(number, words, unifier(*parts), size=size)


def program(number, words, *definitions, count=None, size=None):
    case('p', number, words, record(listed(definitions, count)), size)


def body(number, words, arity, local_count, goal):
    """a program of one definition"""
    program(number, words, definition(5, arity, local_count, goal))


def clauses(number, words, *parts, count=None, size=None):
    case('c', number, words, record(listed(parts, count)), size)


def one_clause(number, words, v, head, goal):
    clauses(number, words, clause(5, v, head, goal))
