"""The table of cases: each has words, a kind (w an output of 32,768 bytes, s one byte short), the number, the slice, and the record that is written."""
from stored.layout import *
from stored.table import Table

cases = Table()
heading = cases.heading


def refused(number, words, data, kind='w'):
    cases.case(words, kind, number, data, b'')


def becomes(words, clauses, definitions, size=None, read=None):
    """the clauses make this program; size: the length of the program's record that the words promise; read: that of the clauses' record"""
    data, result = record(listed(clauses)), record(listed(definitions))
    assert size is None or len(result) == size, (words, len(result))
    assert read is None or len(data) == read, (words, len(data))
    cases.case(words, 'w', 0, data, result)


def too_many(words, clauses):
    """question 9 says no"""
    refused(9, words, record(listed(clauses)))


def too_long(words, clauses):
    """question 10 says no"""
    refused(10, words, record(listed(clauses)))


# ---- Parts that many cases use
def f(*args):
    return sym(6, *args)


def q(*args):
    return atom(7, *args)


def all_of(*goals):
    """goals joined by conjunction to the right"""
    return goals[0] if len(goals) == 1 else conj(goals[0], all_of(*goals[1:]))


def one_of(*goals):
    """goals joined by disjunction to the right"""
    return goals[0] if len(goals) == 1 else disj(goals[0], one_of(*goals[1:]))
