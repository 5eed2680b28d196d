"""The table of cases: each has words, its four fields as they stand on standard input, and the answer that was worked out by hand, or None.

A hand-made answer is the number, the steps made and the list of the answers kept; None stands for any steps, a bare number for any answer with it.
"""
from stored.layout import *
from stored.table import Table

ROOM, MOST_ROOM = 32768, 70000
MOST = 4294967295
cases = Table()
heading = cases.heading


def number(n):
    return n.to_bytes(4, 'big')


def asked(words, program_record, query_record, steps=MOST, room=ROOM, want=None):
    """a case of two records"""
    assert room <= MOST_ROOM and len(program_record) <= 40000 and len(query_record) <= 40000, words
    cases.case(words, (program_record, query_record, number(steps), number(room)), want)


def query(words, goal, definitions=(), steps=MOST, room=ROOM, want=None):
    """a case of a goal under definitions"""
    asked(words, program(*definitions), record(goal), steps, room, want)


# ---- Records
def program(*definitions):
    return record(listed(definitions))


NO_DEFINITIONS = program()


# ---- Answers
def solution(values, bets=()):
    """pairs of a variable and its value, then the bodies and branches, the oldest first"""
    return unifier(*values)[1:] + listed(bets)


def joined(*goals):
    """by conjunction to the right"""
    return goals[0] if len(goals) == 1 else conj(goals[0], joined(*goals[1:]))


def halved_all(goals):
    """by conjunctions whose halves are nearly of one size, so that no event of them has many ancestors"""
    middle = len(goals) // 2
    return goals[0] if len(goals) == 1 else conj(halved_all(goals[:middle]), halved_all(goals[middle:]))


def either(*goals):
    """by disjunction to the right"""
    return goals[0] if len(goals) == 1 else disj(goals[0], either(*goals[1:]))


# ---- p(V) has body V=a;V=b. In the walk of p(V), fail the exits of p(V) are events 6 and 16, and the final fail is event 25.
LIGHTS = disj(eq(V0, A), eq(V0, B))
LIT = definition(5, 1, 0, LIGHTS)
P_OF_V = atom(5, V0)
RED, GREEN = solution([(0, A)], [chosen(1), by(LIGHTS)]), solution([(0, B)], [chosen(2), by(LIGHTS)])
