"""As many variables as a query can have: of one whose first event fits, and of one that exits."""
from answers_cases.table import *


def spread(n):
    """n variable numbers, none twice, in no order"""
    return [40503 * i % 65536 for i in range(n)]


def tree(terms, roots):
    """so many terms that hold the given ones, in symbols of at most 16 arguments"""
    while len(terms) > roots:
        at_once = min(16, len(terms) - roots + 1)
        terms = terms[at_once:] + [sym(6, *terms[:at_once])]
    return terms


def equality(n):
    """an equality that holds n variables"""
    return eq(*tree([var(v) for v in spread(n)], 2))


def atom_of(n):
    """an atom of 16 arguments that holds n variables"""
    return atom(5, *tree([var(v) for v in spread(n)], 16))


heading('most variables')
# n variables in two terms need (n - 2) / 15 symbols of 4 bytes, so an equality of 10,027 of them has 1 + 3 * 10,027 + 4 * 669 bytes: 32,758
assert len(record(equality(10027))) == 32761 and len(record(equality(10028))) > 32761
asked('10,027 in a query of 32,761 bytes, no steps', NO_DEFINITIONS, record(equality(10027)), steps=0, want=(0, 0, []))
asked('10,027 in a query of 32,761 bytes', NO_DEFINITIONS, record(equality(10027)), want=(10, 0, []))
asked('10,028: the first event does not fit', NO_DEFINITIONS, record(equality(10028)), steps=0, want=(10, 0, []))
# an event of the walk holds the query twice, and one at the exit 13 bytes besides it: 16,377 bytes of a goal are the most
assert len(atom_of(5012)) <= 16377 < len(atom_of(5013))
VALUES = [(v, var(v)) for v in sorted(spread(5012))]
query('5,012 at an exit', atom_of(5012), [definition(5, 16, 0, TRUE)], want=(6, 11, [solution(VALUES, [by(TRUE)])]))
query('5,013: the second event does not fit', atom_of(5013), [definition(5, 16, 0, TRUE)], want=(10, 0, []))
TWICE = disj(TRUE, TRUE)
query('5,012, and a body of 3 bytes: the exit does not fit', atom_of(5012), [definition(5, 16, 0, TWICE)], want=(10, 5, []))
VALUES = [(v, var(v)) for v in sorted(spread(5000))]
BOTH = [solution(VALUES, [chosen(n), by(TWICE)]) for n in (1, 2)]
query('5,000 at two exits', atom_of(5000), [definition(5, 16, 0, TWICE)], room=MOST_ROOM, want=(6, 25, BOTH))
query('5,000 at two exits: the second answer does not fit', atom_of(5000), [definition(5, 16, 0, TWICE)], want=(10, 16, BOTH[:1]))
