"""Tags are part of the ancestors: the halves of A,A and of A;A have each a door of its own.

The way back from redo of the first half of A,A passes the call of the second. In A;A no way back to a half passes the call of the other.
"""
from door_cases.table import *


def walk_of(words, program_record, goal, doors):
    """the whole walk of a query that fails; doors: for each event chosen the place of its door"""
    walk = events(program_record, goal, 100)
    assert walk[-1][PORT] == FAILS
    for n, door in doors.items():
        door_at(words, program_record, walk, n, door)


heading('true, true')
# 0 call (T,T),fail  1 call T,T  2 call T under 1  3 exit T  4 call T under 2  5 exit T  6 exit T,T  7 call fail  8 fail fail
# 9 redo T,T  10 redo T under 2  11 fail T  12 redo T under 1  13 fail T  14 fail T,T  15 fail of the query
BOTH = conj(conj(TRUE, TRUE), FAIL)
walk_of('under 1', NO_DEFINITIONS, BOTH, {3: 2})
walk_of('under 2', NO_DEFINITIONS, BOTH, {5: 4, 10: 4, 11: 4})
walk_of('under 1, the call under 2 being passed', NO_DEFINITIONS, BOTH, {12: 2, 13: 2})
walk_of('the conjunction', NO_DEFINITIONS, BOTH, {9: 1, 14: 1})

heading('true ; true')
# 0 call (T;T),fail  1 call T;T  2 call T under 1  3 exit T  4 exit T;T  5 call fail  6 fail fail  7 redo T;T  8 redo T under 1  9 fail T
# 10 call T under 2  11 exit T  12 exit T;T  13 call fail  14 fail fail  15 redo T;T  16 redo T under 2  17 fail T  18 fail T;T  19 fail of the query
EITHER = conj(disj(TRUE, TRUE), FAIL)
walk_of('under 1', NO_DEFINITIONS, EITHER, {3: 2, 8: 2})
walk_of('under 2', NO_DEFINITIONS, EITHER, {11: 10, 16: 10})
walk_of('the disjunction', NO_DEFINITIONS, EITHER, {7: 1, 12: 1})
walk_of('fail, called at 5 and again at 13', NO_DEFINITIONS, EITHER, {6: 5, 14: 13})
walk_of('the query', NO_DEFINITIONS, EITHER, {19: 0})

heading('p, p')
# p has body true. 2 call p under 1  3 call T under p  4 exit T  5 exit p  6 call p under 2  7 call T under p  8 exit T  9 exit p  10 exit p,p
# 11 call fail  12 fail fail  13 redo p,p  14 redo p under 2  15 redo T  16 fail T  17 fail p  18 redo p under 1  19 redo T  20 fail T  21 fail p
DEFINED = program(definition(5, 0, 0, TRUE))
TWICE = conj(conj(P, P), FAIL)
walk_of('p under 1, the call under 2 being passed', DEFINED, TWICE, {18: 2, 21: 2})
walk_of('true under p under 1, where the tag is the second ancestor\'s', DEFINED, TWICE, {19: 3, 20: 3})
walk_of('true under p under 2', DEFINED, TWICE, {8: 7, 15: 7})
