"""Refused programs, queries and first events: the stop line alone."""
from walk_cases.table import *

heading('program refused')
for words, data, number in [
    ('1, two bytes that name no rest', hexa('00 00'), 1),
    ('2, version 0', record(listed([]), version=0), 2),
    ('2, version 2', record(listed([]), version=2), 2),
    ('3, no body', hexa('00 01 01'), 3),
    ('3, a definition fewer than counted', record(listed([], count=1)), 3),
    ('3, a byte more than the definitions', record(listed([]) + b'\x00'), 3),
    ('3, an arity of 17', program(definition(5, 17, 0, TRUE)), 3),
    ('4, a variable beyond arity and locals', program(definition(5, 0, 0, eq(V0, A))), 4),
    ('4, definitions that fall', program(definition(6, 0, 0, TRUE), definition(5, 0, 0, TRUE)), 4),
]:
    refused(words, data + EXAMPLE_QUERY, number)
    refused(words + ', and nothing after it', data, number)

heading('query refused')
for words, data, number in [
    ('11, two bytes that name no rest', hexa('00 00'), 11),
    ('12, version 0', record(TRUE, version=0), 12),
    ('12, version 2', record(TRUE, version=2), 12),
    ('13, no body', hexa('00 01 01'), 13),
    ('13, a kind that no goal has', record(b'\x20'), 13),
    ('13, half a conjunction', record(b'\x13' + TRUE), 13),
    ('13, a goal and a byte more', record(TRUE + TRUE), 13),
]:
    refused(words, NO_DEFINITIONS + data, number)

heading('both refused: the program is questioned first')
refused('program 4, query 13', program(definition(5, 0, 0, eq(V0, A))) + record(b'\x20'), 4)
refused('program 2, a query that ends early', record(listed([]), version=2) + EXAMPLE_QUERY[:4], 2)


def wide_atom(size):
    """a query of that many bytes: an atom of 16 arguments, the last of them deep; a variable is a byte shorter than a constant"""
    variables = -(size - 7) % 4
    depth = (size - 7 + variables) // 4 - 16
    made = record(atom(5, *[V0] * variables, *[A] * (15 - variables), chain(depth, A)))
    assert len(made) == size, len(made)
    return made


heading('first event')
case('of 32,768 bytes, an undefined atom', NO_DEFINITIONS + wide_atom(32763), '0 call 0 0\n1 fail 0 0\nstop 6\n')
refused('of 32,769 bytes: 10', NO_DEFINITIONS + wide_atom(32764), 10)
refused('of 32,772 bytes: 10', NO_DEFINITIONS + wide_atom(32767), 10)
case('of 32,768 bytes, whose step does not fit', NO_DEFINITIONS + record(rightward(0x13, 16378, P)), '0 call 0 0\nstop 10\n')
