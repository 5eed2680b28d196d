"""Walks by what stops them, walks of several pages, and walks around step 100,000.

No case is stopped by 7: that takes an event that matches no rule, and we know of none that a walk reaches.
"""
from walk_cases.shapes import *

heading('stopped')
ONE_LOCAL = program(definition(5, 1, 1, eq(V0, V1)))
LONGEST_VALUE, LONGER_VALUE = chain(2047, A), chain(2045, sym(9, V1, V1, V1))
case('by 8, a term of 8,193 bytes', NO_DEFINITIONS + record(eq(V2, LONGER_VALUE)), '0 call 0 0\nstop 8\n')
case('not by 8, a term of 8,192 bytes', NO_DEFINITIONS + record(eq(V2, LONGEST_VALUE)), '0 call 0 0\n1 exit 0 1\nstop 6\n')
# V1=f(V0,V0), V2=f(V1,V1), ..
DOUBLING = [eq(var(i + 1), sym(6, var(i), var(i))) for i in range(14)]
case('by 8, a value that doubles', NO_DEFINITIONS + record(b''.join(b'\x13' + goal for goal in DOUBLING) + TRUE))
case('by 9, variable 65,535 and one local', ONE_LOCAL + record(atom(5, var(65535))), '0 call 0 0\nstop 9\n')
case('not by 9, variable 65,534', ONE_LOCAL + record(atom(5, var(65534))), '0 call 0 0\n1 call 1 0\n2 exit 1 1\n3 exit 0 2\nstop 6\n')
case('by 9, behind 28 steps', stuck(28), (29, 9))
case('by 10, 300 conjunctions, each the first half', NO_DEFINITIONS + record(leftward(0x13, 300, TRUE)))

heading('pages')
# the first event has 12 bytes, and each one 4 more than the one before
case('p :- p, until it is too long', program(definition(5, 0, 0, P)) + record(P), (1 + (32768 - 12) // 4, 10))
case('p :- (true ; true), p, until it is too long', program(definition(5, 0, 0, conj(disj(TRUE, TRUE), P))) + record(P))
case('25,001 steps, then fail', ended(25001), (25002, 6))
# the page of 65,536 bytes ends with the last line, before it or after it
for n in range(4467, 4478):
    case(f'{n:,} steps and then 9', stuck(n), (n + 1, 9))

heading('around step 100,000')
case('the end at 99,999', ended(99999), (100000, 6))
case('the end at 100,001, were there no limit', ended(100001), (100001, 0))
case('far more steps than the limit', RULES + record(choices(20)), (100001, 0))
case('refused by 9 after 99,999', stuck(99999), (100000, 9))
case('refused by 9 after 100,000, were there no limit', stuck(100000), (100001, 0))
