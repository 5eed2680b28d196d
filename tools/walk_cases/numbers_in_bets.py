"""Walks in which the numbers of earlier locals stand in bets alone (SPECIFICATION 4)."""
from walk_cases.table import *

# p(A) :- A=g(L). q :- L=1. r(A) :- A=g(2).
P_Q_R = program(definition(1, 1, 2, conj(eq(V0, V1), eq(V1, sym(6, V2)))), definition(2, 0, 1, eq(V0, sym(1))),
                definition(3, 1, 1, conj(eq(V0, V1), eq(V1, sym(6, sym(2))))))
P_Q_R_TEXT = '''0 call 0 0
1 call 1 0
2 call 2 0
3 call 3 0
4 exit 3 1
5 call 3 1
6 exit 3 2
7 exit 2 2
8 exit 1 3
9 call 1 3
10 call 2 3
11 call 3 3
12 exit 3 4
13 exit 2 5
14 call 2 5
15 call 3 5
16 call 4 5
17 exit 4 6
18 call 4 6
19 exit 4 7
20 exit 3 7
21 exit 2 8
22 exit 1 8
23 exit 0 8
stop 6
'''


def calls(n, local_count):
    """that many calls, one after the other, of an atom with that many locals; the last local occurs"""
    return program(definition(5, 0, local_count, eq(V0, var(local_count - 1)))) + record(halved(n, P))


heading('numbers in bets')
case('p(W), (q, r(W)) exits after 23 steps', P_Q_R + record(conj(atom(1, V0), conj(atom(2), atom(3, V0)))), P_Q_R_TEXT)
# a call makes 3 steps, a conjunction 3; where the last call is refused, 8 conjunctions lack their exit
case('257 calls with 255 locals each: the last number is 65,534', calls(257, 255), (257 * 3 + 256 * 3 + 1, 6))
case('258 calls with 255 locals each: the last one by 9', calls(258, 255), (257 * 3 + 257 * 3 - 8 + 1, 9))
case('258 calls with 254 locals each', calls(258, 254), (258 * 3 + 257 * 3 + 1, 6))
# the numbers 0 to 65,534 are taken, so there is one left
TO_THE_LAST = program(definition(5, 0, 255, eq(V0, var(254))), definition(6, 0, 1, eq(V0, A)))
case('257 calls with 255 locals each and one with 1: the last number is 65,535', TO_THE_LAST + record(conj(halved(257, P), atom(6))),
     (257 * 3 + 256 * 3 + 3 + 3 + 1, 6))
case('and another one with 1: by 9', TO_THE_LAST + record(conj(halved(257, P), conj(atom(6), atom(6)))),
     (257 * 3 + 256 * 3 + 1 + 2 + 3 + 1 + 1, 9))
