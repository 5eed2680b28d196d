"""The walk of p(W), (q, r(W)) under p(A) :- A=g(L). q :- L=1. r(A) :- A=g(2)., event by event, worked out by hand.

When q is called (event 10), the two locals of p stand in bets alone; the local of q is new all the same (SPECIFICATION 4).
"""
from step_cases.table import *

W, V4 = V0, var(4)
ONE, TWO = sym(1), sym(2)


def g(t):
    return sym(6, t)


def p(t):
    return atom(1, t)


Q = atom(2)


def r(t):
    return atom(3, t)


CLAUSES = [clause(1, 2, [V0], eq(V0, g(V1))), clause(2, 1, [], eq(V0, ONE)), clause(3, 1, [V0], eq(V0, g(TWO)))]
# of the heads p(V0), q and r(V0); the locals are V1 and V2, V0, V1
PROGRAM = program(definition(1, 1, 2, conj(eq(V0, V1), eq(V1, g(V2)))), definition(2, 0, 1, eq(V0, ONE)),
                       definition(3, 1, 1, conj(eq(V0, V1), eq(V1, g(TWO)))))

ASKED = p(W), conj(Q, r(W))
REST = Q, r(W)
QUERY = record(conj(*ASKED))
# m is 1 at p(W), 3 at q, since bets hold V2, and 4 at r(W)
P_BODY = eq(W, V1), eq(V1, g(V2))
Q_BODY = eq(V3, ONE)
R_BODY = eq(W, V4), eq(V4, g(TWO))

# the bets as they come, the topmost first
W_IS_A = [unifier((1, W))]
W_IS_G = [unifier((0, g(V2))), *W_IS_A]
P_DONE = [by(conj(*P_BODY)), *W_IS_G]
L_IS_1 = [unifier((3, ONE)), *P_DONE]
Q_DONE = [by(Q_BODY), *L_IS_1]
A_IS_G = [unifier((4, g(V2))), *Q_DONE]
L_IS_2 = [unifier((2, TWO)), *A_IS_G]
R_DONE = [by(conj(*R_BODY)), *L_IS_2]

IN_P = [p(W), in_conj(1, *ASKED)]
IN_REST = [in_conj(2, *ASKED)]
IN_Q = [in_conj(1, *REST), *IN_REST]
AT_R = [in_conj(2, *REST), *IN_REST]
IN_R = [r(W), *AT_R]

EVENTS = [
    at(CALL, conj(*ASKED)),
    at(CALL, p(W), [in_conj(1, *ASKED)]),
    at(CALL, conj(*P_BODY), IN_P),
    at(CALL, P_BODY[0], [in_conj(1, *P_BODY), *IN_P]),
    at(EXIT, P_BODY[0], [in_conj(1, *P_BODY), *IN_P], W_IS_A),
    at(CALL, P_BODY[1], [in_conj(2, *P_BODY), *IN_P], W_IS_A),
    at(EXIT, P_BODY[1], [in_conj(2, *P_BODY), *IN_P], W_IS_G),
    at(EXIT, conj(*P_BODY), IN_P, W_IS_G),
    at(EXIT, p(W), [in_conj(1, *ASKED)], P_DONE),
    at(CALL, conj(*REST), IN_REST, P_DONE),
    # 10: call q
    at(CALL, Q, IN_Q, P_DONE),
    at(CALL, Q_BODY, [Q, *IN_Q], P_DONE),
    at(EXIT, Q_BODY, [Q, *IN_Q], L_IS_1),
    at(EXIT, Q, IN_Q, Q_DONE),
    # 14: call r(W)
    at(CALL, r(W), AT_R, Q_DONE),
    at(CALL, conj(*R_BODY), IN_R, Q_DONE),
    at(CALL, R_BODY[0], [in_conj(1, *R_BODY), *IN_R], Q_DONE),
    at(EXIT, R_BODY[0], [in_conj(1, *R_BODY), *IN_R], A_IS_G),
    at(CALL, R_BODY[1], [in_conj(2, *R_BODY), *IN_R], A_IS_G),
    at(EXIT, R_BODY[1], [in_conj(2, *R_BODY), *IN_R], L_IS_2),
    at(EXIT, conj(*R_BODY), IN_R, L_IS_2),
    at(EXIT, r(W), AT_R, R_DONE),
    at(EXIT, conj(*REST), IN_REST, R_DONE),
    # 23: exit of the query, W is g(2)
    at(EXIT, conj(*ASKED), [], R_DONE),
]
THERE_AND_BACK = [('=', 0, EVENTS[0]), *[('>', 0, e) for e in EVENTS[1:]], ('>', 6, None), *[('<', 0, e) for e in EVENTS[-2::-1]], ('<', 6, None)]
