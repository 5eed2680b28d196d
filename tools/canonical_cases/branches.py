"""Branches: the head's equations and the goal, joined by conjunction to the right, and branches joined by disjunction to the right."""
from canonical_cases.table import *

heading('bench')
becomes('q(a). q(f(Z)) :- q(Z).', [clause(7, 0, [A], TRUE), clause(7, 1, [f(V0)], q(V0))],
        [definition(7, 1, 1, disj(conj(eq(V0, A), TRUE), conj(eq(V0, f(V1)), q(V1))))])

heading('one clause')
becomes('no clauses', [], [])
becomes('a fact of arity 0', [clause(5, 0, [], TRUE)], [definition(5, 0, 0, TRUE)])
becomes('a rule of arity 0', [clause(5, 0, [], q(A))], [definition(5, 0, 0, q(A))])
becomes('fail for the goal', [clause(5, 0, [], FAIL)], [definition(5, 0, 0, FAIL)])
becomes('a fact of arity 1', [clause(5, 0, [A], TRUE)], [definition(5, 1, 0, conj(eq(V0, A), TRUE))])
becomes('a fact with a variable', [clause(5, 1, [V0], TRUE)], [definition(5, 1, 1, conj(eq(V0, V1), TRUE))])
becomes('a rule of arity 1', [clause(5, 1, [V0], q(V0))], [definition(5, 1, 1, conj(eq(V0, V1), q(V1)))])
becomes('a fact of arity 2', [clause(5, 0, [A, B], TRUE)], [definition(5, 2, 0, conj(eq(V0, A), conj(eq(V1, B), TRUE)))])
becomes('a fact of arity 3', [clause(5, 0, [A, B, A], TRUE)],
        [definition(5, 3, 0, conj(eq(V0, A), conj(eq(V1, B), conj(eq(V2, A), TRUE))))])
becomes('the same variable twice', [clause(5, 1, [V0, V0], TRUE)], [definition(5, 2, 1, conj(eq(V0, V2), conj(eq(V1, V2), TRUE)))])
becomes('the second variable first', [clause(5, 2, [V1, V0], q(V0, V1))],
        [definition(5, 2, 2, conj(eq(V0, V3), conj(eq(V1, V2), q(V2, V3))))])
becomes('a variable in the goal alone', [clause(5, 1, [], q(V0))], [definition(5, 0, 1, q(V0))])
becomes('a variable in the goal alone, with a head', [clause(5, 1, [A], q(V0))], [definition(5, 1, 1, conj(eq(V0, A), q(V1)))])
becomes('an equality for the goal', [clause(5, 2, [V0], eq(f(V1), V0))], [definition(5, 1, 2, conj(eq(V0, V1), eq(f(V2), V1)))])
becomes('a conjunction for the goal stays one half', [clause(5, 0, [A], conj(TRUE, FAIL))],
        [definition(5, 1, 0, conj(eq(V0, A), conj(TRUE, FAIL)))])
becomes('a conjunction to the left stays as it is', [clause(5, 0, [A], conj(conj(P, q(B)), FAIL))],
        [definition(5, 1, 0, conj(eq(V0, A), conj(conj(P, q(B)), FAIL)))])
becomes('a disjunction for the goal', [clause(5, 1, [V0], disj(q(V0), eq(V0, A)))],
        [definition(5, 1, 1, conj(eq(V0, V1), disj(q(V1), eq(V1, A))))])
becomes('terms within terms', [clause(5, 2, [f(V0, f(A, V1))], q(f(f(V1)), V0))],
        [definition(5, 1, 2, conj(eq(V0, f(V1, f(A, V2))), q(f(f(V2)), V1)))])
becomes('a call of itself', [clause(5, 1, [f(V0)], atom(5, V0))], [definition(5, 1, 1, conj(eq(V0, f(V1)), atom(5, V1)))])
becomes('symbol and predicate of large numbers', [clause(65535, 1, [sym(65535, V0)], atom(65535, V0))],
        [definition(65535, 1, 1, conj(eq(V0, sym(65535, V1)), atom(65535, V1)))])

heading('arity 16')
becomes('16 constants', [clause(5, 0, [A] * 16, TRUE)],
        [definition(5, 16, 0, all_of(*[eq(var(x), A) for x in range(16)], TRUE))])
becomes('16 variables, the last one first', [clause(5, 16, [var(15 - i) for i in range(16)], q(var(0), var(15)))],
        [definition(5, 16, 16, all_of(*[eq(var(x), var(31 - x)) for x in range(16)], q(var(16), var(31))))])
becomes('in the goal', [clause(5, 1, [V0], atom(7, *[V0] * 16))], [definition(5, 1, 1, conj(eq(V0, V1), atom(7, *[V1] * 16)))])
becomes('of a symbol', [clause(5, 1, [sym(6, *[V0] * 16)], TRUE)], [definition(5, 1, 1, conj(eq(V0, sym(6, *[V1] * 16)), TRUE))])

heading('several clauses')
becomes('two of arity 0', [clause(5, 0, [], TRUE), clause(5, 0, [], FAIL)], [definition(5, 0, 0, disj(TRUE, FAIL))])
becomes('three of arity 0', [clause(5, 0, [], TRUE), clause(5, 0, [], FAIL), clause(5, 0, [], P)],
        [definition(5, 0, 0, disj(TRUE, disj(FAIL, P)))])
becomes('four of arity 1', [clause(5, 0, [A], TRUE), clause(5, 0, [B], FAIL), clause(5, 0, [f(A)], P), clause(5, 0, [f(B)], q(A))],
        [definition(5, 1, 0, disj(conj(eq(V0, A), TRUE), disj(conj(eq(V0, B), FAIL), disj(conj(eq(V0, f(A)), P), conj(eq(V0, f(B)), q(A))))))])
becomes('a goal that is a disjunction stays one branch', [clause(5, 0, [], disj(P, q(A))), clause(5, 0, [], FAIL)],
        [definition(5, 0, 0, disj(disj(P, q(A)), FAIL))])
becomes('a last goal that is a disjunction', [clause(5, 0, [], FAIL), clause(5, 0, [], disj(P, q(A)))],
        [definition(5, 0, 0, disj(FAIL, disj(P, q(A))))])
becomes('the same clause twice', [clause(5, 0, [A], TRUE), clause(5, 0, [A], TRUE)],
        [definition(5, 1, 0, disj(conj(eq(V0, A), TRUE), conj(eq(V0, A), TRUE)))])
becomes('the same clause twice, with a variable', [clause(5, 1, [V0], q(V0)), clause(5, 1, [V0], q(V0))],
        [definition(5, 1, 2, disj(conj(eq(V0, V1), q(V1)), conj(eq(V0, V2), q(V2))))])
becomes('three times the same', [clause(5, 0, [], P)] * 3, [definition(5, 0, 0, disj(P, disj(P, P)))])
becomes('300 of arity 0', [clause(5, 0, [], TRUE)] * 300, [definition(5, 0, 0, one_of(*[TRUE] * 300))])
