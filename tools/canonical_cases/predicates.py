"""Predicates: definitions rise by predicate, then arity, and each has its own clauses alone, in their order."""
from canonical_cases.table import *

heading('order')
becomes('two predicates that rise', [clause(5, 0, [], TRUE), clause(6, 0, [], FAIL)], [definition(5, 0, 0, TRUE), definition(6, 0, 0, FAIL)])
becomes('two that fall', [clause(6, 0, [], FAIL), clause(5, 0, [], TRUE)], [definition(5, 0, 0, TRUE), definition(6, 0, 0, FAIL)])
becomes('the high byte counts first', [clause(256, 0, [], FAIL), clause(255, 0, [], TRUE)], [definition(255, 0, 0, TRUE), definition(256, 0, 0, FAIL)])
becomes('0 and 65,535', [clause(65535, 0, [], FAIL), clause(0, 0, [], TRUE)], [definition(0, 0, 0, TRUE), definition(65535, 0, 0, FAIL)])
becomes('the predicate counts before the arity', [clause(6, 0, [], FAIL), clause(5, 0, [A], TRUE)],
        [definition(5, 1, 0, conj(eq(V0, A), TRUE)), definition(6, 0, 0, FAIL)])
becomes('five in mixed order', [clause(n, 0, [], atom(n)) for n in (30, 10, 50, 20, 40)],
        [definition(n, 0, 0, atom(n)) for n in (10, 20, 30, 40, 50)])

heading('two arities of one predicate')
becomes('1 before 2', [clause(5, 0, [A], TRUE), clause(5, 0, [A, B], TRUE)],
        [definition(5, 1, 0, conj(eq(V0, A), TRUE)), definition(5, 2, 0, conj(eq(V0, A), conj(eq(V1, B), TRUE)))])
becomes('2 before 1', [clause(5, 0, [A, B], TRUE), clause(5, 0, [A], TRUE)],
        [definition(5, 1, 0, conj(eq(V0, A), TRUE)), definition(5, 2, 0, conj(eq(V0, A), conj(eq(V1, B), TRUE)))])
becomes('16 before 0', [clause(5, 0, [B] * 16, TRUE), clause(5, 0, [], FAIL)],
        [definition(5, 0, 0, FAIL), definition(5, 16, 0, all_of(*[eq(var(x), B) for x in range(16)], TRUE))])
becomes('all 17, falling', [clause(5, 0, [A] * n, TRUE) for n in range(16, -1, -1)],
        [definition(5, n, 0, all_of(*[eq(var(x), A) for x in range(n)], TRUE)) for n in range(17)])

heading('interleaved')
becomes('two of each of two predicates', [clause(6, 0, [A], TRUE), clause(5, 0, [A], FAIL), clause(6, 0, [B], P), clause(5, 0, [B], q(A))],
        [definition(5, 1, 0, disj(conj(eq(V0, A), FAIL), conj(eq(V0, B), q(A)))),
         definition(6, 1, 0, disj(conj(eq(V0, A), TRUE), conj(eq(V0, B), P)))])
becomes('p(X, X). o. p(Y) :- fail. p(U, W) :- q(W).',
        [clause(5, 1, [V0, V0], TRUE), clause(4, 0, [], TRUE), clause(5, 1, [V0], FAIL), clause(5, 2, [V0, V1], q(V1))],
        [definition(4, 0, 0, TRUE), definition(5, 1, 1, conj(eq(V0, V1), FAIL)),
         definition(5, 2, 3, disj(conj(eq(V0, V2), conj(eq(V1, V2), TRUE)), conj(eq(V0, V3), conj(eq(V1, var(4)), q(var(4))))))])
becomes('three of one around two of another', [clause(9, 0, [], TRUE), clause(8, 0, [], FAIL), clause(9, 0, [], P), clause(8, 0, [], TRUE), clause(9, 0, [], FAIL)],
        [definition(8, 0, 0, disj(FAIL, TRUE)), definition(9, 0, 0, disj(TRUE, disj(P, FAIL)))])

heading('many predicates')
becomes('200, rising', [clause(n, 0, [], TRUE) for n in range(200)], [definition(n, 0, 0, TRUE) for n in range(200)])
becomes('200, falling', [clause(n, 0, [], TRUE) for n in range(199, -1, -1)], [definition(n, 0, 0, TRUE) for n in range(200)])
# 7 * n modulo 211 goes through all of 0 to 210
becomes('211, mixed, each twice', [clause(7 * n % 211, 0, [], goal) for goal in (TRUE, FAIL) for n in range(211)],
        [definition(n, 0, 0, disj(TRUE, FAIL)) for n in range(211)])
