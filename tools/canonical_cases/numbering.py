"""Numbering (SPECIFICATION 2): variable i of clause cj is renamed to n + v1 + .. + v(j-1) + i; the definition has v1 + .. + vk locals."""
from canonical_cases.table import *

heading('numbering')
V4, V5, V6, V7, V8 = var(4), var(5), var(6), var(7), var(8)
becomes('two clauses of two variables', [clause(5, 2, [V0], q(V1)), clause(5, 2, [V0], q(V1))],
        [definition(5, 1, 4, disj(conj(eq(V0, V1), q(V2)), conj(eq(V0, V3), q(V4))))])
becomes('counts 2, 0 and 1', [clause(5, 2, [V0, V1], TRUE), clause(5, 0, [A, B], TRUE), clause(5, 1, [V0, V0], q(V0))],
        [definition(5, 2, 3, disj(conj(eq(V0, V2), conj(eq(V1, V3), TRUE)), disj(conj(eq(V0, A), conj(eq(V1, B), TRUE)),
                                                                                   conj(eq(V0, V4), conj(eq(V1, V4), q(V4))))))])
becomes('arity 0, counts 1 and 2', [clause(5, 1, [], q(V0)), clause(5, 2, [], q(V1, V0))], [definition(5, 0, 3, disj(q(V0), q(V2, V1)))])
becomes('counts 0 and 1', [clause(5, 0, [A], TRUE), clause(5, 1, [V0], TRUE)],
        [definition(5, 1, 1, disj(conj(eq(V0, A), TRUE), conj(eq(V0, V1), TRUE)))])
becomes("another predicate's clause between them does not count", [clause(5, 1, [V0], TRUE), clause(6, 3, [V0], q(V1, V2)), clause(5, 1, [V0], TRUE)],
        [definition(5, 1, 2, disj(conj(eq(V0, V1), TRUE), conj(eq(V0, V2), TRUE))), definition(6, 1, 3, conj(eq(V0, V1), q(V2, V3)))])
becomes("another arity's clause between them does not count", [clause(5, 1, [V0], TRUE), clause(5, 2, [V0, V1], TRUE), clause(5, 1, [V0], FAIL)],
        [definition(5, 1, 2, disj(conj(eq(V0, V1), TRUE), conj(eq(V0, V2), FAIL))),
         definition(5, 2, 2, conj(eq(V0, V2), conj(eq(V1, V3), TRUE)))])
becomes('three clauses of one variable, arity 2', [clause(5, 1, [V0, A], TRUE), clause(5, 1, [B, V0], TRUE), clause(5, 1, [f(V0), V0], q(V0))],
        [definition(5, 2, 3, disj(conj(eq(V0, V2), conj(eq(V1, A), TRUE)),
                                  disj(conj(eq(V0, B), conj(eq(V1, V3), TRUE)), conj(eq(V0, f(V4)), conj(eq(V1, V4), q(V4))))))])

heading('64 variables')
becomes('all in the head, arity 16', [clause(5, 64, fours(range(64)), TRUE)],
        [definition(5, 16, 64, all_of(*[eq(var(x), t) for x, t in enumerate(fours(range(16, 80)))], TRUE))])
becomes('all in the goal, arity 0', [clause(5, 64, [], atom(7, *fours(range(64))))], [definition(5, 0, 64, atom(7, *fours(range(64))))])
becomes('all in the goal, arity 1', [clause(5, 64, [A], atom(7, *fours(range(64))))],
        [definition(5, 1, 64, conj(eq(V0, A), atom(7, *fours(range(1, 65)))))])
becomes('from V63 down to V0, arity 16', [clause(5, 64, fours(range(63, -1, -1)), q(V0, var(63)))],
        [definition(5, 16, 64, all_of(*[eq(var(x), t) for x, t in enumerate(fours(range(79, 15, -1)))], q(var(16), var(79))))])
becomes('twice, arity 1', [clause(5, 64, [A], atom(7, *fours(range(64))))] * 2,
        [definition(5, 1, 128, disj(conj(eq(V0, A), atom(7, *fours(range(1, 65)))), conj(eq(V0, A), atom(7, *fours(range(65, 129))))))])

heading('255 locals')
becomes('64 + 64 + 64 + 63, arity 0', [clause(5, n, [], atom(7, *fours(range(n)))) for n in (64, 64, 64, 63)],
        [definition(5, 0, 255, one_of(*[atom(7, *fours(range(first, end))) for first, end in ((0, 64), (64, 128), (128, 192), (192, 255))]))])
becomes('63 + 64 + 64 + 64, arity 16: variable 270', [clause(5, n, fours(range(n)), TRUE) for n in (63, 64, 64, 64)],
        [definition(5, 16, 255, one_of(*[all_of(*[eq(var(x), t) for x, t in enumerate(fours(range(first, end)))], TRUE)
                                         for first, end in ((16, 79), (79, 143), (143, 207), (207, 271))]))])
becomes('255 clauses of one variable', [clause(5, 1, [V0], TRUE)] * 255,
        [definition(5, 1, 255, one_of(*[conj(eq(V0, var(1 + j)), TRUE) for j in range(255)]))])
becomes('255 clauses of one variable among 300', [clause(5, 1, [V0], TRUE)] * 100 + [clause(5, 0, [A], TRUE)] * 45 + [clause(5, 1, [V0], TRUE)] * 155,
        [definition(5, 1, 255, one_of(*[conj(eq(V0, var(1 + j)), TRUE) for j in range(100)], *[conj(eq(V0, A), TRUE)] * 45,
                                      *[conj(eq(V0, var(101 + j)), TRUE) for j in range(155)]))])
becomes('255 in each of two predicates', [clause(n, 1, [V0], TRUE) for n in (6, 5)] * 255,
        [definition(n, 1, 255, one_of(*[conj(eq(V0, var(1 + j)), TRUE) for j in range(255)])) for n in (5, 6)])
becomes('200 in each of two arities', [clause(5, 1, [V0] * n, TRUE) for n in (2, 1)] * 200,
        [definition(5, 1, 200, one_of(*[conj(eq(V0, var(1 + j)), TRUE) for j in range(200)])),
         definition(5, 2, 200, one_of(*[conj(eq(V0, var(2 + j)), conj(eq(V1, var(2 + j)), TRUE)) for j in range(200)]))])

heading('256 locals')
too_many('64 + 64 + 64 + 64', [clause(5, 64, [], atom(7, *fours(range(64))))] * 4)
too_many('256 clauses of one variable', [clause(5, 1, [V0], TRUE)] * 256)
too_many('in the first of two predicates', [clause(5, 1, [V0], TRUE)] * 256 + [clause(6, 0, [], TRUE)])
too_many('in the second of two predicates', [clause(5, 0, [], TRUE)] + [clause(6, 1, [V0], TRUE)] * 256)
too_many('in the second of two arities', [clause(5, 1, [V0, A], TRUE), clause(5, 1, [V0], TRUE)] * 255 + [clause(5, 1, [A, V0], TRUE)])
too_many('320, which is 64 modulo 256', [clause(5, 64, [], atom(7, *fours(range(64))))] * 5)
too_many('512, which is 0 modulo 256', [clause(5, 1, [V0], TRUE)] * 512)
