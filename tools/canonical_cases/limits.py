"""Question 10: a program's record has at most 32,768 bytes; and question 9, which is put over all predicates before it."""
from canonical_cases.table import *

heading('size')
# A fact p(a, .., a) of arity 16 has 69 bytes; its branch has 16 * 9 + 1 and the byte that joins it. 5 bytes stand before the definitions, and a
# definition has 4 of its own, but its last branch is joined to none: 5 + 3 + 224 * 146 = 32,712. A symbol more around a term is 4 bytes more.
wide_fact, wide_branch = clause(5, 0, [A] * 16, TRUE), all_of(*[eq(var(x), A) for x in range(16)], TRUE)


def last(n, goal):
    return clause(5, 0, [chain(n, A)] + [A] * 15, goal)


def last_branch(n, goal):
    return all_of(eq(V0, chain(n, A)), *[eq(var(x), A) for x in range(1, 16)], goal)


becomes('224 clauses of arity 16', [wide_fact] * 224, [definition(5, 16, 0, one_of(*[wide_branch] * 224))], size=32712)
becomes('32,768 bytes of 224 clauses', [wide_fact] * 223 + [last(14, TRUE)], [definition(5, 16, 0, one_of(*[wide_branch] * 223, last_branch(14, TRUE)))], size=32768)
# true, P has 5 bytes more than true: 32,712 + 5 + 52
too_long('32,769 bytes of 224 clauses', [wide_fact] * 223 + [last(13, conj(TRUE, P))])
becomes('32,767 bytes of 224 clauses', [wide_fact] * 223 + [last(13, P)], [definition(5, 16, 0, one_of(*[wide_branch] * 223, last_branch(13, P)))], size=32767)
too_long('two branches of arity 16 too many', [wide_fact] * 226)
too_long('474 clauses of arity 16, 69,212 bytes', [wide_fact] * 474)

# One clause p(a) has 8 bytes before its goal, its definition 13, and either record 5 before that. n conjunctions of true to the right have 2n bytes
# and the last goal.
becomes('32,768 bytes of one clause of arity 0', [clause(5, 0, [], rightward(0x13, 16379, TRUE))], [definition(5, 0, 0, rightward(0x13, 16379, TRUE))],
        size=32768, read=32768)
becomes('32,768 bytes of one clause of arity 1', [clause(5, 0, [A], rightward(0x13, 16373, P))],
        [definition(5, 1, 0, conj(eq(V0, A), rightward(0x13, 16373, P)))], size=32768, read=32763)
too_long('32,769 bytes of one clause of arity 1', [clause(5, 0, [A], rightward(0x13, 16375, TRUE))])
becomes('32,768 bytes, most of one term', [clause(5, 1, [chain(8187, V0)], conj(TRUE, TRUE))],
        [definition(5, 1, 1, conj(eq(V0, chain(8187, V1)), conj(TRUE, TRUE)))], size=32768, read=32763)

heading('thousands of predicates')
# a fact of arity 0 has 5 bytes, and so has its definition
becomes('6,552, rising', [clause(n, 0, [], TRUE) for n in range(6552)], [definition(n, 0, 0, TRUE) for n in range(6552)], size=32765, read=32765)
becomes('6,552, falling', [clause(n, 0, [], TRUE) for n in range(6551, -1, -1)], [definition(n, 0, 0, TRUE) for n in range(6552)], size=32765)
# 6,553 is a prime number, so 1,000 * n modulo 6,553 goes through all of 0 to 6,552; 0 is left out
becomes('6,552, mixed', [clause(1000 * n % 6553, 0, [], TRUE) for n in range(1, 6553)], [definition(n, 0, 0, TRUE) for n in range(1, 6553)], size=32765)
becomes('6,552, mixed, 32,768 bytes', [clause(1000 * n % 6553, 0, [], TRUE) for n in range(1, 6552)] + [clause(5553, 0, [], P)],
        [definition(n, 0, 0, P if n == 5553 else TRUE) for n in range(1, 6553)], size=32768, read=32768)
# a pair of facts of one predicate has 10 bytes, and its definition 4 + 3
becomes('3,276 of two facts each', [clause(n, 0, [], goal) for goal in (TRUE, FAIL) for n in range(3276)],
        [definition(n, 0, 0, disj(TRUE, FAIL)) for n in range(3276)], size=5 + 7 * 3276)

heading('9 before 10')
many = [clause(9, 1, [V0], TRUE)] * 256
too_many('too long in a lower predicate', [wide_fact] * 230 + many)
too_many('too long in a higher predicate', [clause(4, 1, [V0], TRUE)] * 256 + [wide_fact] * 230)
too_many('too long without the predicate that has too many', many + [wide_fact] * 300)
too_many('too long together alone', [wide_fact] * 220 + many)
too_long('255 in a higher predicate', [wide_fact] * 230 + many[1:])
