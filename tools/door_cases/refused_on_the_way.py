"""Events that no walk reaches: a step back is refused by 7, 8, 9 or 10, at once or on the way, and that number comes before 32.

From a reached event no step back is refused before its door. So 6 is never the answer: a way back that ends at a call with both stacks empty is, read
forward, the walk of a query, and the event is one that it reaches.
"""
from door_cases.table import *


def stopped(words, program_record, way, question):
    """the events on the way back, the last of which no step back leaves: under no limit that counts, exactly so many steps, and one less"""
    first, steps = way[0], len(way) - 1
    asked(words, program_record, first, want=(question, steps, way[-1]))
    asked(f'{words}, limit {steps}, spent there', program_record, first, steps, want=(question, steps, way[-1]))
    if steps:
        asked(f'{words}, limit {steps - 1}', program_record, first, steps - 1, want=(32, steps - 1, way[-2]))


DEFINED = program(definition(5, 0, 0, disj(TRUE, FAIL)), definition(6, 1, 1, eq(V0, V1)))
V_IS_A = eq(V0, A)

heading('unreached, and yet a door')
asked('call of a goal that is no half of its ancestor', DEFINED, at(CALL, TRUE, [in_conj(1, FAIL, TRUE)]), 0,
      want=(0, 0, at(CALL, TRUE, [in_conj(1, FAIL, TRUE)])))
asked('call with bets alone', DEFINED, at(CALL, TRUE, bets=[chosen(1)]), want=(0, 0, at(CALL, TRUE, bets=[chosen(1)])))
asked('exit of a goal that is not the body of its ancestor', DEFINED, at(EXIT, TRUE, [P]), want=(0, 1, at(CALL, TRUE, [P])))
asked('exit true, true with a bet that nothing made', DEFINED, at(EXIT, conj(TRUE, TRUE), bets=[chosen(1)]),
      want=(0, 5, at(CALL, conj(TRUE, TRUE), bets=[chosen(1)])))

heading('refused by 7')
stopped('redo true with empty stacks', DEFINED, [at(REDO, TRUE)], 7)
stopped('exit p with OR on top', DEFINED, [at(EXIT, P, bets=[chosen(1)])], 7)
stopped('exit a=b with a unifier: the last 7', DEFINED, [at(EXIT, eq(A, B), bets=[unifier()])], 7)
stopped('exit p with BY an equality, and no unifier below it', DEFINED, [at(EXIT, P, bets=[by(V_IS_A)]), at(EXIT, V_IS_A, [P])], 7)
stopped('exit p with BY a goal that is not its body: the last 7 at a call', DEFINED,
        [at(EXIT, P, bets=[by(TRUE)]), at(EXIT, TRUE, [P]), at(CALL, TRUE, [P])], 7)
HALVES = TRUE, TRUE
stopped('redo true under 1/true,true, which no redo of the two follows', DEFINED,
        [at(REDO, TRUE, [in_conj(1, *HALVES)]), at(FAILS, TRUE, [in_conj(2, *HALVES)]), at(REDO, TRUE, [in_conj(2, *HALVES)]), at(REDO, conj(*HALVES))], 7)
# the call of fail, on the way, has as many ancestors as the redo
IN_BOTH = [[in_conj(tag, P, FAIL)] for tag in (1, 2)]
stopped('redo p with BY a goal that is not its body', DEFINED,
        [at(REDO, P, IN_BOTH[0], [by(TRUE)]), at(FAILS, FAIL, IN_BOTH[1], [by(TRUE)]), at(CALL, FAIL, IN_BOTH[1], [by(TRUE)]),
         at(EXIT, P, IN_BOTH[0], [by(TRUE)]), at(EXIT, TRUE, [P, *IN_BOTH[0]]), at(CALL, TRUE, [P, *IN_BOTH[0]])], 7)

heading('refused by 8')
# V0 and V2 are bound to 512 bytes and to 508 or 509: fifteen times V0 and V2 in a symbol have 8,192 or 8,193
ENDS = {8192: chain(126, A), 8193: chain(124, sym(9, V1, V1, V1))}
FULL = eq(sym(9, *[V0] * 15, V2), B)


def bound(length):
    assert 4 + 15 * len(chain(127, A)) + len(ENDS[length]) == length
    return [unifier((0, chain(127, A)), (2, ENDS[length]))]


asked('fail of a value of 8,192 bytes', DEFINED, at(FAILS, FULL, bets=bound(8192)), want=(0, 1, at(CALL, FULL, bets=bound(8192))))
stopped('fail of a value of 8,193 bytes', DEFINED, [at(FAILS, FULL, bets=bound(8193))], 8)
stopped('fail of it and of another goal', DEFINED,
        [at(FAILS, conj(FULL, TRUE), bets=bound(8193)), at(FAILS, FULL, [in_conj(1, FULL, TRUE)], bound(8193))], 8)
stopped('exit of it, under a unifier that is not the one: 8 before the last 7', DEFINED, [at(EXIT, FULL, bets=[unifier(), *bound(8193)])], 8)

heading('refused by 9')
LAST, ONE_LOCAL = var(65535), atom(6, var(65535))
stopped('fail of an atom whose local would be variable 65,536', DEFINED, [at(FAILS, ONE_LOCAL)], 9)
stopped('fail of it in a disjunction', DEFINED, [at(FAILS, disj(FAIL, ONE_LOCAL)), at(FAILS, ONE_LOCAL, [in_disj(2, FAIL, ONE_LOCAL)])], 9)
stopped('exit of it with BY some goal: 9 before the last 7', DEFINED,
        [at(EXIT, ONE_LOCAL, bets=[by(TRUE)]), at(EXIT, TRUE, [ONE_LOCAL]), at(CALL, TRUE, [ONE_LOCAL])], 9)
asked('exit of an atom whose local is variable 65,535', DEFINED,
      at(EXIT, atom(6, var(65534)), bets=[by(eq(var(65534), LAST)), unifier((65535, var(65534)))]), want=(0, 3, at(CALL, atom(6, var(65534)))))

heading('refused by 10')
# V1=g(V0,V0), V2=g(V1,V1), ..: each pair of the unifier is twice as long as the one before
TOWER = eq(sym(9, *[var(v) for v in range(1, 15)]), sym(9, *[sym(7, var(v), var(v)) for v in range(14)]))
stopped('fail of an equality whose unifier is too long', DEFINED, [at(FAILS, TOWER)], 10)
stopped('fail of it in a conjunction', DEFINED, [at(FAILS, conj(TOWER, TRUE)), at(FAILS, TOWER, [in_conj(1, TOWER, TRUE)])], 10)
# p(T) :- p(T): fail p(T) comes from fail of its body, with one ancestor more
LOOP = program(definition(5, 1, 0, atom(5, V0)))
ROUND = atom(5, chain(1200, A))
stopped('p(T) :- p(T).', LOOP, [at(FAILS, ROUND, [ROUND] * n) for n in range(6)], 10)
