"""Questions 5, 8 and 9 exactly at their boundaries, forward and back."""
from step_cases.table import *

heading('question 5')
for room, wanted in (0, 5), (1, 5), (32767, 5), (32768, 0), (32769, 0), (40000, 0):
    words = f'output {room:,}'
    query(words, record(TRUE), room, want=wanted)
    forward(words, NO_DEFINITIONS, at(CALL, TRUE), room, want=wanted)
    back(words, NO_DEFINITIONS, at(EXIT, TRUE), room, want=wanted)
for steps in 0, 1:
    run_forward(f'output 32,767, run of {steps}', NO_DEFINITIONS, at(CALL, TRUE), steps, 32767, want=(5, 0, None))
    run_forward(f'output 32,768, run of {steps}', NO_DEFINITIONS, at(CALL, TRUE), steps, 32768, want=(0, steps, at(CALL + steps, TRUE)))
    run_back(f'output 32,767, run of {steps}', NO_DEFINITIONS, at(EXIT, TRUE), steps, 32767, want=(5, 0, None))
    run_back(f'output 32,768, run of {steps}', NO_DEFINITIONS, at(EXIT, TRUE), steps, 32768, want=(0, steps, at(EXIT - steps, TRUE)))

# terms of 8,192 and of 8,193 bytes; OUTER has 7,391, and 8,192 or 8,193 once V2 has become one of the two INNER terms
LONGEST, LONGER = chain(2047, A), chain(2045, sym(9, V1, V1, V1))
OUTER, INNER, INNER_LONGER = chain(1847, V2), chain(200, A), chain(198, sym(9, V1, V1, V1))
assert (len(LONGEST), len(LONGER)) == (8192, 8193)
assert (len(OUTER) - 3 + len(INNER), len(OUTER) - 3 + len(INNER_LONGER)) == (8192, 8193)


def step_8(service, words, port, t, u, *bets, want):
    service(words, NO_DEFINITIONS, at(port, eq(t, u), bets=bets), want=want)


heading('question 8 forward')
step_8(forward, '8,192 bytes on the left', CALL, LONGEST, V2, want=0)
step_8(forward, '8,192 bytes on the right', CALL, V2, LONGEST, want=0)
step_8(forward, '8,193 bytes on the left', CALL, LONGER, V2, want=(8, None))
step_8(forward, '8,193 bytes on the right', CALL, V2, LONGER, want=(8, None))
step_8(forward, '8,193 bytes, and no unifier', CALL, LONGER, A, want=(8, None))
step_8(forward, 'both 8,192 bytes', CALL, LONGEST, LONGEST, want=(0, at(EXIT, eq(LONGEST, LONGEST), bets=[unifier()])))
step_8(forward, 'V0 bound to 8,192 bytes', CALL, V0, A, unifier((0, LONGEST)), want=(0, at(FAILS, eq(V0, A), bets=[unifier((0, LONGEST))])))
step_8(forward, 'V0 bound to 8,193 bytes', CALL, V0, A, unifier((0, LONGER)), want=(8, None))
step_8(forward, '8,192 bytes by two unifiers', CALL, A, V0, unifier((2, INNER)), unifier((0, OUTER)), want=0)
step_8(forward, '8,193 bytes by two unifiers', CALL, A, V0, unifier((2, INNER_LONGER)), unifier((0, OUTER)), want=(8, None))
step_8(forward, '8,193 bytes in a bet that is not used', CALL, V1, A, unifier((0, LONGER)), want=0)
step_8(forward, 'V0 100 times, bound to 100 bytes', CALL, sym(9, *[sym(9, *[V0] * 10)] * 10), V1, unifier((0, chain(24, A))), want=(8, None))
step_8(forward, 'redo has no question 8', REDO, LONGER, A, unifier(), want=(0, at(FAILS, eq(LONGER, A))))

heading('question 8 back')
TWICE = sym(9, V0, V0), sym(9, V0, chain(1500, A))
step_8(back, 'exit, 8,192 bytes', EXIT, V2, LONGEST, unifier((2, LONGEST)), want=(0, at(CALL, eq(V2, LONGEST))))
step_8(back, 'exit, 8,193 bytes', EXIT, V2, LONGER, unifier((2, LONGER)), want=(8, None))
step_8(back, 'exit, 8,193 bytes and a unifier that is not the one: 8 before the last 7', EXIT, V2, LONGER, unifier(), want=(8, None))
step_8(back, 'exit, 8,193 bytes and OR on top: the first 7 before 8', EXIT, V2, LONGER, chosen(1), want=(7, None))
step_8(back, 'exit, S being the call\'s: the top unifier is not applied', EXIT, *TWICE, unifier((0, chain(1500, A))), want=(0, at(CALL, eq(*TWICE))))
step_8(back, 'exit, 8,193 bytes by a lower unifier', EXIT, V0, V2, unifier((2, A)), unifier((0, LONGER)), want=(8, None))
step_8(back, 'fail, 8,192 bytes, which unify', FAILS, V2, LONGEST, want=(0, at(REDO, eq(V2, LONGEST), bets=[unifier((2, LONGEST))])))
step_8(back, 'fail, 8,192 bytes, which do not', FAILS, B, LONGEST, want=(0, at(CALL, eq(B, LONGEST))))
step_8(back, 'fail, 8,193 bytes', FAILS, V2, LONGER, want=(8, None))
step_8(back, 'fail, 8,193 bytes and no unifier', FAILS, B, LONGER, want=(8, None))
step_8(back, 'fail, 8,193 bytes by the top unifier', FAILS, V0, A, unifier((0, LONGER)), want=(8, None))

# one local that occurs, none, one that does not, two, and 255
LOCALS = program(definition(5, 1, 1, eq(V0, V1)), definition(6, 1, 0, eq(V0, A)), definition(7, 1, 1, TRUE), definition(8, 1, 2, eq(V1, V2)),
                 definition(9, 0, 255, eq(V0, var(254))))

heading('question 9 forward')
for v, wanted in (65534, 0), (65535, 9):
    words = f'variable {v:,} '
    forward(words + 'and one local', LOCALS, at(CALL, atom(5, var(v))), want=wanted)
    forward(words + 'and one local that does not occur', LOCALS, at(CALL, atom(7, var(v))), want=wanted)
    forward(words + 'in an ancestor\'s other half', LOCALS, at(CALL, atom(5, V3), [in_disj(1, atom(5, V3), eq(var(v), A))]), want=wanted)
    forward(words + 'in the lowest of three ancestors', LOCALS, at(CALL, atom(5, V3), [P, P, atom(5, A, var(v))]), want=wanted)
forward('variable 65,533 and two locals', LOCALS, at(CALL, atom(8, var(65533))),
        want=(0, at(CALL, eq(var(65534), var(65535)), [atom(8, var(65533))])))
forward('variable 65,534 and two locals', LOCALS, at(CALL, atom(8, var(65534))), want=(9, None))
forward('variable 65,280 and 255 locals', LOCALS, at(CALL, atom(9), [atom(5, var(65280))]),
        want=(0, at(CALL, eq(var(65281), var(65535)), [atom(9), atom(5, var(65280))])))
forward('variable 65,281 and 255 locals', LOCALS, at(CALL, atom(9), [atom(5, var(65281))]), want=(9, None))
forward('variable 65,535 and no local', LOCALS, at(CALL, atom(6, var(65535))), want=(0, at(CALL, eq(var(65535), A), [atom(6, var(65535))])))
forward('variable 65,535 and no definition', LOCALS, at(CALL, atom(5, var(65535), A)), want=(0, at(FAILS, atom(5, var(65535), A))))
forward('variable 65,535 in bets alone', LOCALS, at(CALL, atom(5, V3), bets=[unifier((65535, A)), by(eq(var(65535), A))]), want=(9, None))
forward('no variable at all: the first local is 0', LOCALS, at(CALL, atom(5, A)), want=(0, at(CALL, eq(A, V0), [atom(5, A)])))
forward('fail under an atom has no question 9', LOCALS, at(FAILS, TRUE, [atom(5, var(65535))]), want=(0, at(FAILS, atom(5, var(65535)))))

heading('question 9 back')
back('call of the body, variable 65,534', LOCALS, at(CALL, eq(var(65534), var(65535)), [atom(5, var(65534))]),
     want=(0, at(CALL, atom(5, var(65534)))))
back('call of some goal, variable 65,535: 9 before the last 7', LOCALS, at(CALL, eq(var(65535), A), [atom(5, var(65535))]), want=(9, None))
back('call of some goal, variable 65,535, no definition', LOCALS, at(CALL, eq(var(65535), A), [atom(5)]), want=(7, None))
back('variable 65,535 in the goal alone does not count', LOCALS, at(CALL, eq(V3, var(65535)), [atom(5, V3)]), want=(7, None))
back('fail P, variable 65,534', LOCALS, at(FAILS, atom(5, var(65534))), want=(0, at(FAILS, eq(var(65534), var(65535)), [atom(5, var(65534))])))
back('fail P, variable 65,535', LOCALS, at(FAILS, atom(5, var(65535))), want=(9, None))
back('fail P, variable 65,535 in an ancestor', LOCALS, at(FAILS, atom(5, V3), [in_conj(2, eq(var(65535), A), TRUE)]), want=(9, None))
back('fail P, variable 65,535 and no definition', LOCALS, at(FAILS, atom(5, var(65535), A)), want=(0, at(CALL, atom(5, var(65535), A))))
back('exit P has no question 9', LOCALS, at(EXIT, atom(5, var(65535)), bets=[by(TRUE)]), want=(0, at(EXIT, TRUE, [atom(5, var(65535))])))
