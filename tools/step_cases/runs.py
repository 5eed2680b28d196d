"""Runs: none, one, exactly enough and too many steps, both ways; refused at the first step and on the way."""
from step_cases.bench import NINETEEN, P_OF_V
from step_cases.sizes import filled
from step_cases.table import *

MOST = 4294967295
heading('run forward')
for steps in 0, 1, 8, 18, 19:
    run_forward(f'{steps} of the 19 steps', P_OF_V, NINETEEN[0], steps, want=(0, steps, NINETEEN[steps]))
run_forward('20 steps asked for, 19 made', P_OF_V, NINETEEN[0], 20, want=(6, 19, NINETEEN[19]))
run_forward('4,294,967,295 steps asked for, 19 made', P_OF_V, NINETEEN[0], MOST, want=(6, 19, NINETEEN[19]))
run_forward('from the 12th event', P_OF_V, NINETEEN[12], 7, want=(0, 7, NINETEEN[19]))
run_forward('none from the last event', P_OF_V, NINETEEN[19], 0, want=(0, 0, NINETEEN[19]))
run_forward('refused at its first step by 6', P_OF_V, NINETEEN[19], 1, want=(6, 0, NINETEEN[19]))
run_forward('refused at its first step by 7', P_OF_V, at(REDO, FAIL), MOST, want=(7, 0, at(REDO, FAIL)))
run_forward('none from an event without a rule', P_OF_V, at(REDO, FAIL), 0, want=(0, 0, at(REDO, FAIL)))
run_forward('refused by 7 after one step: redo of fail', P_OF_V, at(FAILS, TRUE, [in_conj(2, FAIL, TRUE)]), 9,
            want=(7, 1, at(REDO, FAIL, [in_conj(1, FAIL, TRUE)])))
run_forward('into an output of 40,000', P_OF_V, NINETEEN[0], 5, 40000, want=(0, 5, NINETEEN[5]))

heading('run back')
for steps in 0, 1, 8, 18, 19:
    run_back(f'{steps} of the 19 steps', P_OF_V, NINETEEN[19], steps, want=(0, steps, NINETEEN[19 - steps]))
run_back('20 steps asked for, 19 made', P_OF_V, NINETEEN[19], 20, want=(6, 19, NINETEEN[0]))
run_back('4,294,967,295 steps asked for, 19 made', P_OF_V, NINETEEN[19], MOST, want=(6, 19, NINETEEN[0]))
run_back('from the 12th event', P_OF_V, NINETEEN[12], 12, want=(0, 12, NINETEEN[0]))
run_back('refused at its first step by 6', P_OF_V, NINETEEN[0], 1, want=(6, 0, NINETEEN[0]))
run_back('refused at its first step by 7', P_OF_V, at(REDO, TRUE), 3, want=(7, 0, at(REDO, TRUE)))
run_back('refused at its first step by the last 7', P_OF_V, at(EXIT, eq(A, B), bets=[unifier()]), 3,
         want=(7, 0, at(EXIT, eq(A, B), bets=[unifier()])))
run_back('refused by 7 after five steps', P_OF_V, at(EXIT, conj(TRUE, TRUE), bets=[chosen(1)]), 9,
         want=(7, 5, at(CALL, conj(TRUE, TRUE), bets=[chosen(1)])))

heading('run that a question stops')
LOOP = program(definition(5, 1, 0, atom(5, V0)))
ROUND = atom(5, chain(20, A))  # 88 bytes, once more on the ancestors at each step
run_forward('p(T) :- p(T). without an end, by 10', LOOP, at(CALL, ROUND), MOST, want=(10, 371, at(CALL, ROUND, [ROUND] * 371)))
run_back('and back', LOOP, at(CALL, ROUND, [ROUND] * 371), MOST, want=(6, 371, at(CALL, ROUND)))
run_back('back from fail p(T), which comes from fail of its body, by 10', LOOP, at(FAILS, ROUND), MOST,
         want=(10, 371, at(FAILS, ROUND, [ROUND] * 371)))
run_forward('p(T) :- p(T). for 300 steps', LOOP, at(CALL, ROUND), 300, want=(0, 300, at(CALL, ROUND, [ROUND] * 300)))
run_back('one of 371 ancestors differs: the last 7 on the way', LOOP, at(CALL, ROUND, [ROUND] * 200 + [atom(5, B)] + [ROUND] * 170), MOST,
         want=(7, 200, at(CALL, ROUND, [atom(5, B)] + [ROUND] * 170)))
run_forward('refused at its first step by 10', LOOP, filled(32768, CALL, ROUND), 5, want=(10, 0, filled(32768, CALL, ROUND)))
FRESH = program(definition(5, 1, 255, atom(5, var(255))))
run_forward('255 locals at each call, by 9', FRESH, at(CALL, atom(5, V0)), MOST, want=9)
run_back('255 locals at each fail read back, by 9', FRESH, at(FAILS, atom(5, V0)), MOST, want=9)
DOUBLING = program(definition(5, 1, 1, conj(eq(V0, sym(6, V1, V1)), atom(5, V1))))
run_forward('X = f(Y,Y), Y = f(Z,Z), .. for 300 steps', DOUBLING, at(CALL, conj(atom(5, V0), TRUE)), 300, want=0)
LONG = program(definition(5, 1, 1, conj(eq(V1, sym(6, V0, V0)), atom(5, V1))))
run_forward('a value that doubles at each call, by 8', LONG, at(CALL, atom(5, A)), MOST, want=8)
OVER = eq(V0, chain(2045, sym(9, V1, V1, V1)))
run_back('fail of a value of 8,193 bytes, by 8 on the way', NO_DEFINITIONS,
         at(FAILS, conj(OVER, TRUE)), MOST, want=(8, 1, at(FAILS, OVER, [in_conj(1, OVER, TRUE)])))
