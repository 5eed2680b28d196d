"""The numbers of a body's locals where bets hold the greatest variable (SPECIFICATION 4): forward, back from the body's call, and back from fail P."""
from step_cases import p_q_r
from step_cases.sizes import filled
from step_cases.table import *

V4, V5, V8, V10 = var(4), var(5), var(8), var(10)
LAST = var(65535)
# one local, none, one that does not occur, two, and 255
ONE, NONE, UNUSED, TWO, MOST = 5, 6, 7, 8, 9
LOCALS = program(definition(ONE, 1, 1, eq(V0, V1)), definition(NONE, 1, 0, eq(V0, A)), definition(UNUSED, 1, 1, TRUE),
                 definition(TWO, 1, 2, eq(V1, V2)), definition(MOST, 0, 255, eq(V0, var(254))))


def numbered(words, goal, its_body, ancestors=(), bets=()):
    """call P to call of that body and back, and fail P back to fail of that body"""
    there_and_back(words, LOCALS, at(CALL, goal, ancestors, bets), at(CALL, its_body, [goal, *ancestors], bets))
    back(words + ', from fail P', LOCALS, at(FAILS, goal, ancestors, bets), want=(0, at(FAILS, its_body, [goal, *ancestors], bets)))


def too_high(words, goal, ancestors=(), bets=()):
    """9 in the three places where a body is numbered; which goal is called under P does not matter"""
    forward(words, LOCALS, at(CALL, goal, ancestors, bets), want=(9, None))
    back(words + ', from a call under P', LOCALS, at(CALL, TRUE, [goal, *ancestors], bets), want=(9, None))
    back(words + ', from fail P', LOCALS, at(FAILS, goal, ancestors, bets), want=(9, None))


def not_its_body(words, goal, ancestors, bets):
    """the last 7"""
    back(words, LOCALS, at(CALL, goal, ancestors, bets), want=(7, None))


heading('numbers in bets')
numbered('the goal holds 4, a bet 9', atom(ONE, V4), eq(V4, V10), bets=[unifier((9, A))])
numbered('two locals from 10 on', atom(TWO, V4), eq(V10, var(11)), bets=[unifier((9, A))])
numbered('the bound variable of a pair', atom(ONE, A), eq(A, V10), bets=[unifier((9, A))])
numbered('the bound variable of the last of three pairs', atom(ONE, A), eq(A, V10), bets=[unifier((1, A), (2, V3), (9, V4))])
numbered('a variable in the term of a pair', atom(ONE, A), eq(A, V10), bets=[unifier((1, sym(6, A, V9)))])
numbered('a variable in the term of the first of three pairs', atom(ONE, A), eq(A, V10), bets=[unifier((1, V9), (2, A), (3, V4))])
numbered('BY of an atom', atom(ONE, V4), eq(V4, V10), bets=[by(atom(NONE, V9))])
numbered('BY of a conjunction, in its second half', atom(ONE, V4), eq(V4, V10), bets=[by(conj(eq(V1, V2), eq(A, V9)))])
numbered('BY of a disjunction, in its first half', atom(ONE, V4), eq(V4, V10), bets=[by(disj(eq(V9, A), TRUE))])
numbered('OR counts for nothing', atom(ONE, A), eq(A, V0), bets=[chosen(2), chosen(1)])
numbered('nor does a unifier without pairs', atom(ONE, V4), eq(V4, V5), bets=[unifier()])
numbered('nor does a symbol or a predicate', atom(ONE, A), eq(A, V0), bets=[by(atom(300, sym(257, sym(400))))])
numbered('below OR', atom(ONE, V4), eq(V4, V10), bets=[chosen(2), by(atom(NONE, V9))])
OTHERS = [by(eq(V3, A)), unifier((8, V3)), chosen(1), unifier()] * 50
numbered('below 200 other bets', atom(ONE, V4), eq(V4, V10), bets=[*OTHERS, unifier((9, A))])
numbered('on top of 200 other bets', atom(ONE, V4), eq(V4, V10), bets=[unifier((9, A)), *OTHERS])
numbered('the goal is above the bets', atom(ONE, V9), eq(V9, V10), bets=[unifier((4, V8))])
numbered('an ancestor is above the bets', atom(ONE, V4), eq(V4, V10), [in_disj(1, TRUE, atom(NONE, V9))], [unifier((5, V8))])
numbered('a bet is above goal and ancestors', atom(ONE, V4), eq(V4, V10), [in_disj(1, TRUE, atom(NONE, V8))], [unifier((5, V9))])
numbered('all three hold the greatest', atom(ONE, V9), eq(V9, V10), [atom(NONE, V9)], [unifier((9, A))])
numbered('the argument stays, though it is bound', atom(ONE, V4), eq(V4, V10), bets=[unifier((4, sym(6, V9)))])
numbered('variable 256 in a bet, 255 in the goal', atom(ONE, var(255)), eq(var(255), var(257)), bets=[unifier((256, A))])

heading('numbers in bets, question 9')
PARTS = [('as a pair\'s variable', lambda v: [unifier((v, A))]), ('in a pair\'s term', lambda v: [unifier((1, sym(6, A, var(v))))]),
         ('in BY', lambda v: [by(atom(NONE, var(v)))]), ('in the lowest of 200 bets', lambda v: [chosen(1)] * 199 + [unifier((v, V1))])]
for words, bets in PARTS:
    numbered('65,534 ' + words, atom(ONE, V4), eq(V4, LAST), bets=bets(65534))
    too_high('65,535 ' + words, atom(ONE, V4), bets=bets(65535))
    numbered('65,535 ' + words + ', no local', atom(NONE, V4), eq(V4, A), bets=bets(65535))
    too_high('65,535 ' + words + ', a local that does not occur', atom(UNUSED, V4), bets=bets(65535))
    too_high('65,534 ' + words + ', two locals', atom(TWO, V4), bets=bets(65534))
numbered('65,533 in a bet, two locals', atom(TWO, V4), eq(var(65534), LAST), bets=[unifier((65533, A))])
numbered('65,280 in a bet, 255 locals', atom(MOST), eq(var(65281), LAST), bets=[by(eq(V3, var(65280)))])
too_high('65,281 in a bet, 255 locals', atom(MOST), bets=[by(eq(V3, var(65281)))])
too_high('65,535 in a bet, some ancestors', atom(ONE, V4), [in_conj(2, TRUE, atom(ONE, V4)), P], [by(P), unifier((65535, A))])
HIGHEST = [unifier((65535, A))]
there_and_back('65,535 in a bet, no definition', LOCALS, at(CALL, atom(4), bets=HIGHEST), at(FAILS, atom(4), bets=HIGHEST))
back('65,535 in a bet, no definition, from a call under P: the last 7', LOCALS, at(CALL, TRUE, [atom(4)], HIGHEST), want=(7, None))
forward('65,535 in BY on top: redo P has no question 9', LOCALS, at(REDO, atom(ONE, V4), bets=[by(eq(V4, LAST))]),
        want=(0, at(REDO, eq(V4, LAST), [atom(ONE, V4)])))
back('65,535 in BY on top: exit P has no question 9', LOCALS, at(EXIT, atom(ONE, V4), bets=[by(eq(V4, LAST))]),
     want=(0, at(EXIT, eq(V4, LAST), [atom(ONE, V4)])))
forward('65,535 in a bet: fail under P has no question 9', LOCALS, at(FAILS, TRUE, [atom(ONE, V4)], HIGHEST),
        want=(0, at(FAILS, atom(ONE, V4), bets=HIGHEST)))
forward('65,535 in a bet: 9 before 10', LOCALS, filled(32768, CALL, atom(ONE, V4), on_top=HIGHEST), want=(9, None))
back('65,535 in a bet: 9 before 10, from fail P', LOCALS, filled(32768, FAILS, atom(ONE, V4), on_top=HIGHEST), want=(9, None))

heading('numbers in bets, last 7')
for words, bets in PARTS:
    not_its_body('numbered by goal and ancestors, 9 ' + words, eq(V4, V5), [atom(ONE, V4)], bets(9))
not_its_body('numbered by goal and ancestors, 9 in a bet, 7 in an ancestor', eq(V4, V8), [atom(ONE, V4), P, atom(NONE, var(7))], [unifier((9, A))])
not_its_body('numbered by a bet that is not there', eq(V4, V10), [atom(ONE, V4)], [])
not_its_body('numbered by a lower bet than the greatest', eq(V4, var(8)), [atom(ONE, V4)], [unifier((7, A)), by(eq(V9, A))])
not_its_body('numbered past the body\'s own local', eq(V4, var(11)), [atom(ONE, V4)], [unifier((9, A))])
numbered('no local: any bets do', atom(NONE, V4), eq(V4, A), bets=[unifier((9, A)), by(eq(LAST, A))])

heading('numbers in bets, runs')
run_forward('p(W), (q, r(W)) to its exit', p_q_r.PROGRAM, p_q_r.EVENTS[0], 4294967295, want=(6, 23, p_q_r.EVENTS[23]))
run_back('and back', p_q_r.PROGRAM, p_q_r.EVENTS[23], 4294967295, want=(6, 23, p_q_r.EVENTS[0]))
run_back('back from r(W) to the call of q', p_q_r.PROGRAM, p_q_r.EVENTS[14], 4, want=(0, 4, p_q_r.EVENTS[10]))

# Each call leaves its locals in bets alone, so 257 calls take the numbers 0 to 65,534. Each of them makes 3 steps; the 257 conjunctions are called
# and go on to their second half; 8 of them hold the last call in that half, and the other 249 exit.
MANY = at(CALL, halved(258, atom(MOST)))
STEPS = 257 * 3 + 257 + 257 + 249
TAKEN = [(255 * k, 255 * k + 254) for k in reversed(range(257))]
STUCK = at(CALL, atom(MOST), [in_conj(2, halved(n - n // 2, atom(MOST)), halved(n // 2, atom(MOST))) for n in (2, 4, 8, 16, 32, 64, 129, 258)],
           [bet for v, w in TAKEN for bet in (by(eq(var(v), var(w))), unifier((w, var(v))))])
run_forward('258 calls with 255 locals each, none of them in an ancestor: the last by 9', LOCALS, MANY, 4294967295, want=(9, STEPS, STUCK))
run_back('and back', LOCALS, STUCK, 4294967295, want=(6, STEPS, MANY))
