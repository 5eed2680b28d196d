"""The first local of a body where bets hold the greatest variable (SPECIFICATION 4), question 9 there, and the value that shows the locals apart."""
from term_cases.bodies import ALONE, BENCH_P, LOCAL, TWO, f
from term_cases.table import *

V4, V5, V8, V10 = var(4), var(5), var(8), var(10)

heading('numbers in bets')
body('the goal holds 4, a bet 9', eq(V4, V10), LOCAL, atom(5, V4), bets=[unifier((9, A))])
body('two locals from 10 on', atom(6, V4, V10, var(11), V10), TWO, atom(5, V4), bets=[unifier((9, A))])
body('the bound variable of a pair', eq(A, V10), LOCAL, atom(5, A), bets=[unifier((9, A))])
body('the bound variable of a pair, its term below it', eq(A, V10), LOCAL, atom(5, A), bets=[unifier((9, f(V3)))])
body('the bound variable of the last of three pairs', eq(A, V10), LOCAL, atom(5, A), bets=[unifier((1, A), (2, V3), (9, V4))])
body('a variable in the term of a pair', eq(A, V10), LOCAL, atom(5, A), bets=[unifier((1, f(A, V9)))])
body('a variable in the term of the first of three pairs', eq(A, V10), LOCAL, atom(5, A), bets=[unifier((1, V9), (2, A), (3, V4))])
body('a variable 2,000 symbols deep in the term of a pair', eq(A, V10), LOCAL, atom(5, A), bets=[unifier((1, chain(2000, V9)))])
MANY = [(v, var(60000) if v == 1999 else A) for v in range(4000)]
body('a variable in the term of one of 4,000 pairs', eq(A, var(60001)), LOCAL, atom(5, A), bets=[unifier(*MANY)])
for words, goal in (('an atom', atom(6, A, V9)), ('an equality, left', eq(V9, A)), ('an equality, right', eq(A, f(V9))),
                    ('a conjunction, first', conj(eq(V9, A), TRUE)), ('a conjunction, second', conj(atom(6), atom(6, V9))),
                    ('a disjunction, first', disj(atom(6, V9), FAIL)), ('a disjunction, second', disj(TRUE, eq(V1, V9))),
                    ('5,000 conjunctions, the last goal', leftward(0x13, 5000, eq(V9, A)))):
    body('BY of ' + words, eq(V4, V10), LOCAL, atom(5, V4), bets=[by(goal)])
body('OR counts for nothing', eq(A, V0), LOCAL, atom(5, A), bets=[chosen(2), chosen(1)])
body('nor does a unifier without pairs', eq(V4, V5), LOCAL, atom(5, V4), bets=[unifier()])
body('nor does BY of a goal without a variable', eq(V0, V1), ALONE, P, bets=[by(TRUE), by(FAIL), by(eq(A, f(B))), by(P)])
body('nor does a symbol or a predicate', eq(A, V0), LOCAL, atom(5, A), bets=[by(atom(300, sym(257, sym(400))))])
body('nor does what a definition holds', eq(A, V0), [*LOCAL, definition(6, 3, 9, atom(5, var(11)))], atom(5, A), bets=[chosen(1)])
OTHERS = [by(eq(V3, A)), unifier((8, V3)), chosen(1), unifier()] * 50
body('below 200 other bets', eq(V4, V10), LOCAL, atom(5, V4), bets=[*OTHERS, unifier((9, A))])
body('on top of 200 other bets', eq(V4, V10), LOCAL, atom(5, V4), bets=[by(atom(6, V9)), *OTHERS])
body('below 16,000 OR', eq(V4, V10), LOCAL, atom(5, V4), bets=[chosen(2)] * 16000 + [unifier((9, A))])
body('the goal is above the bets', eq(V9, V10), LOCAL, atom(5, V9), bets=[unifier((4, V8))])
body('an ancestor is above the bets', eq(V4, V10), LOCAL, atom(5, V4), [in_disj(1, TRUE, atom(6, V9))], [unifier((5, V8))])
body('a bet is above goal and ancestors', eq(V4, V10), LOCAL, atom(5, V4), [in_disj(1, TRUE, atom(6, V8))], [unifier((5, V9))])
body('all three hold the greatest', eq(V9, V10), LOCAL, atom(5, V9), [atom(6, V9)], [unifier((9, A))])
body('the argument stays, though it is bound', eq(V4, V10), LOCAL, atom(5, V4), bets=[unifier((4, f(V9)))])
body('variable 256 in a bet, 255 in the goal', eq(var(255), var(257)), LOCAL, atom(5, var(255)), bets=[unifier((256, A))])
body('variable 255 in a bet, 256 in the goal', eq(var(256), var(257)), LOCAL, atom(5, var(256)), bets=[unifier((255, A))])
for port in 2, 3, 4:
    body(f'any port: {port}', eq(V4, V10), LOCAL, atom(5, V4), bets=[unifier((9, A))], port=port)

heading('numbers in bets, question 9')
MOST, WIDE = [definition(5, 1, 255, eq(V1, var(255)))], [definition(5, 1, 1, atom(6, V0, V0, V0, V0, V0))]
for words, bets in (('as a pair\'s variable', lambda v: [unifier((v, A))]), ('in a pair\'s term', lambda v: [unifier((1, f(A, var(v))))]),
                    ('in BY', lambda v: [by(atom(6, var(v)))]), ('in the lowest of 200 bets', lambda v: [chosen(1)] * 199 + [unifier((v, V1))])):
    body('65,534 ' + words, eq(V4, var(65535)), LOCAL, atom(5, V4), bets=bets(65534))
    body('65,535 ' + words, 9, LOCAL, atom(5, V4), bets=bets(65535))
    body('65,535 ' + words + ', no local', disj(eq(V4, A), eq(V4, B)), [BENCH_P], atom(5, V4), bets=bets(65535))
    body('65,535 ' + words + ', a local that does not occur', 9, [definition(5, 1, 1, TRUE)], atom(5, V4), bets=bets(65535))
    body('65,533 ' + words + ', two locals', atom(6, V4, var(65534), var(65535), var(65534)), TWO, atom(5, V4), bets=bets(65533))
    body('65,534 ' + words + ', two locals', 9, TWO, atom(5, V4), bets=bets(65534))
    body('65,280 ' + words + ', 255 locals', eq(var(65281), var(65535)), MOST, atom(5, V4), bets=bets(65280))
    body('65,281 ' + words + ', 255 locals', 9, MOST, atom(5, V4), bets=bets(65281))
    body('65,535 ' + words + ', no definition', 'none', LOCAL, atom(6), bets=bets(65535))
body('65,535 in a bet: 9 before the output', 9, WIDE, atom(5, chain(2047, A)), bets=[unifier((65535, A))])

# p(A) :- A=g(L). q :- L=1. r(A) :- A=g(2). and the bets at the exit of p(W), (q, r(W)): the locals of p are 1 and 2, that of q 3, that of r 4
ONE, G_OF_2 = sym(1), sym(6, sym(2))
AT_THE_EXIT = [by(conj(eq(V0, V4), eq(V4, G_OF_2))), unifier((2, sym(2))), unifier((4, f(V2))), by(eq(V3, ONE)), unifier((3, ONE)),
               by(conj(eq(V0, V1), eq(V1, f(V2)))), unifier((0, f(V2))), unifier((1, V0))]
heading('numbers in bets, values')
value('p(W), (q, r(W)): W at the exit', G_OF_2, 0, AT_THE_EXIT)
value('p(W), (q, r(W)): the local of p', sym(2), 2, AT_THE_EXIT)
value('p(W), (q, r(W)): the local of q', ONE, 3, AT_THE_EXIT)
