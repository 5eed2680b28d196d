"""A step of the walk that is refused by 8, 9 or 10: the answers before it are kept."""
from answers_cases.table import *

# a term of 8,193 bytes
OVER = chain(2045, sym(9, V1, V1, V1))
FIRST = solution([(0, A), (1, V1)], [chosen(1)])
# r(X) has one local
ONE_LOCAL = definition(6, 1, 1, eq(V0, V1))
LAST = var(65535)
# p(T) :- p(T).
ROUND = atom(5, chain(20, A))
LOOP = definition(5, 1, 0, atom(5, V0))

heading('stopped in the walk')
# call Q,fail, call Q, call V0=a, exit, exit Q; call fail, fail, redo Q, redo V0=a, fail, call of the second half
query('8 at the second half', disj(eq(V0, A), eq(V0, OVER)), want=(8, 10, [FIRST]))
query('8 at once', eq(V0, OVER), want=(8, 1, []))
query('9 at the second half', disj(eq(V0, A), atom(6, LAST)), [ONE_LOCAL], want=(9, 10, [solution([(0, A), (65535, LAST)], [chosen(1)])]))
query('65,534 is no reason for 9', disj(eq(V0, A), atom(6, var(65534))), [ONE_LOCAL], want=6)
query('9 at once', atom(6, LAST), [ONE_LOCAL], want=(9, 1, []))
query('10 at the second half', disj(eq(V0, A), ROUND), [LOOP], want=10)
query('10 without an answer', ROUND, [LOOP], want=10)
query('10 at the third answer\'s half', either(eq(V0, A), eq(V0, B), ROUND), [LOOP], want=10)
query('8 in a body, after two answers', atom(7, V0), [definition(7, 1, 1, either(eq(V0, A), eq(V0, B), eq(V0, chain(2045, sym(9, V1, V1, V1)))))], want=8)
query('the same, with as many steps as go', disj(eq(V0, A), eq(V0, OVER)), steps=10, want=(0, 10, [FIRST]))
query('the same, with one more', disj(eq(V0, A), eq(V0, OVER)), steps=11, want=(8, 10, [FIRST]))
# a walk's locals are above its bets, so they come to 65,535 in 257 calls
query('9 after many calls', either(eq(V0, A), atom(8)), [definition(8, 0, 255, conj(eq(V0, var(254)), atom(8)))], want=9)
