"""Which exits are answers: those of the query whose only ancestor is 1/Q,fail, each of them, in the walk's order."""
from answers_cases.table import *

EMPTY = solution([])

heading('no variables')
# call Q,fail, call true, exit true, call fail, fail fail, redo true, fail true, fail Q,fail
query('true', TRUE, want=(6, 7, [EMPTY]))
query('fail', FAIL, want=(6, 3, []))
query('a=a', eq(A, A), want=(6, 7, [EMPTY]))
query('a=b', eq(A, B), want=(6, 3, []))
query('true, true', conj(TRUE, TRUE), want=(6, 15, [EMPTY]))
query('an atom without a definition', P, want=(6, 3, []))
query('an atom whose body is true', P, [definition(5, 0, 0, TRUE)], want=(6, 11, [solution([], [by(TRUE)])]))

heading('every exit')
query('p(V) with body V=a;V=b', P_OF_V, [LIT], want=(6, 25, [RED, GREEN]))
query('true;true: two answers without a value', disj(TRUE, TRUE), want=(6, 19, [solution([], [chosen(1)]), solution([], [chosen(2)])]))
SAME = disj(eq(V0, A), eq(V0, A))
query('equal values are two answers', P_OF_V, [definition(5, 1, 0, SAME)],
      want=(6, 25, [solution([(0, A)], [chosen(n), by(SAME)]) for n in (1, 2)]))
query('three equal ones, other ones between them', either(*[eq(V0, t) for t in (A, B, A, B, A)]), want=6)
query('fail, then exit, then fail', either(eq(V0, sym(6, V0)), eq(V0, A), FAIL), want=6)
query('two by two', conj(disj(eq(V0, A), eq(V0, B)), disj(eq(V1, A), eq(V1, B))), want=6)
query('the first half of the query exits, the second does not', conj(P_OF_V, eq(V0, sym(4))), [LIT], want=6)
query('the second half exits for one of the two', conj(P_OF_V, eq(V0, B)), [LIT], want=6)

heading('exits deeper down')
# p :- true ; p.
AGAIN = disj(TRUE, P)
LOOPING = definition(5, 0, 0, AGAIN)


def deeper(n):
    """the n-th answer of p: n - 1 times the second half"""
    return solution([], [chosen(1), by(AGAIN)] + [chosen(2), by(AGAIN)] * (n - 1))


query('p :- true ; p., the first exit of p', P, [LOOPING], steps=6, want=(0, 6, [deeper(1)]))
query('p :- true ; p., the inner exit of p', P, [LOOPING], steps=18, want=(0, 18, [deeper(1)]))
query('p :- true ; p., the second exit of p', P, [LOOPING], steps=20, want=(0, 20, [deeper(1), deeper(2)]))
query('p :- true ; p., 200 steps', P, [LOOPING], steps=200, want=0)
# p(X) :- true ; (p(X), fail).: the inner p(T) exits under 1/p(T),fail too. T is long, so that soon no event fits
T = chain(100, A)
OUTER = disj(TRUE, conj(atom(5, T), FAIL))
DOWN = definition(5, 1, 0, disj(TRUE, conj(atom(5, V0), FAIL)))
query('p(X) :- true ; (p(X), fail)., 100 steps', atom(5, T), [DOWN], steps=100, want=(0, 100, [solution([], [chosen(1), by(OUTER)])]))
query('p(X) :- true ; (p(X), fail)., until an event does not fit', atom(5, T), [DOWN], want=(10, None, [solution([], [chosen(1), by(OUTER)])]))
query('p(X) :- (p(X), fail) ; true.', atom(5, T), [definition(5, 1, 0, disj(conj(atom(5, V0), FAIL), TRUE))], want=(10, None, []))
query('p :- q, fail. with q :- true ; p.', P, [definition(5, 0, 0, conj(atom(6), FAIL)), definition(6, 0, 0, disj(TRUE, P))], steps=300, want=(0, 300, []))
query('true, fail', conj(TRUE, FAIL), want=6)
query('(true, fail), fail', conj(conj(TRUE, FAIL), FAIL), want=6)
query('p(V), fail', conj(P_OF_V, FAIL), [LIT], want=6)
query('(true, fail) ; true', disj(conj(TRUE, FAIL), TRUE), want=6)
query('true ; (true, fail)', disj(TRUE, conj(TRUE, FAIL)), want=6)
query('true within true', conj(TRUE, disj(TRUE, TRUE)), want=6)
# q(a). q(f(Z)) :- q(Z).
NESTED = definition(7, 1, 1, disj(conj(eq(V0, A), TRUE), conj(eq(V0, sym(6, V1)), atom(7, V1))))
query('q(a). q(f(Z)) :- q(Z)., 250 steps', atom(7, V0), [NESTED], steps=250, want=0)
query('q(f(f(a)))', atom(7, chain(2, A)), [NESTED], want=6)
query('q(f(f(b)))', atom(7, chain(2, B)), [NESTED], want=6)

heading('lists')
# app([], Y, Y). app([H|T], Y, [H|Z]) :- app(T, Y, Z).
NIL = sym(0)


def cons(h, t):
    return sym(1, h, t)


X0, X1, X2 = V0, V1, V2
APPEND = definition(1, 3, 5, disj(
    joined(eq(X0, NIL), eq(X1, V3), eq(X2, V3), TRUE),
    joined(eq(X0, cons(var(4), var(5))), eq(X1, var(6)), eq(X2, cons(var(4), var(7))), atom(1, var(5), var(6), var(7)))))
AB = cons(A, cons(B, NIL))
query('app(X, Y, [a,b])', atom(1, V0, V1, AB), [APPEND], want=6)
query('app(X, Y, [a,b]), Y the lower variable', atom(1, V9, V3, AB), [APPEND], want=6)
query('app([a|X], Y, [Z,b])', atom(1, cons(A, V2), V1, cons(V0, cons(B, NIL))), [APPEND], want=6)
