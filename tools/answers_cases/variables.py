"""The pairs: each variable of the query once, by rising number, with its value under all bets; an unbound one with itself."""
from answers_cases.table import *

LAST = var(65535)


def f(*args):
    return sym(6, *args)


heading('unbound')
query('V0=V0', eq(V0, V0), want=(6, 7, [solution([(0, V0)])]))
query('p(V3, V9) with body true', atom(5, V3, V9), [definition(5, 2, 0, TRUE)], want=(6, 11, [solution([(3, V3), (9, V9)], [by(TRUE)])]))
query('V9=V3: the lower one stays', eq(V9, V3), want=(6, 7, [solution([(3, V3), (9, V3)])]))
query('V3=V9', eq(V3, V9), want=(6, 7, [solution([(3, V3), (9, V3)])]))
query('bound in one half alone', disj(eq(V0, A), eq(V1, B)), want=(6, 19, [solution([(0, A), (1, V1)], [chosen(1)]), solution([(0, V0), (1, B)], [chosen(2)])]))
query('in a half that is never called', disj(TRUE, conj(FAIL, eq(V9, A))), want=6)
query('bound to a term with a local', atom(5, V0), [definition(5, 1, 1, eq(V0, f(V1)))],
      want=(6, 11, [solution([(0, f(V1))], [by(eq(V0, f(V1)))])]))
query('the local is above all of the query', atom(5, V9, V2), [definition(5, 2, 1, eq(V1, f(V2, V0)))],
      want=(6, 11, [solution([(2, f(var(10), V9)), (9, V9)], [by(eq(V2, f(var(10), V9)))])]))

heading('rising')
query('3, 2, 1, 0', joined(eq(V3, A), eq(V2, B), eq(V1, A), eq(V0, B)), want=6)
query('9, 3, 9, 0, 65,535, 3', atom(5, V9, V3, V9, V0, LAST, V3), [definition(5, 6, 0, eq(V1, A))],
      want=(6, 11, [solution([(0, V0), (3, A), (9, V9), (65535, LAST)], [by(eq(V3, A))])]))
query('256 before 511, behind 255 and 1', atom(5, var(511), var(256), var(1), var(255)), [definition(5, 4, 0, TRUE)],
      want=(6, 11, [solution([(v, var(v)) for v in (1, 255, 256, 511)], [by(TRUE)])]))
query('0 and 65,535', eq(LAST, V0), want=(6, 7, [solution([(0, V0), (65535, V0)])]))
query('65,535 alone', eq(LAST, A), want=(6, 7, [solution([(65535, A)])]))
query('0 alone', eq(A, V0), want=(6, 7, [solution([(0, A)])]))
query('63, 64 and 65', atom(5, var(65), var(63), var(64), var(63)), [definition(5, 4, 0, TRUE)], want=6)
query('all of 0 to 99, falling', halved_all([eq(var(v), sym(v)) for v in range(99, -1, -1)]), want=6)

heading('each once')
query('one variable 16 times', atom(5, *[V3] * 16), [definition(5, 16, 0, eq(V0, A))], want=(6, 11, [solution([(3, A)], [by(eq(V3, A))])]))
query('within terms, on both sides', eq(f(V2, f(V1, V2)), f(V0, f(V2, A))), want=6)
query('in several halves', conj(disj(eq(V1, A), eq(V2, V1)), conj(eq(V1, V1), eq(V2, B))), want=6)

heading('values')
query('V0=f(V1), V1=g(V2), V2=a', joined(eq(V0, f(V1)), eq(V1, sym(7, V2)), eq(V2, A)),
      want=(6, 23, [solution([(0, f(sym(7, A))), (1, sym(7, A)), (2, A)])]))
query('V2=a, V1=g(V2), V0=f(V1)', joined(eq(V2, A), eq(V1, sym(7, V2)), eq(V0, f(V1))),
      want=(6, 23, [solution([(0, f(sym(7, A))), (1, sym(7, A)), (2, A)])]))
query('V0=V1, V1=V2, V2=V3, V3=a', joined(eq(V0, V1), eq(V1, V2), eq(V2, V3), eq(V3, A)), want=6)
query('V3=V2, V2=V1, V1=V0, and no more', joined(eq(V3, V2), eq(V2, V1), eq(V1, V0)), want=6)
query('f(V0,V0)=f(V1,a)', eq(f(V0, V0), f(V1, A)), want=(6, 7, [solution([(0, A), (1, A)])]))
query('bound in p, by its argument', conj(atom(5, V0), eq(V0, f(V1))), [definition(5, 1, 2, eq(V0, f(V2)))], want=6)
# p(A) :- A=f(L). q :- L=1. r(A) :- A=f(2).
ONE, TWO = sym(1), sym(2)
query('p(W), (q, r(W)): W is f(2), though p and q have locals', conj(atom(1, V0), conj(atom(2), atom(3, V0))),
      [definition(1, 1, 2, conj(eq(V0, V1), eq(V1, f(V2)))), definition(2, 0, 1, eq(V0, ONE)), definition(3, 1, 1, conj(eq(V0, V1), eq(V1, f(TWO))))], want=6)
query('a value that no unifier holds whole: 100 symbols', halved_all([eq(var(v), f(var(v + 1))) for v in range(100)]), want=6)
