"""The texts by which request M-103 and its readings are told."""
from reader_cases.table import *

heading('no clauses')
for text in '', ' ', '\t', '\n', '\r', ' \t\r\n \n':
    reads(text, '')

heading('clauses')
reads('a.', 'a', body(TRUE))
reads('a.b.', 'a b', body(TRUE), body(TRUE, 1))
reads('a. a. a.', 'a', body(TRUE), body(TRUE), body(TRUE))
reads('a :- b.', 'a b', body(atom(1)))
reads('p(X) :- q(X, Y), r(Y).', 'p q r', clause(0, 2, [V0], conj(atom(1, V0, V1), atom(2, V1))))
reads('taken(bay1). light(Bay, red) :- taken(Bay).', 'taken bay1 light red',
      clause(0, 0, [sym(1)], TRUE), clause(2, 1, [V0, sym(3)], atom(0, V0)))
reads('p(A) :- A=g(L). q :- L=1. r(A) :- A=g(2).', 'p g q 1 r 2',
      clause(0, 2, [V0], eq(V0, sym(1, V1))), body(eq(V0, sym(3)), 2, 1), clause(4, 1, [V0], eq(V0, sym(1, sym(5)))))

heading('true and fail')
reads('a :- true.', 'a', body(TRUE))
reads('a :- fail.', 'a', body(FAIL))
reads('a :- true, X = true.', 'a true', body(conj(TRUE, eq(V0, sym(1))), v=1))
reads('a :- (true).', 'a', body(TRUE))
reads('a :- ((fail)), ( true ).', 'a', body(conj(FAIL, TRUE)))
for text in 'true.', 'fail.', 'true :- a.', 'fail :- a.', 'a. true. b.':
    no(21, text)

heading('outside the grammar')
for text in ('a :- (a) = b.', 'a :- X = (a).', 'p((a)).', '(p) :- q.', 'a :- (b :- c).', 'a :- a = b = c.', ':- a.', 'p ().', 'p (x).', 'p().', 'a :- p ().',
             'a :- p (x).', 'a :- p().', 'a :- X.', 'a :- _.', 'a :- 7.', 'a :- b, X.', 'a :- (7).', '1a.', 'a :- X = 1a.', 'a :- b :- c.', 'a', 'a :- b',
             'a :- .', 'a :-', '.', 'a..', 'a :- b,.', 'a :- ,b.', 'a :- b;.', 'a b.', 'a :- b c.', 'X.', 'X :- a.', '7.', '7 :- a.', 'X(a).', '7(a).',
             'a :- X(a).', 'a :- 7(a).', 'a :- p(X)(Y).', 'a = b.', 'a = b :- c.', 'a, b.', 'a ; b.', 'a, b :- c.', 'a : b.', 'a - b.', 'a : - b.', 'a :.',
             'a -: b.', 'a ::- b.', 'a :-- b.', 'a :-:- b.', 'a :- b)).', 'a :- (b.', 'p(a.', 'p(a)).', 'p(a b).', 'p(a,).', 'p(,a).', 'p(a;b).', 'p(a=b).',
             'p(a:-b).', 'p(a,,b).', 'a :- X = .', 'a :- = X.', 'a :- X == Y.', 'a :- X = Y = Z.', 'a :- p(X) = q(X) = r.', 'a :- ().', 'a :- p, ().'):
    no(21, text)
