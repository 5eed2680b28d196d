"""Goals: comma binds more than ;, both group to the right, and brackets group otherwise; brackets leave no byte in the record."""
from reader_cases.table import *

B, C, D, E, F = (atom(n) for n in range(1, 6))
EQUAL = eq(V0, V1)


def goal(text, tree, names='a b c d e f', v=0):
    reads(f'a :- {text}.', names, body(tree, v=v))


heading('grouping')
goal('b, c', conj(B, C), 'a b c')
goal('b ; c', disj(B, C), 'a b c')
goal('b, c, d', conj(B, conj(C, D)), 'a b c d')
goal('b ; c ; d', disj(B, disj(C, D)), 'a b c d')
goal('b, c ; d', disj(conj(B, C), D), 'a b c d')
goal('b ; c, d', disj(B, conj(C, D)), 'a b c d')
goal('b, c ; d, e', disj(conj(B, C), conj(D, E)), 'a b c d e')
goal('b ; c, d ; e', disj(B, disj(conj(C, D), E)), 'a b c d e')
goal('b, c, d ; e, f', disj(conj(B, conj(C, D)), conj(E, F)))
goal('b, c, d, e, f', conj(B, conj(C, conj(D, conj(E, F)))))
goal('b ; c ; d ; e ; f', disj(B, disj(C, disj(D, disj(E, F)))))

heading('brackets')
goal('(b)', B, 'a b')
goal('((((b))))', B, 'a b')
goal('(b, c), d', conj(conj(B, C), D), 'a b c d')
goal('b, (c, d)', conj(B, conj(C, D)), 'a b c d')
goal('(b ; c) ; d', disj(disj(B, C), D), 'a b c d')
goal('b ; (c ; d)', disj(B, disj(C, D)), 'a b c d')
goal('(b ; c), d', conj(disj(B, C), D), 'a b c d')
goal('b, (c ; d)', conj(B, disj(C, D)), 'a b c d')
goal('b, (c ; d), e', conj(B, conj(disj(C, D), E)), 'a b c d e')
goal('(b, c) ; (d, e)', disj(conj(B, C), conj(D, E)), 'a b c d e')
goal('((b, c), d), e', conj(conj(conj(B, C), D), E), 'a b c d e')
goal('((b ; c) ; d) ; e', disj(disj(disj(B, C), D), E), 'a b c d e')
goal('(b ; c, d ; e), f', conj(disj(B, disj(conj(C, D), E)), F))
goal('(((b), (c)) ; ((d)))', disj(conj(B, C), D), 'a b c d')
goal('((b ; c), (d ; e)) ; f', disj(conj(disj(B, C), disj(D, E)), F))

heading('equalities')
goal('X = Y', EQUAL, 'a', 2)
goal('X = b, c', conj(eq(V0, sym(1)), C), 'a b c', 1)
goal('b = X ; c', disj(eq(sym(1), V0), C), 'a b c', 1)
goal('(X = Y)', EQUAL, 'a', 2)
goal('(X = Y), (b ; Y = X)', conj(EQUAL, disj(B, eq(V1, V0))), 'a b', 2)
goal('b(X) = c(X)', eq(sym(1, V0), sym(2, V0)), 'a b c', 1)
goal('b = c', eq(sym(1), sym(2)), 'a b c')
goal('b, b = b', conj(B, eq(sym(1), sym(1))), 'a b')
goal('7 = X', eq(sym(1), V0), 'a 7', 1)
goal('b(c, d) , d = b(c)', conj(atom(1, sym(2), sym(3)), eq(sym(3), sym(1, sym(2)))), 'a b c d')
goal('X = b(c(d), Y), Y = X', conj(eq(V0, sym(1, sym(2, sym(3)), V1)), eq(V1, V0)), 'a b c d', 2)

heading('terms')
reads('a(f(X, g(Y, b)), c, h(h(h(7)))).', 'a f g b c h 7', clause(0, 2, [sym(1, V0, sym(2, V1, sym(3))), sym(4), sym(5, sym(5, sym(5, sym(6))))], TRUE))
reads('a(f(b), f(b, c), f).', 'a f b c', clause(0, 0, [sym(1, sym(2)), sym(1, sym(2), sym(3)), sym(1)], TRUE))
reads('a(f(f(X), f(X)), X).', 'a f', clause(0, 1, [sym(1, sym(1, V0), sym(1, V0)), V0], TRUE))

heading('many clauses')
reads('a :- b. a :- c ; d. b. c :- fail. d(X) :- X = d.', 'a b c d',
      body(B), body(disj(C, D)), body(TRUE, 1), body(FAIL, 2), clause(3, 1, [V0], eq(V0, sym(3))))
