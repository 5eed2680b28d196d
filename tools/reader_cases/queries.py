"""A query as text, read as the body of one more clause behind the rules: its names go on where those of the rules end, its variables start from 0."""
from reader_cases.table import *

B, C, D = (atom(n) for n in range(1, 4))

heading('query')
asks('', 'a', 'a', atom(0))
asks('', 'true', '', TRUE)
asks(' \n', ' fail ', '', FAIL)
asks('', 'X = Y', '', eq(V0, V1))
asks('a.', 'a', 'a', atom(0))
asks('a.', 'b', 'a b', B)
asks('taken(bay1). light(Bay, red) :- taken(Bay).', 'light(bay1, Light)', 'taken bay1 light red', atom(2, sym(1), V0))
asks('p(A) :- A=g(L). q :- L=1. r(A) :- A=g(2).', 'p(W), (q, r(W))', 'p g q 1 r 2', conj(atom(0, V0), conj(atom(2), atom(4, V0))))
asks('a :- b, c.', 'd(c, b), e', 'a b c d e', conj(atom(3, sym(2), sym(1)), atom(4)))
asks('a :- z. b :- y.', 'x, z, y', 'a z b y x', conj(atom(4), conj(atom(1), atom(3))))
asks('p(7).', 'p(07), p(7)', 'p 7 07', conj(atom(0, sym(2)), atom(0, sym(1))))
asks('a. b. c.', 'true', 'a b c', TRUE)

heading('query, variables')
asks('p(X, Y).', 'p(Y, X)', 'p', atom(0, V0, V1))
asks('p(X, Y). q(Z).', 'q(Z), p(Z, X)', 'p q', conj(atom(1, V0), atom(0, V0, V1)))
asks('p(_).', 'p(_), p(_)', 'p', conj(atom(0, V0), atom(0, V1)))
asks('', 'p(X, _, Y, X, _)', 'p', atom(0, V0, V1, V2, V0, V3))
asks('', '_ = _', '', eq(V0, V1))
asks('', 'p(_a, _, _a, __)', 'p', atom(0, V0, V1, V0, V2))

heading('query, true and fail')
asks('a :- true.', 'X = true', 'a true', eq(V0, sym(1)))
asks('a :- X = true.', 'true, fail', 'a true', conj(TRUE, FAIL))
asks('a :- X = true.', 'true = X', 'a true', eq(sym(1), V0))
asks('', '(true)', '', TRUE)
asks('', 'true(fail)', 'true fail', atom(0, sym(1)))
asks('', 'fail = true', 'fail true', eq(sym(0), sym(1)))
asks('', 'true ; (fail), true', '', disj(TRUE, conj(FAIL, TRUE)))

heading('query, goals')
asks('a.', 'b, c, d', 'a b c d', conj(B, conj(C, D)))
asks('a.', 'b ; c ; d', 'a b c d', disj(B, disj(C, D)))
asks('a.', 'b, c ; d', 'a b c d', disj(conj(B, C), D))
asks('a.', 'b ; c, d', 'a b c d', disj(B, conj(C, D)))
asks('a.', '(b, c), d', 'a b c d', conj(conj(B, C), D))
asks('a.', '(b ; c), d', 'a b c d', conj(disj(B, C), D))
asks('a.', '((b)) ; ((c ; d))', 'a b c d', disj(B, disj(C, D)))
asks('a.', 'b(X) = c(X)', 'a b c', eq(sym(1, V0), sym(2, V0)))
asks('a.', 'b(b(c), X)', 'a b c', atom(1, sym(1, sym(2)), V0))

heading('query, blanks')
for blank in '\t\n\r ':
    words = f'{ord(blank):02x}'
    asks('a.', f'{blank}b', 'a b', B, words=f'{words} before it')
    asks('a.', f'b{blank}', 'a b', B, words=f'{words} behind it')
    asks(f'a.{blank}', 'b', 'a b', B, words=f'{words} behind the rules')
    asks(f'a{blank}.', f'{blank}({blank}b{blank},{blank}c(d{blank}){blank}){blank}', 'a b c d', conj(B, atom(2, sym(3))), words=f'{words} everywhere')
    no_query(21, 'a.', f'b{blank}(c)', words=f'{words} before a bracket')

heading('no query')
for goal in ('', ' ', '\n\t', 'a.', 'a .', 'a. b', 'a. b.', '.', 'a :- b', 'a :- b.', ':- a', 'X', '_', '7', 'a, X', 'a,', ',a', 'a;', ';a', 'a b', '()', '(a', 'a)', '(a))',
             'p()', 'p (x)', 'p(x', 'p(x))', 'a = b = c', '(a) = b', 'X = (a)', 'p((a))', 'a =', '= a', 'a : b', 'a - b', '1a', 'p(a;b)', 'p(a=b)', '(a :- b)'):
    no_query(21, 'a.', goal)

heading('rules and query do not flow together')
for text, goal in (('a :-', 'b.'), ('a :- b', 'c'), ('a', '.b'), ('a', 'b'), ('a :- b,', 'c'), ('p(', 'x)'), ('a :- (b', ')'), ('a', ''), ('a.b', 'c'), ('a :- X', '= b'),
                   ('a :- X =', 'b'), ('', '.a'), ('a. true', 'b'), ('a. true.', 'b'), ('a b.', 'c'), ('X.', 'a'), (':- a.', 'b'), ('p(x', 'a'), ('(', 'a)'), ('a :', '- b')):
    no_query(21, text, goal)
asks('ab.', 'abc', 'ab abc', B)
asks('abc.', 'ab', 'abc ab', B)
asks('a.', 'a(a)', 'a', atom(0, sym(0)))

heading('query, one byte')
for byte in b'\x00!%@[`{\x7f\x80\xff':
    no_query(20, 'a.', f'b{chr(byte)}', words=f'{byte:02x} in the query')
    no_query(20, f'a{chr(byte)}.', 'b', words=f'{byte:02x} in the rules')
