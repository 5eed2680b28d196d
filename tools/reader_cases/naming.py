"""The list of names: symbols and predicates share it, each name stands once, where it first takes a number; true and fail take one as terms and with
arguments."""
from reader_cases.table import *

heading('first appearance')
reads('c :- b, a, c, b.', 'c b a', body(conj(atom(1), conj(atom(2), conj(atom(0), atom(1))))))
reads('a(b) :- b(a).', 'a b', clause(0, 0, [sym(1)], atom(1, sym(0))))
reads('f(f(f)).', 'f', clause(0, 0, [sym(0, sym(0))], TRUE))
reads('p :- p(p), p(p, p).', 'p', body(conj(atom(0, sym(0)), atom(0, sym(0), sym(0)))))
reads('p(g(b, c), d).', 'p g b c d', clause(0, 0, [sym(1, sym(2), sym(3)), sym(4)], TRUE))
reads('p :- X = b, a = X.', 'p b a', body(conj(eq(V0, sym(1)), eq(sym(2), V0)), v=1))
reads('p :- f(a) = g(b).', 'p f a g b', body(eq(sym(1, sym(2)), sym(3, sym(4)))))
reads('b. a. b. c. a.', 'b a c', body(TRUE), body(TRUE, 1), body(TRUE), body(TRUE, 2), body(TRUE, 1))
reads('a :- z. b :- y. c :- x, y, z.', 'a z b y c x', body(atom(1)), body(atom(3), 2), body(conj(atom(5), conj(atom(3), atom(1))), 4))
reads('light(bay1, red) :- bay1(light), red.', 'light bay1 red', clause(0, 0, [sym(1), sym(2)], conj(atom(1, sym(0)), atom(2))))

heading('names that are alike')
reads('a. aa. aaa. ab. b. ba. aa. a.', 'a aa aaa ab b ba',
      body(TRUE), body(TRUE, 1), body(TRUE, 2), body(TRUE, 3), body(TRUE, 4), body(TRUE, 5), body(TRUE, 1), body(TRUE))
reads('ab. a. aB. a_. a1.', 'ab a aB a_ a1', *[body(TRUE, n) for n in range(5)])
reads('abc. abd. ab. abc. xbc.', 'abc abd ab xbc', body(TRUE), body(TRUE, 1), body(TRUE, 2), body(TRUE), body(TRUE, 3))

heading('numbers')
reads('p(7, 07, 7, 007).', 'p 7 07 007', clause(0, 0, [sym(1), sym(2), sym(1), sym(3)], TRUE))
reads('p :- 7 = 7.', 'p 7', body(eq(sym(1), sym(1))))
reads('p(1, 11, 111, a1, 1).', 'p 1 11 111 a1', clause(0, 0, [sym(1), sym(2), sym(3), sym(4), sym(1)], TRUE))
reads('p :- X = 0, Y = 00.', 'p 0 00', body(conj(eq(V0, sym(1)), eq(V1, sym(2))), v=2))

heading('true and fail')
reads('p(true).', 'p true', clause(0, 0, [sym(1)], TRUE))
reads('p(fail, true).', 'p fail true', clause(0, 0, [sym(1), sym(2)], TRUE))
reads('true(x).', 'true x', clause(0, 0, [sym(1)], TRUE))
reads('fail(x) :- true(x).', 'fail x true', clause(0, 0, [sym(1)], atom(2, sym(1))))
reads('true(true) :- true.', 'true', clause(0, 0, [sym(0)], TRUE))
reads('p :- true(true, fail), fail.', 'p true fail', body(conj(atom(1, sym(1), sym(2)), FAIL)))
reads('p :- true = fail.', 'p true fail', body(eq(sym(1), sym(2))))
reads('p :- true = X.', 'p true', body(eq(sym(1), V0), v=1))
reads('p :- fail = X, fail.', 'p fail', body(conj(eq(sym(1), V0), FAIL), v=1))
reads('p :- X = fail ; fail.', 'p fail', body(disj(eq(V0, sym(1)), FAIL), v=1))
reads('p :- true, true = X.', 'p true', body(conj(TRUE, eq(sym(1), V0)), v=1))
reads('p :- true\n=\nX.', 'p true', body(eq(sym(1), V0), v=1))
reads('p :- true(x) = fail(x).', 'p true x fail', body(eq(sym(1, sym(2)), sym(3, sym(2)))))
reads('p :- (true = true).', 'p true', body(eq(sym(1), sym(1))))
reads('p :- (true), (((fail))).', 'p', body(conj(TRUE, FAIL)))
reads('p :- true ; fail , true.', 'p', body(disj(TRUE, conj(FAIL, TRUE))))
reads('p :- f(true), true. q :- true.', 'p f true q', body(conj(atom(1, sym(2)), TRUE)), body(TRUE, 3))
reads('p :- true. true(p).', 'p true', body(TRUE), clause(1, 0, [sym(0)], TRUE))
for text in 'true . ', 'a :- b. fail.', 'true (x).', 'p :- true (x).', 'p :- (true) = X.', 'p :- X = (true).', 'p :- true true.', 'p :- true = fail = true.', 'p :- true().':
    no(21, text)

heading('names that differ from true and fail in a letter')
for plain in 'true', 'fail':
    for n in range(4):
        for letter in 'ax':
            alike = plain[:n] + letter + plain[n + 1:]
            if alike != plain:
                reads(f'{alike} :- {alike}.', alike, body(atom(0)))
for alike in 'tr', 'tru', 'truee', 'fai', 'faill', 'tRUE', 'faiL', 'fall', 'tree', 'late', 'flue', 'trail':
    reads(f'{alike} :- {alike}.', alike, body(atom(0)))

heading('all bytes of a name')
LETTERS = 'abcdefghijklmnopqrstuvwxyzABCDEFGHIJKLMNOPQRSTUVWXYZ0123456789_'
rules('each byte behind the letter a, forward and again backward', ''.join(f'a{c}.' for c in LETTERS + LETTERS[::-1]),
      want=(0, listed_names(' '.join(f'a{c}' for c in LETTERS)), record(listed([body(TRUE, n) for n in [*range(63), *reversed(range(63))]]))))
rules('each letter that starts a name', ''.join(f'{c}.' for c in LETTERS[:26]),
      want=(0, listed_names(' '.join(LETTERS[:26])), record(listed([body(TRUE, n) for n in range(26)]))))
