"""The variables of a clause: numbered by first appearance, anew in each clause; a lone underscore is another one each time."""
from reader_cases.table import *

heading('variables')
reads('p(X, Y, X).', 'p', clause(0, 2, [V0, V1, V0], TRUE))
reads('p(Y, X) :- q(X, Y).', 'p q', clause(0, 2, [V0, V1], atom(1, V1, V0)))
reads('p(f(B), A) :- q(A, C, B).', 'p f q', clause(0, 3, [sym(1, V0), V1], atom(2, V1, V2, V0)))
reads('p :- X = Y, Y = X.', 'p', body(conj(eq(V0, V1), eq(V1, V0)), v=2))
reads('p(X). q(Y, X).', 'p q', clause(0, 1, [V0], TRUE), clause(1, 2, [V0, V1], TRUE))
reads('p(X) :- q. r :- s(Y, X).', 'p q r s', clause(0, 1, [V0], atom(1)), body(atom(3, V0, V1), 2, 2))
reads('p(X). p(X). p(x).', 'p x', clause(0, 1, [V0], TRUE), clause(0, 1, [V0], TRUE), clause(0, 0, [sym(1)], TRUE))
reads('p(X, Y). q(X, Y). r(Y, X, Z).', 'p q r', clause(0, 2, [V0, V1], TRUE), clause(1, 2, [V0, V1], TRUE), clause(2, 3, [V0, V1, V2], TRUE))
reads('p(X, XX, X, XXX, XX).', 'p', clause(0, 3, [V0, V1, V0, V2, V1], TRUE))
reads('p(X1, X_1, X1a, X_).', 'p', clause(0, 4, [V0, V1, V2, V3], TRUE))
reads('p(X) :- (q(X) ; r(Y)), s(Y, X).', 'p q r s', clause(0, 2, [V0], conj(disj(atom(1, V0), atom(2, V1)), atom(3, V1, V0))))

heading('underscores')
reads('p(_, _).', 'p', clause(0, 2, [V0, V1], TRUE))
reads('p(_, X, _, X, _).', 'p', clause(0, 4, [V0, V1, V2, V1, V3], TRUE))
reads('p :- _ = _.', 'p', body(eq(V0, V1), v=2))
reads('p(X) :- q(_, X, f(_)).', 'p q f', clause(0, 3, [V0], atom(1, V1, V0, sym(2, V2))))
reads('p(_). q(_).', 'p q', clause(0, 1, [V0], TRUE), clause(1, 1, [V0], TRUE))
reads('p(_, X). q(X, _).', 'p q', clause(0, 2, [V0, V1], TRUE), clause(1, 2, [V0, V1], TRUE))
reads('p(_a, _, _a, __, __).', 'p', clause(0, 3, [V0, V1, V0, V2, V2], TRUE))
reads('p(_1, _, _1, _2).', 'p', clause(0, 3, [V0, V1, V0, V2], TRUE))

SIXTEEN = [sixteen_from(first) for first in range(0, 80, 16)]
UNDERSCORES = 'q' + arguments(16, '_')


def rule(*atoms):
    """a clause without head terms"""
    return f'p :- {", ".join(atoms)}.'


def rightmost(*goals):
    """joined by conjunctions to the right"""
    return b''.join(b'\x13' + goal for goal in goals[:-1]) + goals[-1]


heading('64 and 65 variables')
ATOMS = [atom(1, *[var(n) for n in range(first, first + 16)]) for first in range(0, 64, 16)]
FOUR = rightmost(*ATOMS)
reads(rule(*SIXTEEN[:4]), 'p q', body(FOUR, v=64), words='64 of them')
no(3, rule(*SIXTEEN[:4], 'q(V64)'), words='65 of them')
reads(rule(*SIXTEEN[:4], 'q(V0, V63, V1)'), 'p q', body(rightmost(*ATOMS, atom(1, V0, var(63), V1)), v=64), words='64 of them, some again')
reads(rule(*[UNDERSCORES] * 4), 'p q', body(FOUR, v=64), words='64 underscores')
no(3, rule(*[UNDERSCORES] * 4, 'q(_)'), words='65 underscores')
reads(rule(*SIXTEEN[:3], SIXTEEN[3].replace('V63', '_')), 'p q', body(FOUR, v=64), words='63 of them and an underscore')
no(3, rule(*SIXTEEN[:4], 'q(_)'), words='64 of them and an underscore')
no(3, rule('q(_)', *SIXTEEN[:4]), words='an underscore and 64 of them')
no(3, SIXTEEN[0] + rule(*SIXTEEN[1:4], 'q(V64)').removeprefix('p'), words='65 of them in head and body')
no(3, 'q(_)' + rule(*SIXTEEN[:4]).removeprefix('p'), words='an underscore in the head and 64 in the body')
no(3, 'a. ' + rule(*SIXTEEN[:4], 'q(V64)') + ' b.', words='65 of them in the second of three clauses')
rules('64 in each of two clauses', rule(*SIXTEEN[:4]) + rule(*SIXTEEN[1:5]),
      want=(0, listed_names('p q'), record(listed([body(FOUR, v=64)] * 2))))
rules('64 and the first one again in the clause behind it', rule(*SIXTEEN[:4]) + ' r(V64).',
      want=(0, listed_names('p q r'), record(listed([body(FOUR, v=64), clause(2, 1, [V0], TRUE)]))))
no(3, ['p :- ', ('_ = _, ', 32), '_ = a.'], words='65 underscores in equalities')
rules('64 underscores in equalities', ['p :- ', ('_ = _, ', 31), '_ = _.'], want=0)
no(3, ['p :- ', ('_ = _, ', 5000), 'a.'], words='10,000 underscores')
rules('one variable 6,000 times', ['p :- ', ('X = X, ', 3000), 'a.'], want=0)
