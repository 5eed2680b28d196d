"""The call rule of equality: which unifier, under which bets."""
from step_cases.table import *


def f(*args):
    return sym(6, *args)


def g(*args):
    return sym(7, *args)


def equality(words, t, u, *pairs, bets=()):
    """call t=u gives exit with these pairs, and back"""
    there_and_back(words, NO_DEFINITIONS, at(CALL, eq(t, u), bets=bets), at(EXIT, eq(t, u), bets=[unifier(*pairs), *bets]))


def no_unifier(words, t, u, bets=()):
    there_and_back(words, NO_DEFINITIONS, at(CALL, eq(t, u), bets=bets), at(FAILS, eq(t, u), bets=bets))


def nested(terms):
    """all the terms in one, at most 16 side by side"""
    return sym(8, *terms) if len(terms) <= 16 else sym(8, *[nested(terms[i::16]) for i in range(16)])


heading('unifier')
equality('the lowest stays, whichever side it is on', var(7), V3, (7, V3))
equality('V0=V0 binds nothing', V0, V0)
equality('three variables made equal', f(V2, V0, V1), f(V1, V1, V0), (1, V0), (2, V0))
equality('V2=V1, then V1=V0: both to V0', f(V2, V1), f(V1, V0), (1, V0), (2, V0))
equality('V0=V1, then V0=a: the lowest is not free', f(V0, V0), f(V1, A), (0, A), (1, A))
equality('a term within a term', f(V0, V1), f(g(V1), g(V2)), (0, g(g(V2))), (1, g(V2)))
equality('pairs rise although the greatest is bound first', f(V9, V3, V1), f(A, B, A), (1, A), (3, B), (9, A))
equality('arity 16', f(*[var(v) for v in range(16)]), f(*[sym(v) for v in range(16)]), *[(v, sym(v)) for v in range(16)])
equality('variables 255, 256 and 65,535', f(var(65535), var(256)), f(var(255), var(65535)), (256, var(255)), (65535, var(255)))
no_unifier('two constants', A, B)
no_unifier('a constant and a larger term', A, f(A))
no_unifier('one symbol with two arities', f(A), f(A, A))
no_unifier('the first arguments unify, the second do not', f(V0, A), f(B, V0))
no_unifier('V0 in a term of its own, by way of V1', f(V0, V1), f(g(V1), g(V0)))
no_unifier('V0 in a term that equals V1, which equals V0', f(V0, V1), f(V1, g(V0)))

heading('S(T)')
equality('V0 bound to a: a=a binds nothing', V0, A, bets=[unifier((0, A))])
no_unifier('V0 bound to a: a=b', V0, B, bets=[unifier((0, A))])
equality('the bottom unifier first, the top last: V0 to f(V1), V1 to a', V0, f(V2), (2, A), bets=[unifier((1, A)), unifier((0, f(V1)))])
equality('the other way round V1 of the top one stays', V0, f(V2), (2, V1), bets=[unifier((0, f(V1))), unifier((1, A))])
equality('a unifier binds all its variables at once', f(V0, V1), f(V2, V3), (2, g(V9)), (3, A), bets=[unifier((0, g(V9)), (1, A))])
equality('two unifiers that bind V0: the bottom one counts', V0, V1, (1, A), bets=[unifier((0, B)), unifier((0, A))])
equality('OR and BY do nothing', V0, V1, (1, A), bets=[chosen(1), by(eq(V0, B)), unifier((0, A)), chosen(2)])
equality('the pair binds the variable in the value, not the goal\'s', V0, A, (5, A), bets=[unifier((0, var(5)))])

heading('large unifiers')
MANY = range(340)
equality('340 variables, bound to constants', nested([var(v) for v in MANY]), nested([sym(v) for v in MANY]), *[(v, sym(v)) for v in MANY])
equality('341 variables, all made equal', nested([var(v) for v in MANY]), nested([var(v + 1) for v in MANY]), *[(v + 1, V0) for v in MANY])
equality('2,000 symbols deep', chain(2000, V0), chain(2000, A), (0, A))
no_unifier('2,000 symbols deep, the last ones differ', chain(2000, B), chain(2000, A))
no_unifier('2,000 symbols down to the variable itself', V0, chain(2000, V0))
LEFT, RIGHT = [var(v) for v in range(1, 400)], [g(var(v), var(v)) for v in range(399)]
forward('V1=g(V0,V0), .., V399=g(V398,V398): far too long to write', NO_DEFINITIONS, at(CALL, eq(nested(LEFT), nested(RIGHT))), want=(10, None))
no_unifier('the same beside a=b: none, so no question 10', f(nested(LEFT), A), f(nested(RIGHT), B))
back('exit of it with the empty unifier: the call is refused', NO_DEFINITIONS, at(EXIT, eq(nested(LEFT), nested(RIGHT)), bets=[unifier()]),
     want=(7, None))
back('fail of it: redo would hold the unifier', NO_DEFINITIONS, at(FAILS, eq(nested(LEFT), nested(RIGHT))), want=(10, None))
PAIRED = [var(v + 1000) for v in range(1, 150)], [g(var(v + 1000), var(v + 1000)) for v in range(149)]
UPPER = [var(v) for v in range(1, 150)], [g(var(v), var(v)) for v in range(149)]
no_unifier('two such towers made equal, then a=b', f(nested(UPPER[0] + PAIRED[0]), var(149), A), f(nested(UPPER[1] + PAIRED[1]), var(1149), B))
no_unifier('two such towers made equal, the one\'s foot in the other', f(nested(UPPER[0] + PAIRED[0]), var(149), V0),
           f(nested(UPPER[1] + PAIRED[1]), var(1149), g(var(1000), A)))
