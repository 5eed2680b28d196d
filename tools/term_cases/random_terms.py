"""Equalities and values of random small terms under random bets, answered by the model alone."""
import random

from term_cases.table import *

chance = random.Random(1)


def a_term(depth, names):
    if depth == 0 or chance.random() < 0.4:
        return var(chance.choice(names)) if chance.random() < 0.7 else sym(chance.choice((2, 3)))
    f = chance.choice((6, 7))
    return sym(f, *[a_term(depth - 1, names) for _ in range(f - 5)])


def a_bet(names):
    kind = chance.randrange(5)
    if kind == 0:
        return chosen(chance.choice((1, 2)))
    if kind == 1:
        return by(eq(a_term(1, names), A))
    bound = sorted(chance.sample(names, chance.randrange(3)))
    free = [v for v in names if v not in bound]
    return unifier(*[(v, a_term(2, free)) for v in bound])


heading('random')
for k in range(60):
    names = chance.sample(range(1, 300), 6)
    bets = [a_bet(names) for _ in range(chance.randrange(6))]
    t, u = a_term(4, names), a_term(4, names)
    equality(f'equality {k + 1}', None, t, u, bets)
for k in range(30):
    names = chance.sample(range(1, 300), 4)
    bets = [a_bet(names) for _ in range(chance.randrange(1, 9))]
    v = chance.choice(names)
    value(f'value {k + 1}', None, v, bets)
