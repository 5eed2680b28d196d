"""The model's unifier against the plain one: take an equation, put the term in place of the variable everywhere, go on."""
from desk_model.substitution import replaced
from desk_model.trees import *
from desk_model.unifier import unifier
from model_checks.chance import Chance


def plain(equations, pairs):
    """pairs: what is bound so far, with no bound variable in a term; None where there is no unifier"""
    if not equations:
        return pairs
    (a, b), *rest = equations
    if a == b:
        return plain(rest, pairs)
    if isinstance(a, Sym) and isinstance(b, Sym):
        same = (a.symbol, len(a.args)) == (b.symbol, len(b.args))
        return plain([*zip(a.args, b.args), *rest], pairs) if same else None
    if isinstance(a, Sym) or (isinstance(b, Var) and b.number > a.number):
        a, b = b, a
    if a.number in variables(b):
        return None
    one = {a.number: b}
    rest = [(replaced(t, one), replaced(u, one)) for t, u in rest]
    return plain(rest, {**{v: replaced(t, one) for v, t in pairs.items()}, **one})


def unifiers_of_terms_by_chance():
    chance = Chance(1)
    for _ in range(20000):
        t, u = chance.term(5, 3), chance.term(5, 3)
        pairs = plain([(t, u)], {})
        wanted = None if pairs is None else Unifier(tuple(Pair(v, pairs[v]) for v in sorted(pairs)))
        assert unifier(t, u) == wanted, (t, u)


GROUPS = unifiers_of_terms_by_chance,
