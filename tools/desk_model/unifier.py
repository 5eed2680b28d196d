"""The unifier of two terms (SPECIFICATION 5.1): the one most general list of pairs, no bound variable in a term, none bound to a higher one."""
from desk_model.trees import *


class Cyclic(Exception):
    """a variable would have to be a proper part of its own term"""


def unifier(left, right):
    """the bet, or None where no unifier exists"""
    bound = solved(left, right)
    if bound is None:
        return None
    try:
        terms = closed(bound)
    except Cyclic:
        return None
    return Unifier(tuple(Pair(v, terms[v]) for v in sorted(terms)))


def solved(left, right):
    """for each bound variable a term, which may hold further bound variables; None where two symbols differ"""
    bound, todo, done = {}, [(left, right)], set()
    while todo:
        a, b = (head(bound, t) for t in todo.pop())
        if isinstance(a, Var) or isinstance(b, Var):
            bind(bound, a, b)
        elif (a.symbol, len(a.args)) != (b.symbol, len(b.args)):
            return None
        elif (id(a), id(b)) not in done:
            done.add((id(a), id(b)))
            todo.extend(zip(a.args, b.args))
    return bound


def head(bound, term):
    while isinstance(term, Var) and term.number in bound:
        term = bound[term.number]
    return term


def bind(bound, a, b):
    """of two free variables the greater one is bound; of a variable and a symbol the variable"""
    if isinstance(a, Var) and isinstance(b, Var):
        if a.number != b.number:
            bound[max(a.number, b.number)] = Var(min(a.number, b.number))
    elif isinstance(a, Var):
        bound[a.number] = b
    else:
        bound[b.number] = a


def closed(bound):
    """for each bound variable its term without bound variables; equal parts are shared, so that a long term is still made quickly"""
    terms, within = {}, set()

    def close(term):
        if isinstance(term, Sym):
            return Sym(term.symbol, tuple(close(t) for t in term.args))
        return variable(term.number) if term.number in bound else term

    def variable(v):
        if v in within:
            raise Cyclic
        if v not in terms:
            within.add(v)
            terms[v] = close(bound[v])
            within.remove(v)
        return terms[v]

    for v in bound:
        variable(v)
    return terms
