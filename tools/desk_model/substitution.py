"""Terms put in place of variables, and S(T) with question 8."""
from desk_model.gate import ask
from desk_model.trees import *

LONGEST_VALUE = 8192

REBUILT = {
    Var: lambda t, given: given.get(t.number, t),
    Sym: lambda t, given: Sym(t.symbol, replaced_all(t.args, given)),
    Truth: lambda g, given: g,
    Failure: lambda g, given: g,
    Equal: lambda g, given: Equal(replaced(g.left, given), replaced(g.right, given)),
    Conj: lambda g, given: Conj(replaced(g.first, given), replaced(g.second, given)),
    Disj: lambda g, given: Disj(replaced(g.first, given), replaced(g.second, given)),
    Atom: lambda g, given: Atom(g.predicate, replaced_all(g.args, given)),
}


def replaced(part, given):
    """the term or goal with given's terms in place of its variables, all at once"""
    return REBUILT[type(part)](part, given)


def replaced_all(args, given):
    return tuple(replaced(t, given) for t in args)


def value(bets, term):
    """S(T): the bottom unifier first, the top one last. No unifier makes a term shorter, so the first length over the limit decides."""
    ask(8, term.length <= LONGEST_VALUE)
    for bet in reversed(list(bets)):
        if isinstance(bet, Unifier):
            term = replaced(term, {p.variable: p.term for p in bet.pairs})
            ask(8, term.length <= LONGEST_VALUE)
    return term
