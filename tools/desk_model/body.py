"""The definition an atom names and the atom's body, with question 9."""
from desk_model.gate import ask
from desk_model.substitution import replaced
from desk_model.trees import *

GREATEST_VARIABLE = 65535


def definition(program, atom):
    """the atom's definition, or None"""
    for each in program:
        if (each.predicate, each.arity) == (atom.predicate, len(atom.args)):
            return each
    return None


def body(program, atom, ancestors, bets):
    """the body at the call of the atom, or None: head variables become the arguments as they stand, local i becomes m + i, where m is one above the
    highest variable number of the call event, 0 where it has none"""
    found = definition(program, atom)
    if found is None:
        return None
    m = 1 + max(atom.greatest, ancestors.greatest, bets.greatest)
    ask(9, found.locals == 0 or m + found.locals - 1 <= GREATEST_VARIABLE)
    given = dict(enumerate(atom.args))
    for i in range(found.locals):
        given[found.arity + i] = Var(m + i)
    return replaced(found.body, given)
