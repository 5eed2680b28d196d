"""A tree as text: its tokens, in a form that the reader reads back, and how they stand in a line."""
from desk_model.trees import *

APART = {',': ', ', ';': ' ; ', '=': ' = ', ':-': ' :- '}


class Spoken:
    """the names of predicates and symbols by their numbers; variable and brackets are asked for a variable's name, and for brackets around a goal that
    needs none. A bracket directly after a name is part of its token"""

    def __init__(self, predicates, symbols, variable, brackets=lambda: False):
        self.predicates, self.symbols, self.variable, self.brackets = predicates, symbols, variable, brackets

    def applied(self, name, args):
        if not args:
            return [name]
        return [name + '(', *[token for arg in args for token in (*self.term(arg), ',')][:-1], ')']

    def term(self, term):
        return [self.variable(term.number)] if isinstance(term, Var) else self.applied(self.symbols[term.symbol], term.args)

    def goal(self, goal, bracketed=()):
        """bracketed: what stands in brackets at this place, since both joins group to the right and comma binds more"""
        inner = {
            Truth: lambda g: ['true'],
            Failure: lambda g: ['fail'],
            Equal: lambda g: [*self.term(g.left), '=', *self.term(g.right)],
            Conj: lambda g: [*self.goal(g.first, (Conj, Disj)), ',', *self.goal(g.second, (Disj,))],
            Disj: lambda g: [*self.goal(g.first, (Disj,)), ';', *self.goal(g.second)],
            Atom: lambda g: self.applied(self.predicates[g.predicate], g.args),
        }[type(goal)](goal)
        return ['(', *inner, ')'] if isinstance(goal, bracketed) or self.brackets() else inner

    def clause(self, clause):
        body = [] if clause.body == Truth() else [':-', *self.goal(clause.body)]
        return [*self.applied(self.predicates[clause.predicate], clause.head), *body, '.']


def in_line(tokens):
    return ''.join(APART.get(token, token) for token in tokens)
