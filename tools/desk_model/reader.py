"""Question 3: the body of a record to its tree, read to its last byte."""
from desk_model.trees import *


class Unread(Exception):
    """the grammar does not read these bytes"""


class Bytes:
    """the bytes of a body that are still to be read"""

    def __init__(self, data):
        self.data, self.at = data, 0

    def byte(self, accepted=range(256)):
        if self.at == len(self.data) or self.data[self.at] not in accepted:
            raise Unread
        self.at += 1
        return self.data[self.at - 1]

    def word(self):
        return self.byte() * 256 + self.byte()

    def many(self, count, part):
        return [part(self) for _ in range(count)]

    def counted(self, part):
        return self.many(self.word(), part)


TAGS, ARITIES = (1, 2), range(17)


def term(b):
    if b.byte((1, 2)) == 1:
        return Var(b.word())
    return Sym(b.word(), args(b))


def args(b):
    return tuple(b.many(b.byte(ARITIES), term))


def atom(b):
    return Atom(b.word(), args(b))


GOAL_KINDS = {
    0x10: lambda b: Truth(),
    0x11: lambda b: Failure(),
    0x12: lambda b: Equal(term(b), term(b)),
    0x13: lambda b: Conj(goal(b), goal(b)),
    0x14: lambda b: Disj(goal(b), goal(b)),
    0x15: atom,
}
ANCESTOR_KINDS = {
    0x15: atom,
    0x30: lambda b: Half(CONJUNCTION, b.byte(TAGS), goal(b), goal(b)),
    0x31: lambda b: Half(DISJUNCTION, b.byte(TAGS), goal(b), goal(b)),
}
BET_KINDS = {
    0x20: lambda b: Unifier(tuple(b.counted(pair))),
    0x21: lambda b: Or(b.byte(TAGS)),
    0x22: lambda b: By(goal(b)),
}


def goal(b):
    return GOAL_KINDS[b.byte(GOAL_KINDS)](b)


def ancestor(b):
    return ANCESTOR_KINDS[b.byte(ANCESTOR_KINDS)](b)


def bet(b):
    return BET_KINDS[b.byte(BET_KINDS)](b)


def pair(b):
    return Pair(b.word(), term(b))


def event(b):
    return Event(b.byte((CALL, EXIT, FAIL, REDO)), goal(b), stack(b.counted(ancestor)), stack(b.counted(bet)))


def definition(b):
    return Definition(b.word(), b.byte(ARITIES), b.byte(), goal(b))


def clause(b):
    predicate, arity, count = b.word(), b.byte(ARITIES), b.byte(range(65))
    return Clause(predicate, count, tuple(b.many(arity, term)), goal(b))


def program(b):
    return b.counted(definition)


def clauses(b):
    return b.counted(clause)


def whole(part, body):
    b = Bytes(body)
    tree = part(b)
    if b.at < len(body):
        raise Unread
    return tree
