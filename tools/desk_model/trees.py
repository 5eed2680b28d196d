"""The trees of records (SPECIFICATION 1). Each part knows its parts, its length in bytes and the greatest variable number in it (-1: none)."""
from dataclasses import dataclass

CALL, EXIT, FAIL, REDO = 1, 2, 3, 4
CONJUNCTION, DISJUNCTION = 0x30, 0x31


class Part:
    own_bytes = 0  # besides the bytes of its parts
    own_variable = None  # the field that is a variable number

    def __post_init__(self):
        parts = []
        for name in self.__dataclass_fields__:
            field = getattr(self, name)
            parts.extend(field if isinstance(field, tuple) else [field] if isinstance(field, Part) else [])
        own = -1 if self.own_variable is None else getattr(self, self.own_variable)
        self.know(parts, self.own_bytes + sum(p.length for p in parts), max([own, *(p.greatest for p in parts)]))

    def know(self, parts, length, greatest):
        for name, fact in ('parts', parts), ('length', length), ('greatest', greatest):
            object.__setattr__(self, name, fact)


# ---- Terms
@dataclass(frozen=True)
class Var(Part):
    own_bytes, own_variable = 3, 'number'
    number: int


@dataclass(frozen=True)
class Sym(Part):
    own_bytes = 4
    symbol: int
    args: tuple


# ---- Goals
@dataclass(frozen=True)
class Truth(Part):
    own_bytes = 1


@dataclass(frozen=True)
class Failure(Part):
    own_bytes = 1


@dataclass(frozen=True)
class Equal(Part):
    own_bytes = 1
    left: Part
    right: Part


@dataclass(frozen=True)
class Conj(Part):
    own_bytes = 1
    first: Part
    second: Part


@dataclass(frozen=True)
class Disj(Part):
    own_bytes = 1
    first: Part
    second: Part


@dataclass(frozen=True)
class Atom(Part):
    own_bytes = 4
    predicate: int
    args: tuple


GOALS = (Truth, Failure, Equal, Conj, Disj, Atom)


# ---- Ancestors: an atom, or a half of a conjunction or disjunction
@dataclass(frozen=True)
class Half(Part):
    own_bytes = 2
    kind: int
    tag: int
    first: Part
    second: Part


# ---- Bets
@dataclass(frozen=True)
class Pair(Part):
    own_bytes, own_variable = 2, 'variable'
    variable: int
    term: Part


@dataclass(frozen=True)
class Unifier(Part):
    own_bytes = 3
    pairs: tuple


@dataclass(frozen=True)
class Or(Part):
    own_bytes = 2
    tag: int


@dataclass(frozen=True)
class By(Part):
    own_bytes = 1
    goal: Part


# ---- Events
@dataclass(frozen=True)
class Empty(Part):
    count = 0

    def __iter__(self):
        return iter(())


@dataclass(frozen=True)
class Stack(Part):
    top: Part
    rest: Part

    def __post_init__(self):
        super().__post_init__()
        object.__setattr__(self, 'count', self.rest.count + 1)

    def __iter__(self):
        """from the top"""
        while isinstance(self, Stack):
            yield self.top
            self = self.rest


EMPTY = Empty()


def stack(items):
    """items: top first"""
    made = EMPTY
    for item in reversed(items):
        made = Stack(item, made)
    return made


@dataclass(frozen=True)
class Event(Part):
    own_bytes = 5
    port: int
    goal: Part
    ancestors: Part
    bets: Part


# ---- Programs and clauses
@dataclass(frozen=True)
class Definition(Part):
    own_bytes = 4
    predicate: int
    arity: int
    locals: int
    body: Part


@dataclass(frozen=True)
class Clause(Part):
    own_bytes = 4
    predicate: int
    count: int
    head: tuple
    body: Part


def in_order(parts):
    """the variable numbers in terms and goals, each once, as they occur"""
    met, todo = [], list(parts)
    while todo:
        each = todo.pop(0)
        todo[:0] = each.parts
        if isinstance(each, Var) and each.number not in met:
            met.append(each.number)
    return met


def variables(part):
    """the set of variable numbers in a term or goal"""
    met, todo = set(), [part]
    while todo:
        each = todo.pop()
        todo.extend(each.parts)
        if isinstance(each, Var):
            met.add(each.number)
    return met
