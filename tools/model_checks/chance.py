"""Small terms, goals and programs by chance, the same ones each time."""
import random

from desk_model.trees import *


class Chance(random.Random):
    def term(self, variables, depth=2):
        if depth == 0 or self.random() < 0.5:
            return Var(self.randrange(variables)) if variables and self.random() < 0.6 else Sym(self.randrange(2), ())
        return Sym(2 + self.randrange(2), tuple(self.term(variables, depth - 1) for _ in range(self.randint(1, 2))))

    def goal(self, variables, predicates, depth=2):
        """predicates: (number, arity) of those that may be called"""
        kind = self.randrange(8)
        if depth and kind < 4:
            join = Conj if kind < 2 else Disj
            return join(self.goal(variables, predicates, depth - 1), self.goal(variables, predicates, depth - 1))
        if kind == 7 or (kind < 5 and not predicates):
            return Truth() if self.random() < 0.7 else Failure()
        if kind < 6 and predicates:
            number, arity = self.choice(predicates)
            return Atom(number, tuple(self.term(variables, 1) for _ in range(arity)))
        return Equal(self.term(variables), self.term(variables))

    def program(self, most_locals):
        """each predicate calls only those after it, so that every walk ends"""
        keys = [(n, self.randrange(3)) for n in range(3)]
        made = []
        for n, arity in keys:
            local_count = self.randint(0, most_locals)
            made.append(Definition(n, arity, local_count, self.goal(arity + local_count, keys[n + 1:])))
        return made, keys

    def event(self, keys):
        """with at most one ancestor and one bet; few walks reach it"""
        goals = [self.goal(2, keys, 1) for _ in range(2)]
        ancestor = self.choice([Half(self.choice([CONJUNCTION, DISJUNCTION]), self.randint(1, 2), *goals), Atom(0, (Var(1),) * keys[0][1])])
        bet = self.choice([Unifier(()), Unifier((Pair(0, Sym(0, ())),)), Or(1), Or(2), By(goals[0])])
        goal = self.choice([*goals, self.goal(2, keys, 1)])
        return Event(self.randint(1, 4), goal, stack([ancestor] * self.randint(0, 1)), stack([bet] * self.randint(0, 1)))
