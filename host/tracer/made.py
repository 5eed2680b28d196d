"""Programs by chance in which release 1 would have caught a variable: when a clause is called, the own variables of an earlier one stand in bets alone,
and are bound there or by a later one."""
from desk_model.canonical import to_the_right
from desk_model.substitution import replaced
from desk_model.trees import *
from model_checks.chance import Chance

# predicates
OPEN, BETWEEN, CLOSE, TOP = range(4)
# symbols: constants 0 and 1, 2 and 3 with arguments, and those of lists
NIL, CONS = Sym(4, ()), 5


def clause(number, head, body=Truth()):
    """its variables, given by any numbers, are numbered as they occur"""
    names = {v: Var(i) for i, v in enumerate(in_order([*head, body]))}
    return Clause(number, len(names), tuple(replaced(t, names) for t in head), replaced(body, names))


def conj(*goals):
    return to_the_right(Conj, goals)


class Made(Chance):
    def opened(self, variables):
        """a term that holds each of these variables"""
        parts = [Var(v) if self.random() < 0.7 else Sym(2, (Var(v),)) for v in variables]
        self.shuffle(parts)
        return Sym(self.choice([2, 3]), tuple(parts))

    def constant(self):
        return Sym(self.randrange(2), ())

    def equal(self, left, right):
        return Equal(left, right) if self.random() < 0.7 else Equal(right, left)

    def closed(self, term):
        """the term with constants for its variables, or for some"""
        return replaced(term, {v: self.constant() for v in variables(term) if self.random() < 0.8})

    def opening(self, number, term):
        """a clause whose argument is bound to the term, and so left open; the term's variables, which are greater than 0, are the clause's own"""
        return clause(number, [term]) if self.random() < 0.3 else clause(number, [Var(0)], self.equal(Var(0), term))

    def between(self, number):
        """a clause without arguments that binds variables of its own"""
        first = self.equal(Var(0), self.choice([self.constant(), Sym(3, (Var(1),))]))
        more = [self.equal(Var(1), self.constant())] * self.randrange(2) + [self.equal(Var(2), Sym(2, (Var(0),)))] * self.randrange(2)
        return clause(number, [], conj(first, *more))

    def closing(self, number, term):
        """a clause that closes what was left open"""
        return clause(number, [Var(0)], self.equal(Var(0), self.closed(term)))

    def some_variables(self):
        return range(1, 1 + self.randint(1, 3))

    # ---- Shapes
    def pair(self):
        """two clauses that share a number through a binding, and one that tells them apart"""
        term = self.opened(self.some_variables())
        rules = [self.opening(OPEN, term), self.between(BETWEEN), self.closing(CLOSE, term)]
        first, middle, last = Atom(OPEN, (Var(0),)), Atom(BETWEEN, ()), Atom(CLOSE, (Var(0),))
        return rules, self.choice([conj(first, middle, last), Conj(Conj(first, middle), last)])

    def chain(self):
        """clause after clause, in the query or in a clause's body, and the last ones close what the first ones left open"""
        terms = [self.opened(self.some_variables()) for _ in range(self.randint(2, 4))]
        rules, calls, closes = [], [], []
        for n, term in enumerate(terms):
            rules += [self.opening(10 + n, term), self.closing(20 + n, term)]
            calls.append(Atom(10 + n, (Var(n),)))
            closes.append(Atom(20 + n, (Var(n),)))
        self.shuffle(closes)
        if self.random() < 0.5:
            rules.append(self.between(BETWEEN))
            calls.append(Atom(BETWEEN, ()))
        if self.random() < 0.5:
            return rules, conj(*calls, *closes)
        head = [Var(n) for n in range(len(terms))]
        return [*rules, clause(TOP, head, conj(*calls, *closes))], Atom(TOP, tuple(head))

    def branches(self):
        """the same under disjunctions, in bodies, by several clauses and in the query"""
        one, other = self.opened(self.some_variables()), self.opened(self.some_variables())
        rules = [clause(OPEN, [Var(0)], Disj(self.equal(Var(0), one), self.equal(Var(0), other)))]
        if self.random() < 0.5:
            rules = [self.opening(OPEN, one), self.opening(OPEN, other)]
        rules += [self.between(BETWEEN) for _ in range(self.randint(1, 2))]
        rules += [self.closing(CLOSE, term) for term in self.sample([one, other], 2)]
        first, middle, last = Atom(OPEN, (Var(0),)), Atom(BETWEEN, ()), Atom(CLOSE, (Var(0),))
        asked = self.choice([first, Disj(Failure(), first), Disj(Conj(first, Failure()), first)])
        return rules, conj(asked, self.choice([middle, Disj(middle, Truth())]), self.choice([last, Disj(last, Equal(Var(1), Var(0)))]))

    def recursion(self):
        """a list is left open element by element, each in a call of its own, and closed from its front, or its end, on"""
        term = self.opened(self.some_variables())
        fewer, element, others = Var(10), Var(11), Var(12)
        opens = [Equal(element, term), Atom(OPEN, (fewer, others)), *[Atom(BETWEEN, ())] * self.randrange(2)]
        closes = [Equal(element, self.closed(term)), Atom(CLOSE, (others,))]
        self.shuffle(opens)
        self.shuffle(closes)
        whole = Sym(CONS, (element, others))
        rules = [clause(OPEN, [NIL, NIL]), clause(OPEN, [Sym(2, (fewer,)), whole], conj(*opens)), self.between(BETWEEN),
                 clause(CLOSE, [NIL]), clause(CLOSE, [whole], conj(*closes))]
        count = NIL
        for _ in range(self.randint(1, 4)):
            count = Sym(2, (count,))
        return rules, conj(Atom(OPEN, (count, Var(0))), *[Atom(BETWEEN, ())] * self.randrange(2), Atom(CLOSE, (Var(0),)))

    def case(self):
        return self.choice([self.pair, self.chain, self.branches, self.recursion])()
