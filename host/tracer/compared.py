"""What is compared of a walk of the desk with Prolog: whatever is not equal differs."""
import functools

from desk_model.trees import *
from prolog import boxes_case, own_case, run

SECONDS_PER_WALK = 1
LISTED = 'listed answers'
KINDS = {
    'ports': 'port and depth of every event, beside compiled boxes',
    'goals': 'goal of every event under its bets, beside compiled boxes',
    'answers': 'answers in order, beside plain Prolog',
    LISTED: "every answer that the service gives, beside plain Prolog's findall",
    'atoms': "call and exit of atoms, beside SWI-Prolog's own tracer",
}


class Query:
    """a query of some clauses, up to its first answer or, as 'Q, fail', through all of them"""

    def __init__(self, name, clauses, goal, all_answers):
        self.name, self.clauses, self.asked, self.all_answers = name, clauses, goal, all_answers
        self.goal = Conj(goal, Failure()) if all_answers else goal

    def predicates(self):
        met = {(c.predicate, len(c.head)) for c in self.clauses}
        todo = [self.goal, *(c.body for c in self.clauses)]
        while todo:
            each = todo.pop()
            todo.extend(each.parts)
            if isinstance(each, Atom):
                met.add((each.predicate, len(each.args)))
        return sorted(met)


class Compared:
    """a query and the desk's walk of it; where it goes through all answers, their list too"""

    def __init__(self, number, query, walk, listed):
        self.number, self.query, self.walk, self.listed = number, query, walk, listed

    def has(self, kind):
        return kind != LISTED or self.listed is not None

    @functools.cache
    def shown(self, kind):
        if kind == LISTED:
            return self.listed.shown()
        return self.walk.shown(kind, self.query.asked, self.query.all_answers)

    def limit(self, kind):
        """one more than the walk shows where it ended, so that anything more would be seen; the first answer is the last one wanted"""
        if kind == 'answers' and not self.query.all_answers:
            return 1 if self.walk.ended() else 0
        return len(self.shown(kind)) + self.walk.ended()

    def boxes(self):
        return boxes_case(self.number, self.limit('ports'), self.query.goal, self.walk.program)

    def own(self):
        values = [Var(v) for v in sorted(variables(self.query.asked))]
        return own_case(self.number, self.limit('answers'), self.listing(), self.limit('atoms'), self.query, values)

    def listing(self):
        """all answers of a whole list are wanted, and as many as there are of any other"""
        if self.listed is None:
            return 0
        return 'all' if self.listed.whole() else len(self.listed.answers)


def first_difference(one, other):
    return next((n for n, (a, b) in enumerate(zip(one, other)) if a != b), min(len(one), len(other)))


def prolog_shows(walks):
    """kind -> number -> lines"""
    boxes = run('printed.pl', [w.boxes() for w in walks], len(walks) * SECONDS_PER_WALK)
    own = run('own.pl', [w.own() for w in walks], len(walks) * SECONDS_PER_WALK)
    split = {n: [each.split(' ', 2) for each in lines] for n, lines in boxes.items()}
    return {
        'ports': {n: [f'{port} {depth}' for port, depth, goal in lines] for n, lines in split.items()},
        'goals': {n: [goal for port, depth, goal in lines] for n, lines in split.items()},
        'answers': {n: [each for each in lines if each.startswith(('answer ', 'endless'))] for n, lines in own.items()},
        LISTED: {n: [each for each in lines if each.startswith(('listed ', 'unlisted'))] for n, lines in own.items()},
        'atoms': {n: [each for each in lines if each.startswith(('call ', 'exit '))] for n, lines in own.items()},
    }
