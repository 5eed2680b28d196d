"""A walk as it is compared: its events, each with its goal and the values of the goal's variables, whoever made it; and a list of answers."""
import collections

from desk_model.substitution import replaced
from desk_model.trees import *
from desk_model.walk import WORDS
from prolog import renamed

MOST_EVENTS = 2000

Met = collections.namedtuple('Met', 'port depth goal values')


class Walk:
    """program: the definitions; stop: the number that ended the walk, None where it is cut"""

    def __init__(self, program, events, stop):
        self.program, self.events, self.stop = program, events, stop

    def ended(self):
        return self.stop == 6

    def shown(self, kind, goal, all_answers):
        """the lines to be compared with Prolog's; goal: the query whose answers are wanted"""
        return self.answers(goal, all_answers) if kind == 'answers' else {'ports': self.ports, 'goals': self.goals, 'atoms': self.atoms}[kind]()

    def ports(self):
        return [f'{WORDS[e.port]} {e.depth}' for e in self.events]

    def goals(self):
        return [renamed(replaced(e.goal, e.values)) for e in self.events]

    def atoms(self):
        """call and exit of atoms"""
        return [f'{WORDS[e.port]} {renamed(replaced(e.goal, e.values))}'
                for e in self.events if isinstance(e.goal, Atom) and e.port in (CALL, EXIT)]

    def answers(self, goal, all_answers):
        """the values of the query's variables at its exits; in 'Q, fail' the query stands one level down, and fail has no exit"""
        asked = [Var(v) for v in sorted(variables(goal))]
        exits = [e for e in self.events if e.port == EXIT and e.goal == goal and e.depth == int(all_answers)]
        return ['answer ' + renamed(*[replaced(v, e.values) for v in asked], within='values') for e in exits]


class Listed:
    """answers: the values of the query's variables, by their numbers; stop: the number that ended the list"""

    def __init__(self, answers, stop):
        self.answers, self.stop = answers, stop

    def whole(self):
        return self.stop == 6

    def shown(self):
        return ['listed ' + renamed(*[values[v] for v in sorted(values)], within='values') for values in self.answers]
