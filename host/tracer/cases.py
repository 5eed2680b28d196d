"""The cases: texts of rules with a query beside them, and programs by chance, each with a name, as clauses and a goal."""
import pathlib, subprocess

from desk_model import gate
from desk_model.canonical import to_the_right
from desk_model.trees import *
from made import Made, clause
from model_checks.chance import Chance

UNDEFINED = [(7, 0), (8, 1)]


def records(program, path, *words):
    """the two records that the desk makes of the rules and of the query beside them; program: host/fourport's example records"""
    made = subprocess.run([program, *words, path, path.with_suffix('.query')], stdout=subprocess.PIPE, check=True).stdout
    end = 2 + int.from_bytes(made[:2], 'big')
    return made[:end], made[end:]


def text_case(program, path):
    rules, query = records(program, path, '--clauses')
    return path.stem, gate.clauses(rules), gate.query(query)


class Programs(Chance):
    def rule(self, key, callable_keys):
        """a fact or a rule"""
        number, arity = key
        variables = self.randint(0, 3)
        head = [self.term(variables, self.choice([0, 0, 1, 2])) for _ in range(arity)]
        body = Truth() if self.random() < 0.45 else self.goal(variables + self.randint(0, 1), callable_keys, self.randint(0, 2))
        return clause(number, head, body)

    def asked(self, keys):
        """one to three atoms whose arguments are mostly variables, and now and then any goal"""
        if self.random() < 0.3:
            return self.goal(3, keys, 2)
        atoms = self.choices(keys, k=self.randint(1, 3))
        return to_the_right(Conj, [Atom(number, tuple(self.argument() for _ in range(arity))) for number, arity in atoms])

    def argument(self):
        return Var(self.randrange(4)) if self.random() < 0.7 else self.term(3, 1)

    def case(self):
        """mostly a predicate calls those after it; now and then any one, so that some walks do not end"""
        keys = [(n, self.choice([0, 1, 1, 2, 2, 3])) for n in range(self.randint(2, 4))]
        rules = []
        for n, key in enumerate(keys):
            for _ in range(self.choice([1, 2, 2, 3])):
                called = keys if self.random() < 0.25 else keys[n + 1:]
                rules.append(self.rule(key, called + (UNDEFINED if self.random() < 0.1 else [])))
        return rules, self.asked(keys)


def programs(count, seed):
    """(name, clauses, goal); program n of seed s is named s.n, and every third one is made"""
    chance, made = Programs(seed), Made(seed)
    return [(f'made {seed}.{n}', *made.case()) if n % 3 == 0 else (f'{seed}.{n}', *chance.case()) for n in range(count)]


def is_made(name):
    return name.startswith('made ')


def rule_texts(repository):
    """those that have a query beside them"""
    queries = sorted(pathlib.Path(repository, 'examples').glob('*.query')) + sorted(pathlib.Path(__file__).parent.glob('programs/*.query'))
    return [query.with_suffix('.pl') for query in queries]
