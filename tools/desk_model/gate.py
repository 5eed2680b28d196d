"""Questions 1 to 5 and 10: what a slice must be to be taken as a record, and what must fit. The first no is raised as Refused."""
from desk_model import reader
from desk_model.trees import *

LONGEST = 32768


class Refused(Exception):
    def __init__(self, number):
        self.number = number


def ask(number, yes):
    if not yes:
        raise Refused(number)


# ---- Question 4
def rising(keys):
    return all(a < b for a, b in zip(keys, keys[1:]))


def program_rules(definitions):
    return (rising([(d.predicate, d.arity) for d in definitions])
            and all(d.body.greatest < d.arity + d.locals for d in definitions))


def clause_rules(clauses):
    return all(set().union(*map(variables, [*c.head, c.body])) == set(range(c.count)) for c in clauses)


def unifier_rules(unifier):
    bound = [p.variable for p in unifier.pairs]
    return rising(bound) and not any(variables(p.term) & set(bound) for p in unifier.pairs)


def event_rules(event):
    return all(unifier_rules(bet) for bet in event.bets if isinstance(bet, Unifier))


def no_rules(goal):
    return True


# ---- Questions 1 to 4; the number of a query's or an event's is 10 more
def accepted(data, more, part, rules):
    ask(more + 1, 3 <= len(data) <= LONGEST and int.from_bytes(data[:2], 'big') == len(data) - 2)
    ask(more + 2, data[2] == 1)
    try:
        tree = reader.whole(part, data[3:])
    except reader.Unread:
        raise Refused(more + 3)
    ask(more + 4, rules(tree))
    return tree


def program(data):
    return accepted(data, 0, reader.program, program_rules)


def clauses(data):
    return accepted(data, 0, reader.clauses, clause_rules)


def query(data):
    return accepted(data, 10, reader.goal, no_rules)


def event(data):
    return accepted(data, 10, reader.event, event_rules)


# ---- Questions 5 and 10
def room_enough(room):
    ask(5, room >= LONGEST)


def record_fits(body_length):
    """a record is its body, two bytes of length and the version byte"""
    ask(10, 3 + body_length <= LONGEST)
