"""Texts by chance, with odd blanks and brackets more than are needed, then with a byte changed, put in or left out; answered by the model alone."""
from desk_model.spoken import Spoken
from model_checks.chance import Chance
from model_checks.text import clause_of, goal_of, spoken_by_chance
from reader_cases.table import *

CHANGED = 'aT_7 (),;=.:-'
chance = Chance(18)


def rules_by_chance():
    return spoken_by_chance(chance, [clause_of(chance) for _ in range(chance.randrange(4))], Spoken.clause).decode()


def query_by_chance():
    return spoken_by_chance(chance, [goal_of(chance)], Spoken.goal).decode()


def changed(text):
    at = chance.randrange(len(text) + 1)
    return text[:at] + chance.choice(['', *CHANGED]) + text[at + chance.randrange(2):]


heading('by chance')
for k in range(1, 41):
    rules(f'text {k}', rules_by_chance())
for k in range(1, 61):
    rules(f'text {k}, a byte changed', changed(rules_by_chance()))
for k in range(1, 31):
    query(f'query {k}', rules_by_chance(), query_by_chance())
for k in range(1, 31):
    query(f'query {k}, a byte changed', rules_by_chance(), changed(query_by_chance()))
