"""Small programs and queries by chance, answered by the model alone: most to their end, each third within a step count."""
from answers_cases.table import *
from desk_model import writer
from model_checks.chance import Chance

heading('by chance')
chance = Chance(9)
for k in range(1, 61):
    definitions, keys = chance.program(2)
    goal = chance.goal(3, keys, 3)
    asked(f'program {k}', writer.listed_record(definitions), writer.record(goal), steps=MOST if k % 3 else chance.randrange(80))
