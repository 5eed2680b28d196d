"""Events of walks by chance that are no calls, answered by the model alone; each third of them within a limit."""
from desk_model import writer
from door_cases.table import *
from model_checks.chance import Chance

heading('by chance')
chance = Chance(11)
for k in range(1, 13):
    definitions, keys = chance.program(2)
    made = writer.listed_record(definitions)
    walk = events(made, writer.written(chance.goal(3, keys, 3)), 80)
    asked(f'program {k}', made, chance.choice([e for e in walk if e[PORT] != CALL]), limit=MOST if k % 3 else chance.randrange(6))
