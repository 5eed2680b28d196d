"""The limit: none, one too small, exactly enough and one more; 32 before the call is met, and not where the last step allowed meets it."""
from door_cases.nineteen import DOORS
from door_cases.table import *
from step_cases.bench import NINETEEN, P_OF_V

heading('limit 0')
for n in 0, 7, 17:
    door_at('a call is its own door', P_OF_V, NINETEEN, n, n, limit=0)
for n in 4, 8, 18:
    spent_at('the call is the very next event back', P_OF_V, NINETEEN, n, 0)
for n in 9, 11, 19:
    spent_at('the call is farther back', P_OF_V, NINETEEN, n, 0)

heading('limit')
door_at('exactly one step', P_OF_V, NINETEEN, 4, 3, limit=1)
for n in 9, 12, 19:
    steps = n - DOORS[n]
    spent_at('one too small', P_OF_V, NINETEEN, n, steps - 1)
    door_at('exactly enough', P_OF_V, NINETEEN, n, DOORS[n], limit=steps)
    door_at('one more', P_OF_V, NINETEEN, n, DOORS[n], limit=steps + 1)
spent_at('spent at a call of another goal with as many ancestors', P_OF_V, NINETEEN, 9, 2)
spent_at('spent one step before that call', P_OF_V, NINETEEN, 9, 1)
spent_at('spent one step behind that call', P_OF_V, NINETEEN, 9, 3)

heading('limit of more than a byte')
# a conjunction with true before it takes 4 steps more to its exit than its second half, and true takes one
LONG = rightward(0x13, 64, TRUE)
WALK = events(NO_DEFINITIONS, LONG, 257)
for limit in 255, 256:
    spent_at('64 conjunctions', NO_DEFINITIONS, WALK, 257, limit)
for limit in 257, 65536:
    door_at(f'64 conjunctions, limit {limit:,}', NO_DEFINITIONS, WALK, 257, 0, limit)
