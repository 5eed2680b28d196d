"""The step count: none, one before an exit and exactly as many, and around the final fail."""
from answers_cases.table import *

heading('steps')
for steps in 0, 1, 5, 6, 7, 15, 16, 17, 24, 25:
    query(f'{steps} of 25', P_OF_V, [LIT], steps=steps, want=(0, steps, [RED, GREEN][:(steps >= 6) + (steps >= 16)]))
for steps in 26, 27, MOST:
    query(f'{steps:,} asked for, 25 made', P_OF_V, [LIT], steps=steps, want=(6, 25, [RED, GREEN]))
for steps in 0, 1, 2, 3, 6, 7:
    query(f'true, {steps} of 7', TRUE, steps=steps, want=(0, steps, [solution([])][:steps >= 2]))
query('true, 8 asked for, 7 made', TRUE, steps=8, want=(6, 7, [solution([])]))
query('fail, 3 of 3', FAIL, steps=3, want=(0, 3, []))
query('fail, 4 asked for, 3 made', FAIL, steps=4, want=(6, 3, []))
query('none, and an output of 70,000 bytes', P_OF_V, [LIT], steps=0, room=MOST_ROOM, want=(0, 0, []))
query('an output of 70,000 bytes', P_OF_V, [LIT], room=MOST_ROOM, want=(6, 25, [RED, GREEN]))
query('256', P, [definition(5, 0, 0, disj(TRUE, P))], steps=256, want=0)
query('65,536 asked for', P_OF_V, [LIT], steps=65536, want=(6, 25, [RED, GREEN]))
