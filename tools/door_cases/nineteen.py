"""The walk of p(V), V=b, where p(V) has body V=a;V=b: each of its 20 events, its door being told by hand."""
from door_cases.table import *
from step_cases.bench import NINETEEN, P_OF_V

# A call is its own door. p(V) is called at 1 and its body at 2, V=a at 3 and V=b, the body's second half, at 13. The query's second half is called at 7
# and again at 17, so the door of its exit, 18, is 17. The way back from redo p(V), 9, and from the later exit, 16, passes 7, which has as many ancestors.
DOORS = [0, 1, 2, 3, 3, 2, 1, 7, 7, 1, 2, 3, 3, 13, 13, 2, 1, 17, 17, 0]

heading('p(V), V=b')
for n, door in enumerate(DOORS):
    door_at('limit 4,294,967,295', P_OF_V, NINETEEN, n, door)
