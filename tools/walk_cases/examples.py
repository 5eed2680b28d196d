"""The specification's own walks and the first garages of examples/; the others stand at the end of the table, in garages.py."""
import os

from stored.files import ROOT
from stored.texts import walk_records
from walk_cases.table import *

EXAMPLES = os.path.join(ROOT, 'examples')
FIRST = 'door-sign', 'one-bay', 'one-light', 'sensor-line', 'three-bays'


def garage(name):
    case(f'the garage {name}', b''.join(walk_records(os.path.join(EXAMPLES, name))))


heading('example')
case('the specification\'s own', EXAMPLE, EXAMPLE_TEXT)
# p(V) has body V=a;V=b
CHOICE = program(definition(5, 1, 0, disj(eq(V0, A), eq(V0, B))))
case('the bench sheet\'s p(V), V=b', CHOICE + record(conj(atom(5, V0), eq(V0, B))))
case('p(V), V=c', CHOICE + record(conj(atom(5, V0), eq(V0, sym(4)))))
case('V0=f(V0)', NO_DEFINITIONS + record(eq(V0, sym(6, V0))), '0 call 0 0\n1 fail 0 0\nstop 6\n')
case('an undefined atom', NO_DEFINITIONS + record(P), '0 call 0 0\n1 fail 0 0\nstop 6\n')
for name in FIRST:
    garage(name)
