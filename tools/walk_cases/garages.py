"""The garages of examples/ that came after the first ones. They stand at the end of the table, since documents name cases by their ordinals."""
from stored.texts import named
from walk_cases.examples import EXAMPLES, FIRST, garage
from walk_cases.table import heading

heading('example')
for name in named(EXAMPLES):
    if name not in FIRST:
        garage(name)
