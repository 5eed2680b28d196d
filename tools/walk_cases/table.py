"""The table of cases: each has words, a whole standard input of the walk program, and what was worked out by hand: the text, or of a long one how many
events it has and the number of its stop line, or None."""
from stored.layout import *
from stored.table import Table

cases = Table()
heading = cases.heading


def case(words, data, want=None):
    cases.case(words, data, want)


def agrees(text, want):
    """with what was worked out by hand"""
    if isinstance(want, tuple):
        events, number = want
        return text.count('\n') == events + 1 and text.endswith(f'\nstop {number}\n')
    return want is None or text == want


def refused(words, data, number):
    """the stop line alone"""
    case(words, data, f'stop {number}\n')


# ---- Records
def program(*definitions):
    return record(listed(definitions))


NO_DEFINITIONS = program()
# the specification's own input, and what it prints (SPECIFICATION 9)
EXAMPLE_QUERY = hexa('00 09 01 12 01 00 00 02 00 02 00')
EXAMPLE = NO_DEFINITIONS + EXAMPLE_QUERY
EXAMPLE_TEXT = '0 call 0 0\n1 exit 0 1\nstop 6\n'
