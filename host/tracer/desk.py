"""The desk's own walks and lists of answers: host/fourport/examples/events and lists over many queries at once."""
import functools, subprocess

from desk_model import gate, reader
from desk_model.writer import listed_record, record
from walks import MOST_EVENTS, Listed, Met, Walk


@functools.cache
def goal_of(hexadecimal):
    return reader.whole(reader.goal, bytes.fromhex(hexadecimal))


@functools.cache
def term_of(hexadecimal):
    return reader.whole(reader.term, bytes.fromhex(hexadecimal))


def met(line):
    """port, depth, goal, and a number and a value for each variable of the goal"""
    port, depth, goal, *words = line.split()
    return Met(int(port), int(depth), goal_of(goal), values(words))


def values(words):
    """a number and a value for each variable"""
    return {int(v): term_of(t) for v, t in zip(words[::2], words[1::2])}


def lines(program, most, asked):
    """what the program prints of the (clauses, goal) asked"""
    data = b''.join(listed_record(clauses) + record(goal) for clauses, goal in asked)
    desk = subprocess.run([program, str(most)], input=data, stdout=subprocess.PIPE)
    if desk.returncode:
        raise SystemExit(f'{program} ended with {desk.returncode}')
    return desk.stdout.decode().splitlines()


def desk_lists(lists_program, asked):
    """a list for each (clauses, goal), from as many steps of 'Q, fail' as its walk has"""
    found, answers = [], []
    for line in lines(lists_program, MOST_EVENTS - 1, asked):
        word, *words = line.split()
        if word == 'answer':
            answers.append(values(words))
        else:
            found.append(Listed(answers, int(words[0])))
            answers = []
    if len(found) != len(asked):
        raise SystemExit(f'{lists_program} gave {len(found)} of {len(asked)} lists')
    return found


def desk_walks(events_program, asked):
    """a walk for each (clauses, goal)"""
    found, program, events = [], None, []
    for line in lines(events_program, MOST_EVENTS, asked):
        word, _, rest = line.partition(' ')
        if word == 'program':
            program, events = gate.program(bytes.fromhex(rest)), []
        elif word not in ('stop', 'cut'):
            events.append(met(line))
        elif program is None:
            raise SystemExit(f'clauses or query {len(found)} are refused by question {rest}')
        else:
            found.append(Walk(program, events, int(rest) if rest else None))
            program = None
    if len(found) != len(asked):
        raise SystemExit(f'{events_program} gave {len(found)} of {len(asked)} walks')
    return found
