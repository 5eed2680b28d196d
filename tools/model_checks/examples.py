"""The example garages: the walk program's input is made of their texts, each name and each event that a story shows is there, and the walk goes back to
its start."""
import os, re

from desk_model import gate
from desk_model.services import BACK, FORWARD, first_event, run, step
from desk_model.spoken import Spoken, in_line
from desk_model.walk import WORDS, walk
from stored.files import ROOT
from stored.texts import content, named, names, walk_records

ROOM = 32768
MOST = 4294967295
FOLDER = os.path.join(ROOT, 'examples')
EVENT_LINE = re.compile(r' +(\d+ (?:call|exit|fail|redo) \d+ \d+  .*|stop \d+)')


def paths():
    return [os.path.join(FOLDER, name) for name in named(FOLDER)]


def story(path):
    return content(path + '.md').decode().splitlines()


def event_lines(path):
    """a line per event, as the walk program prints it and with the goal behind it, then the stop line"""
    (listed, variables), (program, query) = names(path), walk_records(path)
    speaker, lines = Spoken(listed, listed, lambda v: variables[v] if v < len(variables) else f'V{v}'), []
    number, record = first_event(query, ROOM)
    while number == 0:
        event = gate.event(record)
        lines.append(f'{len(lines)} {WORDS[event.port]} {event.ancestors.count} {event.bets.count}  {in_line(speaker.goal(event.goal))}')
        number, following = step(FORWARD, program, record, ROOM)
        record = following or record
    return [*lines, f'stop {number}']


def numbered(words, listed):
    return [f'- {words}: ' + ', '.join(f'{n} {name}' for n, name in enumerate(listed))] if listed else []


# ---- Groups
def example_records():
    for path in paths():
        assert b''.join(walk_records(path)) == content(path + '.in'), path


def example_stories():
    for path in paths():
        listed, variables = names(path)
        wanted, lines = numbered('Names', listed) + numbered('Variables of the query', variables), event_lines(path)
        assert [line for line in story(path) if line.startswith(('- Names: ', '- Variables of the query: '))] == wanted, path
        shown = [match[1] for match in map(EVENT_LINE.fullmatch, story(path)) if match]
        assert shown and set(shown) <= set(lines), (path, set(shown) - set(lines))
        assert walk(content(path + '.in')) == ''.join(line.split('  ')[0] + '\n' for line in lines), path


def example_walks_and_their_way_back():
    for path in paths():
        program, query = walk_records(path)
        first = first_event(query, ROOM)[1]
        number, steps, last = run(FORWARD, program, first, MOST, ROOM)
        assert number == 6 and run(BACK, program, last, steps, ROOM) == (0, steps, first), path


GROUPS = example_records, example_stories, example_walks_and_their_way_back
