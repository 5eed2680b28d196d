"""Rules and a query as text, in files NAME.pl and NAME.query: their records and their names. A path has no suffix."""
import os

from desk_model import grammar
from desk_model.canonical import canonical_program
from desk_model.grammar import Reading
from desk_model.text import read, read_query

ROOM = 32768
NAMES = 1 << 18  # more bytes than the names of two texts take


def named(folder):
    """the names of a folder's pairs of files"""
    return sorted(file.removesuffix('.query') for file in os.listdir(folder) if file.endswith('.query'))


def content(path):
    with open(path, 'rb') as file:
        return file.read()


def texts(path):
    """of the rules and of the query"""
    return content(f'{path}.pl'), content(f'{path}.query')


def accepted(path, number, *made):
    if number:
        raise SystemExit(f'{path}: refused by question {number}')
    return made


def walk_records(path):
    """the walk program's input: the program record and the query record"""
    rules, query = texts(path)
    _, clauses = accepted(path, *read(rules, NAMES, ROOM))
    _, asked = accepted(path, *read_query(rules, query, NAMES, ROOM))
    (program,) = accepted(path, *canonical_program(clauses, ROOM))
    return program, asked


def names(path):
    """those of the list, and those of the query's variables"""
    (rules, query), listed = texts(path), {}
    grammar.clauses(Reading(rules, listed))
    reading = Reading(query, listed)
    grammar.query(reading)
    return [name.decode() for name in listed], [name.decode() if isinstance(name, bytes) else '_' for name in reading.variables]
