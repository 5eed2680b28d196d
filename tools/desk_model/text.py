"""Rules as text, and a query as text: from Prolog text to a record and the list of names whose places are its symbol and predicate numbers."""
from desk_model import grammar
from desk_model.gate import Refused, ask, record_fits, room_enough
from desk_model.grammar import Reading
from desk_model.tokens import bytes_asked
from desk_model.writer import listed_record, record
from stored.layout import word

LONGEST_TEXT = 65535
MOST_VARIABLES = 64
WIDEST = 16


def limits_asked(texts, names, names_room):
    """question 22, of the texts together; each name stands behind two bytes of length"""
    ask(22, sum(len(text) for text in texts) <= LONGEST_TEXT and sum(2 + len(name) for name in names) <= names_room)


def record_asked(reading, room, length):
    """questions 3, 5 and 10"""
    ask(3, reading.widest <= WIDEST and reading.most_variables <= MOST_VARIABLES)
    room_enough(room)
    record_fits(length)


def listed_names(names):
    return b''.join(word(len(name)) + name for name in names)


def read(text, names_room, room):
    """the number, the list of names and the clause record"""
    names = {}
    try:
        bytes_asked(text)
        reading = Reading(text, names)
        made = grammar.clauses(reading)
        limits_asked([text], names, names_room)
        record_asked(reading, room, 2 + sum(clause.length for clause in made))
        return 0, listed_names(names), listed_record(made)
    except Refused as no:
        return no.number, None, None


def read_query(rules, query, names_room, room):
    """the number, the list of names of both texts, those of the rules first, and the query record"""
    names = {}
    try:
        bytes_asked(rules)
        bytes_asked(query)
        grammar.clauses(Reading(rules, names))
        reading = Reading(query, names)
        made = grammar.query(reading)
        limits_asked([rules, query], names, names_room)
        record_asked(reading, room, made.length)
        return 0, listed_names(names), record(made)
    except Refused as no:
        return no.number, None, None
