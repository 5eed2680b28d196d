"""The table of cases: each has words, a kind, its texts, the lengths of the buffers for names and record, and the answer that was worked out by hand.

r rules  q rules and a query. A text is a string or a list of pieces. A hand-made answer is the number, the name list and the record, the last two None
where the text is refused; a bare number stands for any answer with it.
"""
from reader_cases.pieces import whole
from stored.layout import *
from stored.table import Table

ROOM = 32768
NAMES = 1000
MOST_NAMES, MOST_ROOM, MOST_TEXT = 140000, 40000, 140000
cases = Table()
heading = cases.heading


def asked(kind, words, texts, names_room, room, want):
    assert names_room <= MOST_NAMES and room <= MOST_ROOM and all(len(whole(text)) <= MOST_TEXT for text in texts), words
    cases.case(words, kind, texts, (names_room, room), want)


def shown_text(text):
    """as the words of its case"""
    return repr(text) if text.strip() else text.encode().hex(' ') or 'no bytes'


def listed_names(words):
    """from the words, with blanks between them"""
    return b''.join(word(len(name)) + name.encode() for name in words.split())


# ---- Rules
def rules(words, text, names_room=NAMES, room=ROOM, want=None):
    asked('r', words, [text], names_room, room, want)


def reads(text, names, *clauses, words=None):
    """a short text that is accepted, with its names and its clauses"""
    rules(words or shown_text(text), text, want=(0, listed_names(names), record(listed(clauses))))


def no(number, text, words=None, names_room=NAMES, room=ROOM):
    """a text that is refused"""
    rules(words or shown_text(text), text, names_room, room, want=(number, None, None))


# ---- Rules and a query
def query(words, text, goal, names_room=NAMES, room=ROOM, want=None):
    asked('q', words, [text, goal], names_room, room, want)


def asks(text, goal, names, tree, words=None):
    """a query that is accepted, with the names of both texts and its goal"""
    query(words or f'{shown_text(text)} and {shown_text(goal)}', text, goal, want=(0, listed_names(names), record(tree)))


def no_query(number, text, goal, words=None, names_room=NAMES, room=ROOM):
    query(words or f'{shown_text(text)} and {shown_text(goal)}', text, goal, names_room, room, want=(number, None, None))


# ---- Parts that many cases use
def body(goal, p=0, v=0):
    """a clause without head terms"""
    return clause(p, v, [], goal)


def arguments(n, unit='x'):
    """n of them, in brackets"""
    return f'({",".join([unit] * n)})'


def sixteen_from(first):
    """an atom with so many variables"""
    return 'q(' + ','.join(f'V{n}' for n in range(first, first + 16)) + ')'


def goal_taking(length, mark):
    """a goal that takes so many bytes in a record: n atoms and m times true, joined by the mark, 5 n + 2 m - 1"""
    m = next(m for m in range(5) if (length + 1 - 2 * m) % 5 == 0)
    n = (length + 1 - 2 * m) // 5
    return [('true' + mark, m), ('a' + mark, n - 1), 'a']


SIXTY_FIVE = [('_ = _, ', 32), '_ = a']  # a goal with so many variables
OUTSIDE, FOREIGN = ')', '%'  # what makes a text wrong, by 21 and by 20
