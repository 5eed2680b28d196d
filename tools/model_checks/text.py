"""Rules and queries as text: trees by chance, spoken with odd blanks and brackets more than are needed, are read as those trees; and of texts in which
a byte was changed those are read that substitutions bring down to clauses."""
import re

from desk_model import gate
from desk_model.spoken import Spoken
from desk_model.text import read, read_query
from desk_model.trees import *
from model_checks.bench import same
from model_checks.chance import Chance

ROOM = 32768
PREDICATES = 'p', 'light', 'fail'
SYMBOLS = 'p', '7', 'true', 'bay_1'
BLANKS = '', '', '', ' ', '\t', '\n', '\r', ' \n  '


# ---- Trees by chance
def atoms(chance):
    """fail alone is no atom"""
    return [(n, chance.randint(PREDICATES[n] == 'fail', 2)) for n in range(len(PREDICATES))]


def goal_of(chance):
    return chance.goal(4, atoms(chance), 3)


def clause_of(chance):
    predicate, arity = chance.choice(atoms(chance))
    return Clause(predicate, 0, tuple(chance.term(4) for _ in range(arity)), goal_of(chance))


def spoken_by_chance(chance, parts, tokens_of):
    speaker = Spoken(PREDICATES, SYMBOLS, lambda v: 'WXY_'[v] + 'a' * v, lambda: chance.random() < 0.2)
    tokens = ['', *(token for part in parts for token in tokens_of(speaker, part))]
    return ''.join(token + chance.choice(BLANKS) for token in tokens).encode()


# ---- What is to be read of them
def plain(predicates, symbols, order, part, tokens_of):
    """with each variable shown by its place in the order"""
    return ' '.join(tokens_of(Spoken(predicates, symbols, lambda v: f'V{order.index(v)}'), part))


def names_of(part):
    """in the order of the text"""
    found, todo = [], [part]
    while todo:
        each = todo.pop(0)
        todo[:0] = each.parts
        if isinstance(each, Sym):
            found.append(SYMBOLS[each.symbol])
        elif isinstance(each, (Atom, Clause)):
            found.append(PREDICATES[each.predicate])
    return found


def unlisted(data):
    """the names of a list"""
    names = []
    while data:
        end = 2 + int.from_bytes(data[:2], 'big')
        names.append(data[2:end].decode())
        data = data[end:]
    return names


def agree_on_names(parts, names):
    same(unlisted(names), list(dict.fromkeys(name for part in parts for name in names_of(part))))


def agree_on_trees(parts, got, names, tokens_of):
    """variables are numbered by first appearance in each part"""
    for part, tree in zip(parts, got, strict=True):
        order = in_order([part])
        same(in_order([tree]), list(range(len(order))))
        same(plain(names, names, range(64), tree, tokens_of), plain(PREDICATES, SYMBOLS, order, part, tokens_of))


# ---- Substitutions: n for a name, t for true or fail, c for a name with a bracket directly after it, v for a variable or a number
ALLOWED = {*b'abcdefghijklmnopqrstuvwxyz', *b'ABCDEFGHIJKLMNOPQRSTUVWXYZ', *b'0123456789', *b'_:-=;,().', 9, 10, 13, 32}
KINDS = (('t', r'(true|fail)(?![\w(])'), ('c', r'[a-z]\w*(?=\()'), ('n', r'[a-z]\w*'), ('v', r'[A-Z_]\w*|\d+'))
WORD = re.compile('|'.join(f'(?P<{kind}>{pattern})' for kind, pattern in KINDS), re.ASCII)


def replaced(pattern, by, text):
    """until it fits nowhere"""
    while True:
        text, count = re.subn(pattern, by, text)
        if not count:
            return text


def brought_down(text):
    """a for a name with its arguments, e for an equality, | for :-; a blank between a word and a bracket is kept as !"""
    text = WORD.sub(lambda word: word.lastgroup, text).replace(':-', '|')
    text = re.sub(r'(?<=[a-z])[\t\n\r ]+\(', '!(', text)
    text = re.sub(r'[\t\n\r ]*([^a-z\t\n\r ])[\t\n\r ]*', r'\1', text).strip('\t\n\r ')
    text = replaced(r'c\([ntva](,[ntva])*\)', 'a', text)
    return re.sub(r'[ntva]=[ntva](?!=)', 'e', text)


def is_goal(text):
    return re.fullmatch(r'e([,;]e)*', replaced(r'\(e([,;]e)*\)', 'e', re.sub('[nta]', 'e', text))) is not None


def is_clause(text):
    head, neck, body = text.partition('|')
    return head in ('n', 'a') and (neck == '' or is_goal(body))


def is_text(text):
    *clauses, rest = brought_down(text).split('.')
    return rest == '' and all(map(is_clause, clauses))


# ---- Groups
def texts_by_chance():
    chance = Chance(14)
    for _ in range(1500):
        parts = [clause_of(chance) for _ in range(chance.randrange(4))]
        number, names, record = read(spoken_by_chance(chance, parts, Spoken.clause), ROOM, ROOM)
        same(number, 0)
        agree_on_names(parts, names)
        agree_on_trees(parts, gate.clauses(record), unlisted(names), Spoken.clause)


def queries_by_chance():
    chance = Chance(15)
    for _ in range(1000):
        parts, asked = [clause_of(chance) for _ in range(chance.randrange(3))], goal_of(chance)
        rules = spoken_by_chance(chance, parts, Spoken.clause)
        number, names, record = read_query(rules, spoken_by_chance(chance, [asked], Spoken.goal), ROOM, ROOM)
        own = read(rules, ROOM, ROOM)[1]
        same((number, names[:len(own)]), (0, own))
        agree_on_names([*parts, asked], names)
        agree_on_trees([asked], [gate.query(record)], unlisted(names), Spoken.goal)


def texts_with_a_byte_changed():
    chance, met = Chance(16), {0: 0, 20: 0, 21: 0}
    for _ in range(6000):
        text = spoken_by_chance(chance, [clause_of(chance) for _ in range(2)], Spoken.clause)
        at, byte = chance.randrange(len(text)), chance.choice([b'', *(bytes([b]) for b in b'aT_7 (),;=.:-(),;=.@')])
        text = text[:at] + byte + text[at + chance.randrange(2):]
        number = read(text, ROOM, ROOM)[0]
        same(number, 20 if set(text) - ALLOWED else 0 if is_text(text.decode()) else 21)
        met[number] += 1
    assert min(met.values()) > 100, met


GROUPS = texts_by_chance, queries_by_chance, texts_with_a_byte_changed
