"""Texts by chance, read by the desk and by SWI-Prolog's own reader: what is read, clause by clause, and where a text is refused.

The texts are of the language that both have. Left out, since the two differ by nature: a full stop with no blank behind it (Prolog's end of a clause needs
one), numbers with a leading zero or with anything but digits directly behind them, two numbers side by side (SWI-Prolog reads 1 000 as one), signs of
other operators, names that are operators in Prolog, and bytes that no text of ours holds. What SWI-Prolog reads and our language does not have, such as
brackets around a term, is told by reading.pl, and the desk has to refuse it.
"""
import collections, random, re, subprocess

from desk_model import gate
from desk_model.trees import *
from prolog import run

NAMES = ['a', 'b', 'p', 'q', 'f', 'nil', 'true', 'fail', 'x_', 'aB9_', 'bay1']
VARIABLES = ['X', 'Y', 'Bay', '_', '_', '_1', '__']
NUMBERS = ['0', '7', '10', '65536']
BLANKS = ['', '', ' ', '\n', '\t', '\r\n', '  ']
TOKENS = [*NAMES[:6], 'true', 'X', '_', '7', 'p(', 'f(', '(', ')', ',', ';', '=', ':-', '. ']
SIGNS = re.compile('[:=.-]+')
WORDS = re.compile('[A-Za-z0-9_]+')
WHOLE_NUMBER = re.compile('0|[1-9][0-9]*')
TWO_NUMBERS = re.compile(r'[0-9]\s+[0-9]')
END = re.compile(r'\.(?!\s|$)')

Case = collections.namedtuple('Case', 'kind text')
Reading = collections.namedtuple('Reading', 'lines refused')


class Texts(random.Random):
    """texts of the grammar, with any spacing, and such with a token or two changed"""

    def joined(self, tokens):
        return ''.join(token + self.choice(BLANKS) if not token.endswith('(') else token for token in tokens)

    def term(self, depth):
        kind = self.random()
        if kind < 0.35:
            return [self.choice(VARIABLES)]
        if kind < 0.45:
            return [self.choice(NUMBERS)]
        return self.named(depth) if depth else [self.choice(NAMES)]

    def named(self, depth):
        """a name with or without arguments"""
        name, arity = self.choice(NAMES), self.choice([0, 0, 1, 1, 2, 3])
        parts = [[',', *self.term(depth - 1)] for _ in range(arity)]
        return [name + '(', *sum(parts, [])[1:], ')'] if arity else [name]

    def goal(self, depth):
        parts = [[self.choice(',,;'), *self.part(depth)] for _ in range(self.choice([1, 1, 2, 3]))]
        return sum(parts, [])[1:]

    def part(self, depth):
        kind = self.random()
        if depth and kind < 0.25:
            return ['(', *self.goal(depth - 1), ')']
        return [*self.term(2), '=', *self.term(2)] if kind < 0.5 else self.named(2)

    def clause(self):
        head = self.named(2)
        if head in (['true'], ['fail']):
            head = ['p']
        return [*head, *([':-', *self.goal(2)] if self.random() < 0.6 else []), '. ']

    def changed(self, tokens):
        """a token or two put in, taken out or put for another; or a word in brackets"""
        tokens = list(tokens)
        for _ in range(self.choice([1, 1, 2])):
            at = self.randrange(len(tokens) + 1)
            if self.random() < 0.3 and WORDS.fullmatch(''.join(tokens[at:at + 1])):
                tokens[at:at + 1] = '(', tokens[at], ')'
            else:
                tokens[at:at + self.randrange(2)] = [self.choice(TOKENS)] if self.random() < 0.7 else []
        return tokens

    def case(self):
        kind = self.choice(['clauses', 'clauses', 'goal'])
        tokens = sum([self.clause() for _ in range(self.choice([1, 2, 3]))], []) if kind == 'clauses' else self.goal(3)
        return Case(kind, self.joined(self.changed(tokens) if self.random() < 0.5 else tokens))


def is_common(text):
    """whether both languages take the text for the same tokens"""
    words = [word for word in WORDS.findall(text) if word[0].isdigit()]
    signs = all(sign in (':-', '=', '.') for sign in SIGNS.findall(text))
    return signs and all(map(WHOLE_NUMBER.fullmatch, words)) and not TWO_NUMBERS.search(text) and not END.search(text)


def cases(count, seed):
    texts, made = Texts(seed), []
    while len(made) < count:
        case = texts.case()
        if is_common(case.text):
            made.append(case)
    return made


# ---- The desk
def shown(part, names):
    """a tree, name first, as reading.pl prints it"""
    if isinstance(part, Var):
        return f'_{part.number}'
    kinds = {Truth: 'true', Failure: 'fail', Equal: '$equal', Conj: '$and', Disj: '$or'}
    number = part.symbol if isinstance(part, Sym) else part.predicate if isinstance(part, Atom) else None
    name = kinds[type(part)] if number is None else names[number]
    return f'{name}({",".join(shown(each, names) for each in part.parts)})' if part.parts else name


def desk_reading(case, line):
    number, place, names, record = line.split(' ')
    if number != '0':
        before = case.text[:int(place)].count('.') if case.kind == 'clauses' else 0
        return Reading(before, number)
    names, record = names.split(','), bytes.fromhex(record)
    if case.kind == 'goal':
        return Reading([shown(gate.query(record), names)], None)
    return Reading([f'$clause({shown(Atom(c.predicate, c.head), names)},{shown(c.body, names)})' for c in gate.clauses(record)], None)


def desk_readings(program, asked):
    data = b''.join(case.kind[:1].encode() + len(case.text).to_bytes(4, 'big') + case.text.encode() for case in asked)
    desk = subprocess.run([program], input=data, stdout=subprocess.PIPE, check=True)
    return [desk_reading(case, line) for case, line in zip(asked, desk.stdout.decode().splitlines(), strict=True)]


# ---- SWI-Prolog
def prolog_readings(asked):
    texts = [f'case({n},{case.kind},{list(case.text.encode())}).\n' for n, case in enumerate(asked)]
    found = run('reading.pl', texts, len(asked) + 60, '--traditional')
    return [prolog_reading(found[n]) for n in range(len(asked))]


def prolog_reading(lines):
    """the clauses before a refusal are as many as there are lines"""
    if lines and lines[-1].startswith('refused '):
        return Reading(len(lines) - 1, lines[-1].removeprefix('refused '))
    return Reading(lines, None)


def agree(desk, prolog):
    """the same terms; or a no to question 21, in the clause in which Prolog refuses or has what is not ours"""
    return desk == prolog if prolog.refused is None else (desk.refused, desk.lines) == ('21', prolog.lines)


def compare(program, count, seed):
    """prints what was read and refused; whether the two agree"""
    asked = cases(count, seed)
    pairs = list(zip(asked, desk_readings(program, asked), prolog_readings(asked)))
    unlike = [pair for pair in pairs if not agree(*pair[1:])]
    for case, desk, prolog in unlike:
        print(f'{case.kind} {case.text!r}\n    desk {desk}\n    Prolog {prolog}')
    read = sum(prolog.refused is None for _, _, prolog in pairs)
    words = collections.Counter(prolog.refused for _, _, prolog in pairs if prolog.refused)
    syntax = words.pop('syntax', 0)
    print(f"{count} texts, beside SWI-Prolog's reader: {read} read, {syntax} that it refuses, {sum(words.values())} that have what is not ours: "
          f'{count - len(unlike)} agree, {len(unlike)} differ')
    print('not ours: ' + ', '.join(f'{word.replace("_", " ")} {n}' for word, n in sorted(words.items())))
    return not unlike
