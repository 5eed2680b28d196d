"""Question 21: the clauses or the goal of a text. Names and variables get their numbers as they are met, and the widest arity and the most variables
of a clause are kept for question 3."""
from desk_model.canonical import to_the_right
from desk_model.gate import ask
from desk_model.tokens import END, tokens
from desk_model.trees import *

PLAIN = {b'true': Truth(), b'fail': Failure()}


class Reading:
    """the tokens that are still to be read. names is shared by texts that are read one after another; variables are those of the present clause"""

    def __init__(self, text, names):
        self.tokens, self.at = tokens(text), 0
        self.names, self.variables = names, {}
        self.widest = self.most_variables = 0

    def ahead(self, n=0):
        return self.tokens[self.at + n] if self.at + n < len(self.tokens) else END

    def sees(self, mark):
        return self.ahead().word == mark

    def take(self, *kinds):
        """the next token, which must be of one of these kinds"""
        token = self.ahead()
        ask(21, token.kind in kinds)
        self.at += 1
        return token

    def want(self, mark):
        ask(21, self.sees(mark))
        self.at += 1

    def name(self, word):
        """its place in the list of names"""
        return self.names.setdefault(word, len(self.names))

    def variable(self, word):
        """its number in the clause; a lone underscore is new each time"""
        key = len(self.variables) if word == b'_' else word
        number = self.variables.setdefault(key, len(self.variables))
        self.most_variables = max(self.most_variables, len(self.variables))
        return number


def parted(reading, part, mark):
    """one or more parts, with the mark between them"""
    found = [part(reading)]
    while reading.sees(mark):
        reading.want(mark)
        found.append(part(reading))
    return found


# ---- Terms and heads
def has_arguments(reading, name):
    """an opening bracket stands directly after the name"""
    return reading.sees(b'(') and reading.ahead().start == name.end


def arguments(reading, name):
    if not has_arguments(reading, name):
        return ()
    reading.want(b'(')
    found = tuple(parted(reading, term, b','))
    reading.want(b')')
    reading.widest = max(reading.widest, len(found))
    return found


def term(reading):
    token = reading.take('variable', 'number', 'name')
    if token.kind == 'variable':
        return Var(reading.variable(token.word))
    number = reading.name(token.word)
    return Sym(number, arguments(reading, token) if token.kind == 'name' else ())


def head(reading):
    token = reading.take('name')
    ask(21, token.word not in PLAIN or has_arguments(reading, token))
    return Atom(reading.name(token.word), arguments(reading, token))


# ---- Goals
def goal(reading):
    return to_the_right(Disj, parted(reading, conjunction, b';'))


def conjunction(reading):
    return to_the_right(Conj, parted(reading, single, b','))


def is_plain(reading):
    """true or fail, with neither arguments nor = behind it"""
    word, behind = reading.ahead(), reading.ahead(1)
    return word.word in PLAIN and behind.word != b'=' and (behind.word != b'(' or behind.start != word.end)


def single(reading):
    if reading.sees(b'('):
        reading.want(b'(')
        inner = goal(reading)
        reading.want(b')')
        return inner
    if is_plain(reading):
        return PLAIN[reading.take('name').word]
    first = reading.ahead()
    left = term(reading)
    if reading.sees(b'='):
        reading.want(b'=')
        return Equal(left, term(reading))
    ask(21, first.kind == 'name')
    return Atom(left.symbol, left.args)


# ---- Texts
def clause(reading):
    reading.variables = {}
    made = head(reading)
    body = Truth()
    if reading.sees(b':-'):
        reading.want(b':-')
        body = goal(reading)
    reading.want(b'.')
    return Clause(made.predicate, len(reading.variables), made.args, body)


def clauses(reading):
    """any number of them, or none"""
    found = []
    while reading.ahead() != END:
        found.append(clause(reading))
    return found


def query(reading):
    """a goal, and no full stop"""
    found = goal(reading)
    ask(21, reading.ahead() == END)
    return found
