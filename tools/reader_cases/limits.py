"""Limits, each from both sides: arities, the length of the text, the names' buffer, the output and the record."""
from itertools import islice, product

from reader_cases.table import *

heading('arity 16 and 17')
SIXTEEN, SEVENTEEN = arguments(16), arguments(17)
reads(f'p{SIXTEEN}.', 'p x', clause(0, 0, [sym(1)] * 16, TRUE), words='head, 16')
no(3, f'p{SEVENTEEN}.', words='head, 17')
reads(f'p :- q{SIXTEEN}.', 'p q x', body(atom(1, *[sym(2)] * 16)), words='atom, 16')
no(3, f'p :- q{SEVENTEEN}.', words='atom, 17')
reads(f'p(q{SIXTEEN}).', 'p q x', clause(0, 0, [sym(1, *[sym(2)] * 16)], TRUE), words='term of a head, 16')
no(3, f'p(q{SEVENTEEN}).', words='term of a head, 17')
for place in 'p :- r(q{}).', 'p :- q{} = X.', 'p :- X = q{}.', 'p(a, f(b, g(q{}), c)).', 'p :- a, (b ; X = f(q{})).', 'a. b. p :- true{}.', 'fail{} :- a.':
    rules(f'{place.format("(16)")}', place.format(SIXTEEN), want=0)
    no(3, place.format(SEVENTEEN), words=f'{place.format("(17)")}')
no(3, f'p{SEVENTEEN}. a.', words='the first of two clauses')
rules('16 arguments of 16 each', 'p' + arguments(16, 'q' + SIXTEEN) + '.', want=0)
no(3, 'p' + arguments(15, 'q' + SIXTEEN)[:-1] + f',q{SEVENTEEN}).', words='17 in the last of 16 arguments')
no(3, 'p' + arguments(17, 'q' + SIXTEEN) + '.', words='17 arguments of 16 each')
for n in 18, 32, 255, 256, 257, 272, 513:
    no(3, f'p{arguments(n)}.', words=f'head, {n}')
    no(3, f'p :- X = q{arguments(n)}.', words=f'term, {n}')
no(3, ['p(', ('x,', 32000), 'x).'], words='head, 32,001')
no(3, ['p :- q(', ('_,', 300), '_).'], words='an arity and the variables')

heading('text of 65,535 bytes and more')
ONE_FACT = record(listed([body(TRUE)]))
for words, text in (('blanks behind a fact', ['a.', (' ', 65533)]), ('blanks before a fact', [(' ', 65533), 'a.']),
                    ('blanks within', ['a', ('\n', 65533), '.']), ('brackets', ['a:-', ('(', 32765), 'a', (')', 32765), '.'])):
    rules(f'65,535: {words}', text, want=0)
    no(22, [*text, ' '], words=f'65,536: {words}')
rules('65,535: a name', [('n', 65534), '.'], 65536, want=0)
no(22, [('n', 65535), '.'], words='65,536: a name', names_room=140000)
no(22, [('n', 65536), '.'], words='65,537: a name', names_room=140000)
for length in 65536, 65537, 70000, 98304, 131071, 131072, 140000:
    no(22, [(' ', length)], words=f'{length:,} blanks')
no(22, [('a.', 32768)], words='32,768 facts')
no(10, [('a.', 32767)], words='32,767 facts')

heading('names\' buffer')
for text, names in (('a.', 'a'), ('a(b) :- c, b.', 'a b c'), ('true(fail) :- true.', 'true fail'), ('p(7, 07).', 'p 7 07'), ('a. a. a :- a(a).', 'a'),
                    ('abc. abd. abc.', 'abc abd'), ('p :- X = longer_name, Y = longer_name.', 'p longer_name')):
    size = len(listed_names(names))
    for room in size, size + 1:
        rules(f'{text!r}, {room} bytes', text, room, want=0)
    for room in sorted({0, 1, 2, size - 1}):
        no(22, text, words=f'{text!r}, {room} bytes', names_room=room)
for text in '', ' \n':
    for room in 0, 1:
        rules(f'{len(text)} blanks, {room} bytes', text, room, want=(0, b'', record(listed([]))))
rules('an output of 40,000 and 140,000 for the names', 'a(b).', 140000, 40000, want=0)
rules('a name of 65,534 letters, 65,536 bytes', [('a', 65534), '.'], 65536, want=0)
no(22, [('a', 65534), '.'], words='a name of 65,534 letters, 65,535 bytes', names_room=65535)
rules('a name of 255 letters', [('a', 255), '.'], 257, want=(0, word(255) + b'a' * 255, ONE_FACT))
rules('a name of 256 letters', [('a', 256), '.'], 258, want=(0, word(256) + b'a' * 256, ONE_FACT))
no(22, [('a', 256), '.'], words='a name of 256 letters, 257 bytes', names_room=257)

FIRST, FOLLOWING = 'abcdefghijklmnopqrstuvwxyz', '_9876543210zyxwvutsrqponmlkjihgfedcbaZYXWVUTSRQPONMLKJIHGFEDCBA'


def names_there_are():
    """the shortest first; the first letter changes last"""
    for length in 1, 2, 3:
        for letters in product(FIRST, *[FOLLOWING] * (length - 1)):
            yield ''.join(letters)


def facts_of(names, each):
    """facts of p with so many of the names as constants"""
    return ''.join(f'p({",".join(names[n:n + each])}).' for n in range(0, len(names), each))


heading('many names')
SOME = [name for name in islice(names_there_are(), 7501) if name != 'p']
LISTED = listed_names(' '.join(['p', *SOME]))
assert len(SOME) == 7500
for more in 0, 1:
    rules(f'7,501 names, {more} bytes left', facts_of(SOME, 15), len(LISTED) + more, want=0)
no(22, facts_of(SOME, 15), words='7,501 names, one byte short', names_room=len(LISTED) - 1)
ALL = list(islice(names_there_are(), 16806))
TEXT = ''.join(f'{name}.' for name in ALL)
assert len(TEXT) <= 65535 < len(TEXT) + 4
ALL_LISTED = sum(2 + len(name) for name in ALL)
no(10, TEXT, words='16,806 names as facts, a list that fits', names_room=ALL_LISTED)
no(22, TEXT, words='16,806 names as facts, one byte short', names_room=ALL_LISTED - 1)

heading('output')
for room in 0, 1, 12, 32767:
    no(5, 'a.', words=f'{room:,}', room=room)
    no(5, '', words=f'{room:,}, no clauses', room=room)
for room in 32768, 32769, 40000:
    rules(f'{room:,}', 'a.', room=room, want=(0, listed_names('a'), ONE_FACT))


def rules_of(size, mark=','):
    """a text whose clause record has so many bytes"""
    return ['a:-', *goal_taking(size - 9, mark), '.']


heading('record of 32,768 bytes and more')
for mark in ',', ';':
    for size in 32766, 32767, 32768:
        rules(f'{size:,}, joined by {mark}', rules_of(size, mark), want=0)
    for size in 32769, 32770, 32773, 33000:
        no(10, rules_of(size, mark), words=f'{size:,}, joined by {mark}')
rules('32,768, an output of 32,769', rules_of(32768), room=32769, want=0)
rules('32,768, an output of 40,000', rules_of(32768), room=40000, want=0)
no(10, rules_of(32769), words='32,769, an output of 40,000', room=40000)
rules('facts, 32,765', [('a.', 6552)], want=0)
no(10, [('a.', 6553)], words='facts, 32,770')
rules('a term, 32,766', ['p(', ('f(', 8188), 'a', (')', 8188), ').'], want=0)
no(10, ['p(', ('f(', 8189), 'a', (')', 8189), ').'], words='a term, 32,770')
rules('a term with a variable, 32,765', ['p(', ('f(', 8188), 'X', (')', 8188), ').'], want=0)
no(10, ['p(', ('f(', 8189), 'X', (')', 8189), ').'], words='a term with a variable, 32,769')
no(10, ['p:-X=', ('f(', 8188), 'a', (')', 8188), '.'], words='an equality, 32,769')
rules('an equality, 32,768', ['p:-X=', ('f(', 8187), 'X,a', (')', 8187), '.'], want=0)
rules('brackets leave no byte', ['a:-', ('(a),', 6551), '((a)).'], want=0)
no(10, ['a:-', ('(a),', 6551), '((a)),true.'], words='brackets leave no byte, and one conjunct more')
rules('1,170 clauses of 28 bytes, 32,765', [('p(X,Y):-q(Y,X),r(_).', 1170)], want=0)
no(10, [('p(X,Y):-q(Y,X),r(_).', 1171)], words='1,171 clauses of 28 bytes, 32,793')
