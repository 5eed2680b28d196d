"""The limits of a query from both sides. The rules have theirs as a text and as names alone: their arities, variables and record are not asked."""
from reader_cases.table import *

heading('query, arity')
for place in 'p{}', 'p(q{})', 'X = q{}', 'q{} = X', 'a, (b ; p{})', 'true{}':
    query(f'{place.format("(16)")}', 'a.', place.format(arguments(16)), want=0)
    no_query(3, 'a.', place.format(arguments(17)), words=f'{place.format("(17)")}')
for n in 256, 257, 272:
    no_query(3, '', f'p{arguments(n)}', words=f'p({n})')

heading('query, variables')
FOUR = [sixteen_from(first) for first in range(0, 64, 16)]
ALL = [var(n) for n in range(64)]
QUERY = conj(atom(0, *ALL[:16]), conj(atom(0, *ALL[16:32]), conj(atom(0, *ALL[32:48]), atom(0, *ALL[48:64]))))
asks('', ', '.join(FOUR), 'q', QUERY, words='64 of them')
no_query(3, '', ', '.join([*FOUR, 'q(V64)']), words='65 of them')
asks('', ', '.join(FOUR).replace('V63', '_'), 'q', QUERY, words='63 of them and an underscore')
no_query(3, '', ', '.join([*FOUR, 'q(_)']), words='64 of them and an underscore')
query('64 underscores', '', [('_ = _, ', 31), '_ = _'], want=0)
no_query(3, '', SIXTY_FIVE, words='65 underscores')
query('64 of them, and more in the rules', f'{sixteen_from(100)}.', ', '.join(FOUR), want=0)

heading('what is not asked of the rules')
asks(f'p{arguments(17)}.', 'p', 'p x', atom(0), words='17 arguments')
asks(f'a :- {", ".join(FOUR)}, q(V64).', 'a', 'a q', atom(0), words='65 variables')
query('65 underscores', ['p :- ', *SIXTY_FIVE, '.'], 'p', want=(0, listed_names('p a'), record(atom(0))))
query('32,767 facts', [('a.', 32767)], 'b', want=(0, listed_names('a b'), record(atom(1))))
query('a term of 21,842', ['a:-X=', ('f(', 21842), 'a', (')', 21842), '.'], 'f', want=(0, listed_names('a f'), record(atom(1))))

heading('65,535 bytes together, and more')
query('rules of 65,534 and one byte', ['a.', (' ', 65532)], 'b', want=0)
no_query(22, ['a.', (' ', 65533)], 'b', words='rules of 65,535 and one byte')
query('two bytes and a query of 65,533', 'a.', ['b', (' ', 65532)], want=0)
no_query(22, 'a.', ['b', (' ', 65533)], words='two bytes and a query of 65,534')
query('32,767 and 32,768', ['a.', (' ', 32765)], ['b', (' ', 32767)], want=(0, listed_names('a b'), record(atom(1))))
no_query(22, ['a.', (' ', 32765)], ['b', (' ', 32768)], words='32,767 and 32,769')
no_query(22, ['a.', (' ', 32766)], ['b', (' ', 32767)], words='32,768 and 32,768')
no_query(22, ['a.', (' ', 65534)], 'b', words='rules of 65,536')
no_query(22, '', ['b', (' ', 65535)], words='a query of 65,536')
no_query(22, ['a.', (' ', 131069)], 'b', words='rules of 131,071')
no_query(22, 'a.', ['b', (' ', 131070)], words='a query of 131,071')
no_query(22, ['a.', (' ', 65534)], ['b', (' ', 65535)], words='both of 65,536')
query('brackets, 32,767', '', [('(', 32767), 'b', (')', 32767)], want=(0, listed_names('b'), record(atom(0))))
no_query(21, '', [('(', 32767), 'b', (')', 32766)], words='brackets, 32,767, one of them not closed')
no_query(22, '', [('(', 32768), 'b', (')', 32768)], words='brackets, 32,768')
no_query(10, '', [('f(', 21844), 'b', (')', 21844)], words='an atom of 21,844')
no_query(21, '', [('f(', 21844), 'b', (')', 21843)], words='an atom of 21,844, one bracket not closed')
no_query(10, '', [('a,', 32767), 'a'], words='32,768 atoms')
query('a name of 65,535 letters', '', [('a', 65535)], 65537, want=(0, word(65535) + b'a' * 65535, record(atom(0))))
no_query(22, '', [('a', 65535)], words='a name of 65,535 letters, one byte short', names_room=65536)
query('a name of 32,766 letters and another of 32,768', [('a', 32766), '.'], [('a', 32768)], 65538, want=0)
no_query(22, [('a', 32766), '.'], [('a', 32768)], words='the two names, one byte short', names_room=65537)
query('a name of 32,766 letters twice', [('a', 32766), '.'], [('a', 32766)], 32768, want=0)

heading('names\' buffer')
for text, goal, names in (('', 'a', 'a'), ('a.', 'a', 'a'), ('a.', 'b', 'a b'), ('a :- b.', 'c(b, d)', 'a b c d'), ('a.', 'true', 'a'), ('', 'X = true', 'true'),
                          ('p(7).', 'p(07)', 'p 7 07')):
    size = len(listed_names(names))
    for room in size, size + 1:
        query(f'{text!r} and {goal!r}, {room} bytes', text, goal, room, want=0)
    for room in sorted({0, 2, size - 1}):
        no_query(22, text, goal, words=f'{text!r} and {goal!r}, {room} bytes', names_room=room)
query('no names and no bytes', '', 'true', 0, want=(0, b'', record(TRUE)))

heading('output')
for room in 0, 1, 32767:
    no_query(5, 'a.', 'a', words=f'{room:,}', room=room)
for room in 32768, 32769, 40000:
    query(f'{room:,}', 'a.', 'a', room=room, want=(0, listed_names('a'), record(atom(0))))


def query_of(size, mark=','):
    """a goal whose query record has so many bytes"""
    return goal_taking(size - 3, mark)


heading('query record of 32,768 bytes and more')
for mark in ',', ';':
    for size in 32767, 32768:
        query(f'{size:,}, joined by {mark}', 'a.', query_of(size, mark), want=0)
    for size in 32769, 32770:
        no_query(10, 'a.', query_of(size, mark), words=f'{size:,}, joined by {mark}')
query('32,768, an output of 40,000', 'a.', query_of(32768), room=40000, want=0)
no_query(10, 'a.', query_of(32769), words='32,769, an output of 40,000', room=40000)
query('an atom, 32,767', '', ['p(', ('f(', 8189), 'a', (')', 8189), ')'], want=0)
no_query(10, '', ['p(', ('f(', 8190), 'a', (')', 8190), ')'], words='an atom, 32,771')
query('an equality, 32,766', '', ['X=', ('f(', 8189), 'X', (')', 8189)], want=0)
no_query(10, '', ['X=', ('f(', 8190), 'X', (')', 8190)], words='an equality, 32,770')
query('on the left, 6,000 conjunctions', 'a.', [('(', 6000), 'a', (',a)', 6000)], want=0)
query('on the right, 6,000 disjunctions', 'a.', [('(a;', 6000), 'a', (')', 6000)], want=0)
