"""Questions 3 and 4 of programs: definitions, their order, and the variables of a body."""
from record_cases.table import *

heading('program')
program(0, 'one definition', definition(5, 0, 0, TRUE))
program(0, 'predicate 65,535, arity 16, locals 255', definition(65535, 16, 255, TRUE))
program(3, 'arity 17', definition(5, 17, 0, TRUE))
program(3, 'arity 255', definition(5, 255, 0, TRUE))
program(3, 'arity 17 in the second definition', definition(5, 0, 0, TRUE), definition(6, 17, 0, TRUE))
program(3, 'a term for the body', definition(5, 1, 0, V0))
program(3, 'kind 16 for the body', definition(5, 0, 0, hexa('16 00 05 00')))
program(3, 'an atom of arity 17 in the body', definition(5, 1, 0, atom(5, *[V0] * 17)))
program(3, 'one definition, counted 0', definition(5, 0, 0, TRUE), count=0)
program(3, 'one definition, counted 2', definition(5, 0, 0, TRUE), count=2)
program(3, 'no definition, counted 1', count=1)
program(3, 'no definition, counted 65,535', count=65535)
program(3, 'one definition, the count with its low byte first', definition(5, 0, 0, TRUE), count=256)
program(0, '256 definitions', *[definition(p, 0, 0, TRUE) for p in range(256)])
program(3, '256 definitions, counted 255', *[definition(p, 0, 0, TRUE) for p in range(256)], count=255)
program(3, 'no definition and a byte more', b'\x00', count=0)
program(3, 'a byte too many between two definitions', definition(5, 0, 0, TRUE) + b'\x00', definition(6, 0, 0, TRUE))
program(3, 'a byte too many after two definitions', definition(5, 0, 0, TRUE), definition(6, 0, 0, TRUE) + b'\x00')
whole = listed([definition(5, 1, 0, eq(V0, A)), definition(6, 0, 1, atom(5, V0))])
for n in range(1, 25):
    case('p', 3, f'the first {n} of the 25 bytes of two definitions', record(whole[:n]))
case('p', 0, 'those 25 bytes', record(whole), size=28)

heading('order of definitions')
for number, words, *keys in ((0, 'rising by predicate', (5, 0), (6, 0)),
                             (0, 'rising by arity', (5, 0), (5, 1)),
                             (0, 'rising by predicate, falling by arity', (5, 16), (6, 0)),
                             (0, 'arities 0 and 16', (5, 0), (5, 16)),
                             (0, 'predicates 255 and 256', (255, 0), (256, 0)),
                             (0, 'predicates 0 and 65,535', (0, 0), (65535, 0)),
                             (0, 'four that rise by either', (5, 1), (5, 3), (7, 0), (7, 2)),
                             (4, 'equal', (5, 1), (5, 1)),
                             (4, 'falling by predicate', (6, 0), (5, 0)),
                             (4, 'falling by arity', (5, 1), (5, 0)),
                             (4, 'falling by predicate, rising by arity', (6, 0), (5, 1)),
                             (4, 'predicates 256 and 255', (256, 0), (255, 0)),
                             (4, 'the last two of three equal', (4, 0), (5, 1), (5, 1)),
                             (4, 'the third between the first two', (1, 0), (3, 0), (2, 0)),
                             (4, 'the third equal to the first', (1, 0), (3, 0), (1, 0)),
                             (4, 'the first two fall, the third rises', (2, 0), (1, 0), (3, 0))):
    program(number, words, *[definition(p, n, 0, TRUE) for p, n in keys])
program(4, 'equal, with other locals and bodies', definition(5, 1, 0, TRUE), definition(5, 1, 3, eq(V0, V3)))

heading('variables of a definition')
body(0, 'arity 0, locals 0, no variable', 0, 0, P)
body(4, 'arity 0, locals 0, V0', 0, 0, atom(5, V0))
body(0, 'arity 1, V0', 1, 0, eq(V0, A))
body(4, 'arity 1, V1', 1, 0, eq(V1, A))
body(0, 'locals 1, V0', 0, 1, eq(V0, A))
body(4, 'locals 1, V1', 0, 1, eq(V1, A))
body(0, 'arity 2, locals 1, the last local V2', 2, 1, atom(6, V0, V1, V2))
body(4, 'arity 2, locals 1, V3', 2, 1, atom(6, V0, V1, V2, V3))
body(0, 'head variables and locals that do not occur', 2, 3, TRUE)
body(0, 'the last local alone', 2, 3, eq(var(4), A))
body(0, 'locals 255, V254', 0, 255, eq(var(254), A))
body(4, 'locals 255, V255', 0, 255, eq(var(255), A))
body(0, 'arity 16, locals 255, V270', 16, 255, eq(var(270), A))
body(4, 'arity 16, locals 255, V271', 16, 255, eq(var(271), A))
body(4, 'arity 16, locals 255, V65535', 16, 255, eq(var(65535), A))
body(4, 'arity 1, V256, whose low byte is 0', 1, 0, eq(var(256), A))
body(4, 'arity 1, V1 before V0', 1, 0, eq(V1, V0))
for words, goal in (('the right term of an equality', eq(A, V1)),
                    ('the first half of a conjunction', conj(eq(V1, A), TRUE)),
                    ('the second half of a conjunction', conj(TRUE, eq(A, V1))),
                    ('the first half of a disjunction', disj(atom(6, V1), TRUE)),
                    ('the second half of a disjunction', disj(TRUE, atom(6, V1))),
                    ('the last argument of an atom', atom(6, V0, A, V1)),
                    ('a term 50 symbols deep', eq(V0, chain(50, V1)))):
    body(4, 'arity 1, V1 in ' + words, 1, 0, goal)
program(4, 'V1 in the first of two definitions, over its limit', definition(5, 1, 0, eq(V1, A)), definition(6, 2, 0, eq(V1, A)))
program(4, 'V1 in the second of two definitions, over its limit', definition(5, 2, 0, eq(V1, A)), definition(6, 1, 0, eq(V1, A)))
program(0, 'each definition at its own limit', definition(5, 2, 0, eq(V1, A)), definition(6, 0, 1, eq(V0, A)))
