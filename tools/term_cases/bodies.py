"""The body of an atom: its definition, its arguments, the numbers of its locals, question 9."""
from term_cases.table import *


def f(*args):
    return sym(6, *args)


V4, V5, V6, V7 = var(4), var(5), var(6), var(7)
BENCH_P = definition(5, 1, 0, disj(eq(V0, A), eq(V0, B)))
BENCH_Q = definition(8, 1, 1, disj(conj(eq(V0, A), TRUE), conj(eq(V0, f(V1)), atom(8, V1))))

heading('definitions of the specification')
body('p(V) has body V = a; V = b', hexa('14 12 01 00 00 02 00 02 00 12 01 00 00 02 00 03 00'), [BENCH_P], atom(5, V0))
body('q(V0): (V0 = a, true); (V0 = f(V1), q(V1))',
     hexa('14 13 12 01 00 00 02 00 02 00 10 13 12 01 00 00 02 00 06 01 01 00 01 15 00 08 01 01 00 01'), [BENCH_Q], atom(8, V0))
body('q(V3): the local is V4', disj(conj(eq(V3, A), TRUE), conj(eq(V3, f(V4)), atom(8, V4))), [BENCH_Q], atom(8, V3))

heading('arguments as they stand')
body('a variable', disj(eq(V9, A), eq(V9, B)), [BENCH_P], atom(5, V9))
body('a term', disj(eq(f(V1, A), A), eq(f(V1, A), B)), [BENCH_P], atom(5, f(V1, A)))
body('a bound variable stays', disj(eq(V9, A), eq(V9, B)), [BENCH_P], atom(5, V9), bets=[unifier((9, A))])
body('an argument many times', conj(atom(6, V9, V9, f(V9, V9)), eq(V9, V9)), [definition(5, 1, 0, conj(atom(6, V0, V0, f(V0, V0)), eq(V0, V0)))], atom(5, V9))
body('an argument not at all', TRUE, [definition(5, 2, 0, TRUE)], atom(5, V9, f(V9)))
body('two exchanged', atom(5, B, A), [definition(5, 2, 0, atom(5, V1, V0))], atom(5, A, B))
body('all at once: V1 and V0', eq(V1, V0), [definition(5, 2, 0, eq(V0, V1))], atom(5, V1, V0))
body('all at once: f(V1) and f(V0)', eq(f(V1), f(V0)), [definition(5, 2, 0, eq(V0, V1))], atom(5, f(V1), f(V0)))
body('16 arguments, backward', atom(6, *[var(k) for k in range(115, 99, -1)]), [definition(5, 16, 0, atom(6, *[var(k) for k in range(15, -1, -1)]))],
     atom(5, *[var(k) for k in range(100, 116)]))
body('no arguments', FAIL, [definition(5, 0, 0, FAIL)], P)
body('true', TRUE, [definition(5, 0, 0, TRUE)], P)

heading('the first new variable')
LOCAL = [definition(5, 1, 1, eq(V0, V1))]
TWO = [definition(5, 1, 2, atom(6, V0, V1, V2, V1))]
ALONE = [definition(5, 0, 2, eq(V0, V1))]
body('no variable: 0', eq(A, V0), LOCAL, atom(5, A))
body('no variable and no argument: 0 and 1', eq(V0, V1), ALONE, P)
body('the goal has V0: 1', eq(V0, V1), LOCAL, atom(5, V0))
body('the goal has V3 within a term: 4 and 5', atom(6, f(A, V3), V4, V5, V4), TWO, atom(5, f(A, V3)))
body('the greatest of several in the goal', eq(f(V2, V7, V3), var(8)), LOCAL, atom(5, f(V2, V7, V3)))
body('an ancestor that is an atom', eq(V0, var(10)), LOCAL, atom(5, V0), [atom(5, A, V9)])
body('the first half of a conjunction above', eq(V0, var(10)), LOCAL, atom(5, V0), [in_conj(2, eq(V9, A), TRUE)])
body('the second half of a conjunction above', eq(V0, var(10)), LOCAL, atom(5, V0), [in_conj(1, TRUE, eq(V9, A))])
body('the first half of a disjunction above', eq(V0, var(10)), LOCAL, atom(5, V0), [in_disj(2, atom(6, V9), TRUE)])
body('the second half of a disjunction above', eq(V0, var(10)), LOCAL, atom(5, V0), [in_disj(1, TRUE, atom(6, f(V9)))])
body('the last of several ancestors', eq(A, var(301)), LOCAL, atom(5, A), [P, in_conj(1, eq(V3, V2), P), atom(6, V1), in_disj(2, TRUE, eq(A, var(300)))])
body('the goal is above the ancestors', eq(V9, var(10)), LOCAL, atom(5, V9), [in_conj(1, eq(V3, V2), P)])
body('ancestors alone', eq(V4, V5), ALONE, P, [atom(5, V3)])
body('the term of a pair', eq(V0, var(501)), LOCAL, atom(5, V0), bets=[unifier((7, var(500)))])
body('the goal of BY, below OR', eq(V0, var(601)), LOCAL, atom(5, V0), bets=[chosen(2), by(eq(var(600), A))])
body('bets alone', eq(A, var(10)), LOCAL, atom(5, A), bets=[unifier((7, V3)), by(atom(5, V9))])
body('the definition is not looked at', eq(A, V0), [definition(5, 1, 1, eq(V0, V1)), definition(6, 3, 9, atom(5, var(11)))], atom(5, A))
body('locals that do not occur: the last of three', eq(V0, V3), [definition(5, 1, 3, eq(V0, V3))], atom(5, V0))
for port in 2, 3, 4:
    body(f'any port: {port}', eq(V0, V1), LOCAL, atom(5, V0), port=port)

heading('question 9')
body('query variable 65,534 and one local', eq(var(65534), var(65535)), LOCAL, atom(5, var(65534)))
body('query variable 65,535 and one local', 9, LOCAL, atom(5, var(65535)))
body('65,535 in an ancestor', 9, LOCAL, atom(5, V0), [in_disj(1, TRUE, eq(A, var(65535)))])
body('65,534 in an ancestor', eq(V0, var(65535)), LOCAL, atom(5, V0), [in_disj(1, TRUE, eq(A, var(65534)))])
body('65,535 in bets', 9, LOCAL, atom(5, V0), bets=[unifier((65535, A)), by(eq(var(65535), A))])
body('65,535 and no local', disj(eq(var(65535), A), eq(var(65535), B)), [BENCH_P], atom(5, var(65535)))
body('65,533 and two locals', atom(6, var(65533), var(65534), var(65535), var(65534)), TWO, atom(5, var(65533)))
body('65,534 and two locals', 9, TWO, atom(5, var(65534)))
body('65,534 and two locals of which one occurs', 9, [definition(5, 1, 2, eq(V0, V1))], atom(5, var(65534)))
body('65,535 and a local that does not occur', 9, [definition(5, 1, 1, TRUE)], atom(5, var(65535)))
body('65,280 and 255 locals', eq(var(65281), var(65535)), [definition(5, 1, 255, eq(V1, var(255)))], atom(5, var(65280)))
body('65,281 and 255 locals', 9, [definition(5, 1, 255, eq(V1, var(255)))], atom(5, var(65281)))

heading('the definition')
MANY = [definition(5, 0, 0, TRUE), definition(5, 1, 0, eq(V0, A)), definition(5, 3, 0, FAIL), definition(7, 1, 0, eq(V0, B)), definition(300, 2, 0, eq(V0, V1))]
body('none at all', 'none', [], P)
body('the first', TRUE, MANY, P)
body('one of several arities', eq(V9, A), MANY, atom(5, V9))
body('the last of several arities', FAIL, MANY, atom(5, V0, V0, V0))
body('between two predicates', eq(A, B), MANY, atom(7, A))
body('the last', eq(A, V3), MANY, atom(300, A, V3))
body('another predicate', 'none', MANY, atom(6))
body('another arity', 'none', MANY, atom(5, A, B))
body('another arity of the last', 'none', MANY, atom(300, A))
body('another predicate with the low byte of the last', 'none', MANY, atom(44, A, A))
body('undefined with a variable of 65,535', 'none', MANY, atom(6, var(65535)))
facts = [definition(p, 0, 1, TRUE) for p in range(6000)]
body('the last of 6,000', TRUE, facts, atom(5999))
body('after the last of 6,000', 'none', facts, atom(6000))

heading('the output')
FOUR = [definition(5, 1, 0, atom(6, V0, V0, V0, V0))]
body('4 + 4 * 8,191 = 32,768 bytes', atom(6, *[chain(2047, V1)] * 4), FOUR, atom(5, chain(2047, V1)), size=32768)
THREE = [definition(5, 1, 0, conj(TRUE, atom(6, V0, V0, V0)))]
body('6 + 3 * 10,921 = 32,769 bytes', 'long', THREE, atom(5, chain(2727, sym(7, V1, V2, V3))))
body('16 * 16 times 8,000 bytes', 'long', [definition(5, 1, 0, atom(6, *[f(*[V0] * 16)] * 16))], atom(5, chain(1999, A)))
body('9 before the output', 9, [definition(5, 1, 1, atom(6, V0, V0, V0, V0, V0))], atom(5, chain(2047, var(65535))))
body('8,189 terms within each other', atom(6, chain(8188, A)), [definition(5, 1, 0, atom(6, V0))], atom(5, chain(8188, A)), size=32760)
body('10,020 terms in lists within each other', atom(6, row([V0] * 10020)), [definition(5, 1, 0, atom(6, V0))], atom(5, row([V0] * 10020)), size=32736)
body('8,171 terms within each other and a local', conj(atom(6, chain(8170, V0)), eq(V1, A)), [definition(5, 1, 1, conj(atom(6, V0), eq(V1, A)))], atom(5, chain(8170, V0)))
LAST = [definition(5, 16, 0, atom(6, row([var(15)] * 10020)))]
BEFORE = [row([V0] * 660)] * 15
body('the last of 16 arguments 10,020 times, after 32,340 bytes of others', atom(6, row([V9] * 10020)), LAST, atom(5, *BEFORE, V9), size=32736)
body('the last of 16 arguments 10,020 times, a byte longer than a variable', 'long', LAST, atom(5, *BEFORE, A))

heading('other goals')
for words, goal in ('true', TRUE), ('fail', FAIL), ('an equality', eq(V0, A)), ('a conjunction', conj(P, P)), ('a disjunction', disj(P, P)):
    case('b', 'other', words, record(listed([BENCH_P])), record(event(1, goal)))

heading('refused records')
GOOD, CALL = listed([BENCH_P]), event(1, atom(5, V0))
BAD_PROGRAMS = ((1, 'no bytes', b''), (1, 'a length one too small', record(GOOD, length=len(GOOD))), (2, 'version 2', record(GOOD, version=2)),
                (3, 'arity 17', record(listed([definition(5, 17, 0, TRUE)]))), (3, 'an event', record(CALL)),
                (4, 'a variable too many', record(listed([definition(5, 1, 0, eq(V1, A))]))),
                (4, 'definitions that fall', record(listed([definition(6, 0, 0, TRUE), definition(5, 0, 0, TRUE)]))))
BAD_EVENTS = ((11, 'one byte', b'\x00'), (11, '32,769 bytes', record(event(1, TRUE, (), [chosen(1)] * 16377 + [unifier()] * 2))), (12, 'version 0', record(CALL, version=0)),
              (13, 'arity 17', record(event(1, atom(5, *[V0] * 17)))), (13, 'a program', record(GOOD)), (14, 'V0 to f(V0)', record(event(1, atom(5, V0), (), [unifier((0, f(V0)))]))))
for number, words, data in BAD_PROGRAMS:
    case('b', str(number), 'program with ' + words, data, record(CALL))
for number, words, data in BAD_EVENTS:
    case('b', str(number), 'event with ' + words, record(GOOD), data)
for (number, words, data), (_, other_words, other) in zip(BAD_PROGRAMS, BAD_EVENTS):
    case('b', str(number), f'program with {words}, event with {other_words}', data, other)
case('b', '4', 'program with a variable too many, event that is no atom', BAD_PROGRAMS[5][2], record(event(1, TRUE)))
