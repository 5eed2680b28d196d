"""Question 10: results of 32,768 and of 32,769 bytes, and the questions that come before it."""
from step_cases.table import *


def filling(n):
    """bets of n bytes in all, n over 1: OR has 2, the empty unifier 3"""
    return [chosen(2)] * (n // 2) if n % 2 == 0 else [unifier()] + [chosen(2)] * ((n - 3) // 2)


def filled(total, port, goal, ancestors=(), on_top=()):
    """an event of that many bytes, filled up below the bets on top"""
    bare = at(port, goal, ancestors, on_top)
    return at(port, goal, ancestors, [*on_top, *filling(total - len(bare))], size=total)


def last_fit(service, words, program_record, grows, *parts):
    """a step that makes the event longer by that many bytes: to 32,768, and to one more"""
    service(words + ', to 32,768 bytes', program_record, filled(32768 - grows, *parts), want=0)
    service(words + ', to 32,769 bytes', program_record, filled(32769 - grows, *parts), want=(10, None))


BODY = conj(TRUE, conj(FAIL, TRUE))
DEFINED = program(definition(5, 0, 0, BODY), definition(6, 1, 1, TRUE))

heading('question 10 of the first event')
query('query of 32,763 bytes, event of 32,768', record(rightward(0x13, 16378, P)), want=0)
query('query of 32,764 bytes, event of 32,769', record(rightward(0x13, 16380, TRUE)), want=(10, None))
query('query of 32,768 bytes and output 32,767: 5 before 10', record(leftward(0x14, 16382, TRUE)), 32767, want=(5, None))

heading('question 10 forward')
last_fit(forward, 'rule 1, 1/A,B on U', NO_DEFINITIONS, 2, CALL, conj(TRUE, FAIL))
last_fit(forward, 'rule 2, the second half longer than the first', NO_DEFINITIONS, 3, EXIT, TRUE, [in_conj(1, TRUE, P)])
last_fit(forward, 'rule 12, a half longer than its bet', NO_DEFINITIONS, 3, REDO, disj(TRUE, P), [], [chosen(2)])
last_fit(forward, 'rule 16, a unifier of one pair', NO_DEFINITIONS, 9, CALL, eq(V0, A), [P])
last_fit(forward, 'rule 18, the body', DEFINED, len(BODY), CALL, P)
last_fit(forward, 'rule 19, BY on S', DEFINED, 1, EXIT, TRUE, [P])
forward('an event of 32,768 bytes and no unifier: the question is not put', NO_DEFINITIONS, filled(32768, CALL, eq(A, B)),
        want=(0, filled(32768, FAILS, eq(A, B))))
forward('7 before 10: rule 2 would make it longer, but exit is of another goal', NO_DEFINITIONS, filled(32768, EXIT, FAIL, [in_conj(1, TRUE, P)]),
        want=(7, None))
forward('8 before 10', NO_DEFINITIONS, filled(32768, CALL, eq(V0, chain(2045, sym(9, V1, V1, V1)))), want=(8, None))
forward('9 before 10', DEFINED, filled(32768, CALL, atom(6, var(65535))), want=(9, None))

heading('question 10 back')
last_fit(back, 'rule 3, from fail A,B to fail A', NO_DEFINITIONS, 2, FAILS, conj(TRUE, FAIL))
last_fit(back, 'rule 5, the second half longer than the first', NO_DEFINITIONS, 3, REDO, TRUE, [in_conj(1, TRUE, P)])
last_fit(back, 'rule 11, the half and its ancestor', NO_DEFINITIONS, 3, EXIT, disj(TRUE, P), [], [chosen(2)])
last_fit(back, 'rule 17, from fail T1=T2 to redo with the unifier', NO_DEFINITIONS, 9, FAILS, eq(V0, A), [P])
last_fit(back, 'rule 20, from fail P to fail of the body', DEFINED, len(BODY), FAILS, P)
last_fit(back, 'rule 21, BY on S', DEFINED, 1, REDO, TRUE, [P])
back('an event of 32,768 bytes, fail of no unifier', NO_DEFINITIONS, filled(32768, FAILS, eq(A, B)), want=(0, filled(32768, CALL, eq(A, B))))
back('7 before 10: rule 2 would make it longer, but call is of another goal', NO_DEFINITIONS, filled(32768, CALL, TRUE, [in_conj(2, P, FAIL)]),
     want=(7, None))
back('8 before 10', NO_DEFINITIONS, filled(32768, FAILS, eq(V0, chain(2045, sym(9, V1, V1, V1)))), want=(8, None))
back('9 before 10', DEFINED, filled(32768, FAILS, atom(6, var(65535))), want=(9, None))
back('call under P; P\'s own body would not fit: the last 7', DEFINED, filled(32768, CALL, TRUE, [P]), want=(7, None))
back('exit of an equality whose unifier would not fit: the last 7', NO_DEFINITIONS, filled(32768, EXIT, eq(V0, A), [], [unifier()]), want=(7, None))
