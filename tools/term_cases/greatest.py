"""The greatest variable of an event: of bets, goal and ancestors the first that holds it (SPECIFICATION 4, 8.11)."""
from term_cases.bodies import f
from term_cases.table import *

NONE, BETS, GOAL, ANCESTORS = range(4)
V4, V5, V8 = var(4), var(5), var(8)
LAST = var(65535)

heading('greatest variable: none at all')
greatest('empty stacks, true', NONE, 0)
greatest('no variable anywhere', NONE, 0, eq(A, f(B)), [P, in_conj(1, TRUE, FAIL)], [chosen(1), unifier(), by(P)])
greatest('symbols and predicates are no variables', NONE, 0, atom(300, sym(400)), [atom(500)], [by(atom(600, sym(700)))])

heading('greatest variable: one part alone')
for v in 0, 9, 255, 256, 65535:
    greatest(f'V{v} in the goal', GOAL, v, atom(6, var(v)))
    greatest(f'V{v} in an ancestor', ANCESTORS, v, ancestors=[atom(6, var(v))])
    greatest(f'V{v} bound by a bet', BETS, v, bets=[unifier((v, A))])
    greatest(f'V{v} in BY', BETS, v, bets=[by(atom(6, var(v)))])
greatest('in a pair\'s term', BETS, 9, bets=[unifier((3, f(V9)))])
greatest('in the second half of a goal', GOAL, 9, conj(TRUE, disj(FAIL, eq(A, V9))))
greatest('in an ancestor\'s other half', ANCESTORS, 9, ancestors=[in_conj(1, TRUE, eq(V9, A))])
greatest('in the lowest of three ancestors', ANCESTORS, 9, ancestors=[P, in_disj(2, TRUE, eq(A, V4)), atom(6, V9)])

heading('greatest variable: one part holds more than the others')
greatest('bets', BETS, 9, atom(6, V8), [atom(6, V5)], [unifier((9, A))])
greatest('goal', GOAL, 9, atom(6, V9), [atom(6, V5)], [unifier((8, A))])
greatest('ancestors', ANCESTORS, 9, atom(6, V5), [atom(6, V9)], [unifier((8, A))])
greatest('goal, bets hold none', GOAL, 9, atom(6, V9), [atom(6, V5)], [chosen(1)])
greatest('ancestors, bets hold less and the goal none', ANCESTORS, 9, P, [atom(6, V9)], [by(eq(V0, A))])
greatest('ancestors, bets and goal hold 0', ANCESTORS, 1, atom(6, V0), [atom(6, V1)], [unifier((0, A))])

heading('greatest variable: equal ones')
greatest('bets and goal', BETS, 9, atom(6, V9), [P], [unifier((9, A))])
greatest('bets and ancestors', BETS, 9, P, [atom(6, V9)], [by(eq(A, V9))])
greatest('goal and ancestors', GOAL, 9, atom(6, V9), [atom(6, V9)], [unifier((8, A))])
greatest('all three', BETS, 9, atom(6, V9), [atom(6, V9)], [unifier((3, V9))])
greatest('all three, 0', BETS, 0, atom(6, V0), [atom(6, V0)], [unifier((0, A))])
greatest('all three, 65,535', BETS, 65535, atom(6, LAST), [atom(6, LAST)], [by(eq(LAST, A))])

heading('greatest variable: one of several bets')
OTHERS = [by(eq(V3, A)), unifier((8, V3)), chosen(1), unifier()]
greatest('the top one', BETS, 9, bets=[unifier((9, A)), *OTHERS])
greatest('one in the middle', BETS, 9, bets=[*OTHERS, by(atom(6, V9)), *OTHERS])
greatest('the lowest one', BETS, 9, bets=[*OTHERS, unifier((0, f(V9)))])
greatest('the last of three pairs', BETS, 9, bets=[unifier((1, A), (2, V3), (9, V4)), *OTHERS])
greatest('below 200 bets', BETS, 9, atom(6, V8), [atom(6, V8)], [*OTHERS * 50, unifier((9, A))])
greatest('16,000 OR, then one', BETS, 9, bets=[chosen(2)] * 16000 + [unifier((9, A))])
heading('greatest variable: each port')
for port in 2, 3, 4:
    greatest(f'port {port}', BETS, 9, atom(6, V8), [atom(6, V5)], [unifier((9, A))], port)

heading('greatest variable: refused events')
case('g', '11', 'an empty slice', b'')
case('g', '11', 'one byte too many', record(event(1, TRUE, (), ())) + b'\0')
case('g', '12', 'version 2', b'\0\7\2' + event(1, TRUE, (), ()))
case('g', '13', 'port 5', record(event(5, TRUE, (), ())))
case('g', '14', 'pairs that fall', record(event(1, atom(6, V9), (), [unifier((2, A), (1, A))])))

heading('greatest variable: the record of the bench sheet')
case('g', '0 1 9', 'call p(V4) with the bet {V9/a}', hexa('00 16 01 01 15 00 07 01 01 00 04 00 00 00 01 20 00 01 00 09 02 00 01 00'))
