"""Equalities: S(T1) and S(T2), question 8, and their unifier."""
from term_cases.table import *


def f(*args):
    return sym(6, *args)


def g(*args):
    return sym(7, *args)


V4, V5, V7, V8 = var(4), var(5), var(7), var(8)

heading('bench sheet')
equality('V0 = f(V0) fails', 'none', V0, f(V0))
equality('V3 = V7 binds 7 to 3', [(7, V3)], V3, V7)
equality('f(V0, V0) = f(V1, a) binds 0 and 1 to a', [(0, A), (1, A)], f(V0, V0), f(V1, A))
equality('V0 = a', [(0, A)], V0, A)

heading('two terms')
equality('V0 = V0', [], V0, V0)
equality('a = a', [], A, A)
equality('a = b', 'none', A, B)
equality('a = V0', [(0, A)], A, V0)
equality('V7 = V3', [(7, V3)], V7, V3)
equality('V65535 = V0', [(65535, V0)], var(65535), V0)
equality('V255 = V256', [(256, var(255))], var(255), var(256))
equality('V0 = f(V1)', [(0, f(V1))], V0, f(V1))
equality('f(V1) = V0', [(0, f(V1))], f(V1), V0)
equality('V9 = f(V1)', [(9, f(V1))], V9, f(V1))
equality('f(a) = g(a)', 'none', f(A), g(A))
equality('one symbol with one and with two arguments', 'none', f(A), f(A, A))
equality('a constant and the same symbol with an argument', 'none', sym(6), f(A))
equality('f(V0, V0) = f(a, b)', 'none', f(V0, V0), f(A, B))
equality('f(V0, b) = f(a, V1)', [(0, A), (1, B)], f(V0, B), f(A, V1))
equality('f(V0, V1) = f(V1, V0)', [(1, V0)], f(V0, V1), f(V1, V0))
equality('f(V1, V0) = f(V0, V1)', [(1, V0)], f(V1, V0), f(V0, V1))
equality('16 arguments', [(k, A) for k in range(16)], f(*[var(k) for k in range(16)]), f(*[A] * 16))
equality('the clash in the last of 16', 'none', f(*[V0] * 15, A), f(*[V0] * 15, B))
equality('a symbol on both sides, deep: f(f(f(V0))) = f(f(f(a)))', [(0, A)], f(f(f(V0))), f(f(f(A))))

heading('the lowest number stays')
equality('f(V5, V3) = f(V3, V9)', [(5, V3), (9, V3)], f(V5, V3), f(V3, V9))
equality('f(V9, V9) = f(V5, V7)', [(7, V5), (9, V5)], f(V9, V9), f(V5, V7))
equality('f(V1, V3, V1) = f(V2, V4, V3)', [(2, V1), (3, V1), (4, V1)], f(V1, V3, V1), f(V2, V4, V3))
equality('bound after all: f(V5, V3, V9) = f(V3, V9, a)', [(3, A), (5, A), (9, A)], f(V5, V3, V9), f(V3, V9, A))
equality('bound first: f(a, V5, V3) = f(V9, V9, V5)', [(3, A), (5, A), (9, A)], f(A, V5, V3), f(V9, V9, V5))
equality('within a term: f(V9, g(V9)) = f(V3, V5)', [(5, g(V3)), (9, V3)], f(V9, g(V9)), f(V3, V5))
equality('two classes: g(V1, V2, V3, V4) = g(V3, V4, V5, V7)', [(3, V1), (4, V2), (5, V1), (7, V2)], g(V1, V2, V3, V4), g(V3, V4, V5, V7))
equality('by way of two symbols: f(V8, f(V7)) = f(f(V5), V8)', [(7, V5), (8, f(V5))], f(V8, f(V7)), f(f(V5), V8))

heading('a variable within itself')
equality('f(V0) = V0', 'none', f(V0), V0)
equality('f(V0, V1) = f(g(V1), g(V0))', 'none', f(V0, V1), f(g(V1), g(V0)))
equality('f(V0, V1) = f(V1, g(V0))', 'none', f(V0, V1), f(V1, g(V0)))
equality('f(V0, V1, V2) = f(g(V1), g(V2), g(V0))', 'none', f(V0, V1, V2), f(g(V1), g(V2), g(V0)))
equality('f(V0, V1, V2) = f(g(V1), g(V2), g(V3))', [(0, g(g(g(V3)))), (1, g(g(V3))), (2, g(V3))], f(V0, V1, V2), f(g(V1), g(V2), g(V3)))
equality('f(V0, V0) = f(g(V1), g(g(V1)))', 'none', f(V0, V0), f(g(V1), g(g(V1))))
equality('V0 = 2,000 symbols down to V0', 'none', V0, chain(2000, V0))
equality('V0 = 2,000 symbols down to V1', [(0, chain(2000, V1))], V0, chain(2000, V1))
equality('2,000 symbols down to V0 = 2,001 down to V0', 'none', chain(2000, V0), chain(2001, V0))
equality('2,000 symbols down to V0 = 2,001 down to V1', [(0, f(V1))], chain(2000, V0), chain(2001, V1))

heading('under bets')
equality('V0 to a: V0 = V1', [(1, A)], V0, V1, [unifier((0, A))])
equality('V0 to a: V0 = a', [], V0, A, [unifier((0, A))])
equality('V0 to a: V0 = b', 'none', V0, B, [unifier((0, A))])
equality('V0 to a and V1 to b: V0 = V1', 'none', V0, V1, [unifier((0, A), (1, B))])
equality('V7 to V3: V7 = V5 binds 5 to 3', [(5, V3)], V7, V5, [unifier((7, V3))])
equality('V0 to f(V1) below, V1 to a above: V0 = f(V2)', [(2, A)], V0, f(V2), [unifier((1, A)), unifier((0, f(V1)))])
equality('V1 to a below, V0 to f(V1) above: V0 = f(V2)', [(2, V1)], V0, f(V2), [unifier((0, f(V1))), unifier((1, A))])
equality('V0 to a below, V0 to b above: V0 = b', 'none', V0, B, [unifier((0, B)), unifier((0, A))])
equality('V0 to V1 below, V1 to V0 above: V0 = f(V0)', 'none', V0, f(V0), [unifier((1, V0)), unifier((0, V1))])
equality('V0 to f(V0) in two steps: V0 = f(a)', [(0, A)], V0, f(A), [unifier((1, f(V0))), unifier((0, V1))])
equality('OR and BY between', [(2, A)], V0, f(V2), [chosen(2), unifier((1, A)), by(eq(V2, B)), unifier(), unifier((0, f(V1))), chosen(1)])
equality('a bound variable is bound again', [(0, B)], V0, B, [unifier((1, A)), unifier((2, V0))])
up = [unifier((k, var(k + 1))) for k in range(4000)]
equality('4,000 bets up from V0: V0 = a', [(4000, A)], V0, A, up[::-1])
equality('4,000 bets up from V0: V0 = V2000', [], V0, var(2000), up[::-1])
equality('4,000 bets down to V0: V0 = V2000', [(2001, V1)], V0, var(2000), up)
for port in 2, 3, 4:
    equality(f'any port: {port}', [(7, V3)], V3, V7, port=port)

heading('other goals')
for words, goal in ('true', TRUE), ('fail', FAIL), ('a conjunction', conj(eq(V0, A), TRUE)), ('a disjunction', disj(eq(V0, A), TRUE)), ('an atom', atom(5, V0, A)):
    case('u', 'other', words, record(event(1, goal)))

heading('refused events')
GOOD = event(1, eq(V0, A))
for number, words, data in ((11, 'two bytes', hexa('00 00')), (11, 'a byte after the record', record(GOOD) + b'\x00'), (12, 'version 0', record(GOOD, version=0)),
                            (13, 'the second term missing', record(event(1, eq(V0, b'')))), (13, 'an arity of 17', record(event(1, eq(V0, f(*[A] * 17))))),
                            (14, 'a unifier with its own variable', record(event(1, eq(V0, A), (), [unifier((0, f(V0)))]))),
                            (14, 'pairs of one variable', record(event(1, eq(V0, A), (), [unifier((0, A), (0, A))])))):
    case('u', str(number), words, data)
