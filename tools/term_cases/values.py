"""The value service: S(v) under the bets of an event, questions 5 and 8."""
from term_cases.table import *


def f(*args):
    return sym(6, *args)


def g(*args):
    return sym(7, *args)


heading('a variable that nothing binds')
value('no bets', hexa('01 00 00'), 0, [])
value('no bets, 65,535', hexa('01 FF FF'), 65535, [])
value('a unifier of no pairs', hexa('01 00 00'), 0, [unifier()])
value('a unifier of another variable', hexa('01 00 01'), 1, [unifier((0, A))])
value('its low byte alone is bound', hexa('01 01 00'), 256, [unifier((0, A))])
value('its high byte alone is bound', hexa('01 00 01'), 1, [unifier((256, A))])
value('OR and BY, whose goal names it', hexa('01 00 00'), 0, [chosen(1), by(eq(V0, A)), chosen(2)])
value('it occurs in a unifier, unbound', hexa('01 00 09'), 9, [unifier((0, f(V9)))])

heading('a variable that a unifier binds')
value('V0 to a', hexa('02 00 02 00'), 0, [unifier((0, A))])
value('65,535 to a', hexa('02 00 02 00'), 65535, [unifier((65535, A))])
value('the first of three pairs', A, 1, [unifier((1, A), (3, B), (9, g(V0)))])
value('the second of three pairs', B, 3, [unifier((1, A), (3, B), (9, g(V0)))])
value('the last of three pairs', g(V0), 9, [unifier((1, A), (3, B), (9, g(V0)))])
value('between two pairs', V2, 2, [unifier((1, A), (3, B))])
value('below OR and BY', A, 0, [chosen(1), by(TRUE), unifier((0, A)), chosen(2)])
value('to a variable', V3, 9, [unifier((9, V3))])

heading('bottom first, top last')
# The last bet of the list is the bottom one.
value('V0 to f(V1) below, V1 to a above', f(A), 0, [unifier((1, A)), unifier((0, f(V1)))])
value('V1 to a below, V0 to f(V1) above', f(V1), 0, [unifier((0, f(V1))), unifier((1, A))])
value('with OR and BY between', f(A), 0, [chosen(1), unifier((1, A)), by(P), chosen(2), unifier((0, f(V1))), by(TRUE)])
value('three unifiers', f(g(A, A)), 0, [unifier((2, A)), unifier((1, g(V2, V2))), unifier((0, f(V1)))])
value('V0 to a below, V0 to b above', A, 0, [unifier((0, B)), unifier((0, A))])
value('V0 to V1 below, V1 to V0 above', V0, 0, [unifier((1, V0)), unifier((0, V1))])
value('the same, of V1', V0, 1, [unifier((1, V0)), unifier((0, V1))])
value('V1 to V0 below, V0 to V1 above, of V1', V1, 1, [unifier((0, V1)), unifier((1, V0))])
value('once: V0 to f(V1), then V1 to f(V0)', f(f(V0)), 0, [unifier((1, f(V0))), unifier((0, f(V1)))])
value('V0 to f(V1), then V0 to b and V1 to f(V2)', f(f(V2)), 0, [unifier((0, B), (1, f(V2))), unifier((0, f(V1)))])
value('V0 to f(V0) in two steps', f(V0), 0, [unifier((1, f(V0))), unifier((0, V1))])
value('at once: V0 to g(V1, V2), then V1 and V2 to each other by way of V3', g(V3, V3), 0, [unifier((1, V3), (2, V3)), unifier((0, g(V1, V2)))])
value('at once: V1 to f(V3) and V2 to f(V3), then V3 to g(V1, V2)', g(f(g(V1, V2)), f(g(V1, V2))), 0,
      [unifier((3, g(V1, V2))), unifier((1, f(V3)), (2, f(V3))), unifier((0, g(V1, V2)))])

heading('4,000 bets')
up = [unifier((k, var(k + 1))) for k in range(4000)]
value('V0 to V1 at the bottom, .., V3999 to V4000 at the top', var(4000), 0, up[::-1])
value('the same, of V2000', var(4000), 2000, up[::-1])
value('the same, of V4000', var(4000), 4000, up[::-1])
value('V3999 to V4000 at the bottom, .., V0 to V1 at the top', V1, 0, up)
value('the same, of V3999', var(4000), 3999, up)
value('V0 to V1 and V1 to V0, 2,000 times each', V0, 0, [unifier((1, V0)), unifier((0, V1))] * 2000)
value('V0 to a, V1 to V0, then 3,998 others', A, 1, [chosen(1), by(TRUE), unifier()] * 1332 + [chosen(2)] * 2 + [unifier((0, A)), unifier((1, V0))])

heading('V0 to f(V1) and V1 to f(V0) in turn')
value('2,046 bets: 8,187 bytes', chain(2046, V0), 0, [unifier((1, f(V0))), unifier((0, f(V1)))] * 1023, size=8187)
value('2,048 bets: 8,195 bytes', 8, 0, [unifier((1, f(V0))), unifier((0, f(V1)))] * 1024)
value('2,000 bets that begin with V1 to f(V0)', chain(1999, V1), 0, [unifier((0, f(V1))), unifier((1, f(V0)))] * 1000)

heading('question 8')
# n symbols of arity 1 have 4n bytes, a constant 4, a symbol of three variables 13.
value('8,192 bytes in one pair', chain(2047, A), 0, [unifier((0, chain(2047, A)))], size=8192)
value('8,193 bytes in one pair', 8, 0, [unifier((0, chain(2045, g(V1, V2, V3))))])
halves = [unifier((0, f(V1, V2)))]
value('8,192 bytes by two unifiers', f(chain(1000, A), chain(1045, A)), 0, [unifier((1, chain(1000, A)), (2, chain(1045, A)))] + halves,
      size=8192)
value('8,193 bytes by two unifiers', 8, 0, [unifier((1, chain(1000, A)), (2, chain(1043, g(V9, V9, V9))))] + halves)
# V0 to g(V1, V1), V1 to g(V2, V2), ..: 3, 10, 24, .., 7,164, 14,332 bytes
doubled = [unifier((k, g(var(k + 1), var(k + 1)))) for k in range(65)]


def tree(n, leaf):
    return leaf if n == 0 else g(tree(n - 1, leaf), tree(n - 1, leaf))


value('10 doublings', tree(10, var(10)), 0, doubled[:10][::-1], size=7164)
value('11 doublings', 8, 0, doubled[:11][::-1])
value('64 doublings', 8, 0, doubled[:64][::-1])
value('64 doublings in the other order', g(V1, V1), 0, doubled[:64])
value('11 doublings, then an unbound variable', 8, 0, [unifier((500, A))] + doubled[:11][::-1])

heading('question 5')
value('32,767 bytes', 5, 0, [unifier((0, A))], room=32767)
value('32,768 bytes', A, 0, [unifier((0, A))], room=32768)
value('65,535 bytes', A, 0, [unifier((0, A))], room=65535)
value('no output', 5, 0, [], room=0)
value('5 before 8', 5, 0, doubled[:11][::-1], room=32767)

heading('refused events')
GOOD = event(1, TRUE)
for number, words, data in ((11, 'no bytes', b''), (11, 'a length one too large', record(GOOD, length=len(GOOD) + 2)), (12, 'version 2', record(GOOD, version=2)),
                            (13, 'port 5', record(event(5, TRUE))), (13, 'a query', record(TRUE)), (14, 'V0 to V0', record(event(2, TRUE, (), [unifier((0, V0))]))),
                            (14, 'pairs that fall', record(event(2, TRUE, (), [unifier((1, A), (0, A))])))):
    case('v', str(number), words, data, word(0) + word(32768))
    case('v', str(number), words + ', no output', data, word(0) + word(0))
case('v', '11', '40,000 bytes', bytes(40000), word(0) + word(32768))
