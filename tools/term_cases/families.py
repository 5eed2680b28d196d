"""Equalities of great terms: lists, chains, doublings, and the boundaries of question 8 and of the output."""
from term_cases.table import *


def f(*args):
    return sym(6, *args)


def g(*args):
    return sym(7, *args)


def pair_list(terms):
    """a list of terms: one and the rest of the list in each symbol"""
    return b''.join(sym(6, arity=2) + t for t in terms) + A


def X(k):
    return var(k)


heading('chains')
n = 1000
lower, upper = [X(k) for k in range(1, n + 1)], [X(k + 1) for k in range(1, n + 1)]
all_to_first = [(k, X(1)) for k in range(2, n + 2)]
equality('X1 = X2, X2 = X3, .., X1000 = X1001', all_to_first, pair_list(lower), pair_list(upper))
equality('X2 = X1, X3 = X2, .., X1001 = X1000', all_to_first, pair_list(upper), pair_list(lower))
equality('X1000 = X1001, .., X1 = X2', all_to_first, pair_list(lower[::-1]), pair_list(upper[::-1]))
equality('and X1001 = a', [(k, A) for k in range(1, n + 2)], pair_list(lower + [X(n + 1)]), pair_list(upper + [A]))
equality('and X1 = a, X1001 = b', 'none', pair_list(lower + [X(1), X(n + 1)]), pair_list(upper + [A, B]))
equality('and X1 = f(X1001)', 'none', pair_list(lower + [X(1)]), pair_list(upper + [f(X(n + 1))]))
equality('X1 = X2, X3 = X4, .., and then X2 = X3, X4 = X5, ..', all_to_first, row([X(k) for k in range(1, n, 2)] + [X(k) for k in range(2, n + 1, 2)]),
         row([X(k + 1) for k in range(1, n, 2)] + [X(k + 1) for k in range(2, n + 1, 2)]))
equality('X0 to X2000 all alone', [], row([X(k) for k in range(2001)]), row([X(k) for k in range(2001)]))

heading('doublings: X1 = g(X0, X0), X2 = g(X1, X1), ..')
# written out: X1 to g(X0,X0), X2 to g(g(X0,X0),g(X0,X0)), and so on
G1 = hexa('02 00 07 02 01 00 00 01 00 00')
G2 = hexa('02 00 07 02') + G1 + G1
G3 = hexa('02 00 07 02') + G2 + G2
G4 = hexa('02 00 07 02') + G3 + G3
equality('n = 4', [(1, G1), (2, G2), (3, G3), (4, G4)], f(X(1), X(2), X(3), X(4)), f(g(X(0), X(0)), g(X(1), X(1)), g(X(2), X(2)), g(X(3), X(3))), size=204)
equality('n = 4, the last first', [(1, G1), (2, G2), (3, G3), (4, G4)], f(X(4), X(3), X(2), X(1)), f(g(X(3), X(3)), g(X(2), X(2)), g(X(1), X(1)), g(X(0), X(0))))
# The pair of X(k) has 2 + 7 * 2^k - 4 bytes: in all 14 * 2^n - 14 - 2n + 2. For n = 11 that is 28,638 and for n = 12 it is 57,308.


def doublings(n):
    return [X(k) for k in range(1, n + 1)], [g(X(k - 1), X(k - 1)) for k in range(1, n + 1)]


def full(n):
    return X(0) if n == 0 else g(full(n - 1), full(n - 1))


left, right = doublings(11)
equality('n = 11, 28,638 bytes', [(k, full(k)) for k in range(1, 12)], f(*left), f(*right), size=28638)
left, right = doublings(12)
equality('n = 12', 'long', f(*left), f(*right))
# 797 is the most that a value of 8,192 bytes holds: 7,970 bytes of doublings and 54 symbols around them.
left, right = doublings(797)
equality('n = 797', 'long', row(left), row(right))
equality('n = 797, the last first', 'long', row(left[::-1]), row(right[::-1]))
equality('n = 797, the sides exchanged', 'long', row(right), row(left))


def halved(n):
    """every other doubling with its sides exchanged, so that neither value is too long"""
    left, right = doublings(n)
    return [(r if k % 2 else l) for k, (l, r) in enumerate(zip(left, right))], [(l if k % 2 else r) for k, (l, r) in enumerate(zip(left, right))]


left, right = halved(800)
equality('n = 800, every other one exchanged', 'long', row(left), row(right))
equality('the same, the last first', 'long', row(left[::-1]), row(right[::-1]))
equality('n = 800, and a = b at the end', 'none', row(left + [A]), row(right + [B]))
equality('n = 800, and X0 = a at the end', 'long', row(left + [X(0)]), row(right + [A]))
equality('n = 800, and X0 = g(X800, X800) at the end', 'none', row(left + [X(0)]), row(right + [g(X(800), X(800))]))
left, right = doublings(390)
more, most = [var(1000 + k) for k in range(1, 391)], [g(var(999 + k), var(999 + k)) for k in range(1, 391)]
equality('X and Y, 390 each, and X390 = Y390', 'long', row(left + more + [X(390)]), row(right + most + [var(1390)]))

heading('the deepest unifier')
# Every argument on the way down is a level of the writer. All but a few of the terms of both values lie on one way.
head, tail = row([V9] * 2480 + [V1]), row([V9] * 2480)
equality('V0 = a list of 2,480 with V1 at its end, V1 = another', [(0, row([V9] * 2480 + [tail])), (1, tail)], f(V0, tail), f(head, V1))

heading('question 8')
whole, over = chain(2047, A), chain(2045, g(V1, V2, V3))
equality('8,192 bytes on the right', [(0, whole)], V0, whole, size=8196)
equality('8,192 bytes on the left', [(0, whole)], whole, V0)
equality('8,192 bytes on both sides', [], whole, whole)
equality('8,192 bytes on both sides, with a clash at the end', 'none', whole, chain(2047, B))
equality('8,193 bytes on the right', 8, V0, over)
equality('8,193 bytes on the left', 8, over, V0)
equality('8,193 bytes and a clash', 8, A, over)
equality('8,193 bytes and a clash, the other way', 8, over, A)
equality('8,193 bytes on both sides', 8, over, over)
halves = unifier((0, f(V1, V2)))
equality('8,192 bytes by bets', [(3, f(chain(1000, A), chain(1045, A)))], V0, V3, [unifier((1, chain(1000, A)), (2, chain(1045, A))), halves])
equality('8,193 bytes by bets', 8, V0, V3, [unifier((1, chain(1000, A)), (2, chain(1043, g(V9, V9, V9)))), halves])
equality('8,193 bytes by bets on the right', 8, A, V0, [unifier((1, chain(1000, A)), (2, chain(1043, g(V9, V9, V9)))), halves])
equality('a term of 8,193 bytes that no bet changes, in another event', 8, over, A, [unifier((9, A))])

heading('the output')


def copies(*groups):
    """V1 = V2, V2 = V3, .., and the last one of each group equal to its term; a group is how many variables, and the term"""
    left, right, bindings, first = [], [], [], 1
    for many, t in groups:
        names = [var(k) for k in range(first, first + many)]
        left += names
        right += names[1:] + [t]
        bindings += [(k, t) for k in range(first, first + many)]
        first += many
    return bindings, row(left), row(right)


bindings, left, right = copies((6, chain(1364, var(0))))
equality('2 + 6 * (2 + 5,459) = 32,768 bytes', bindings, left, right, size=32768)
bindings, left, right = copies((7, chain(1169, var(0))))
equality('2 + 7 * (2 + 4,679) = 32,769 bytes', bindings, left, right, size=32769)
bindings, left, right = copies((7, chain(747, g(V0, V0, V0))), (8, chain(590, g(V0, V0))))
equality('2 + 7 * (2 + 3,001) + 8 * (2 + 2,370) = 39,999 bytes', bindings, left, right, size=39999)
bindings, left, right = copies((8, chain(1249, V0)))
equality('2 + 8 * (2 + 4,999) = 40,010 bytes', bindings, left, right, size=40010)
