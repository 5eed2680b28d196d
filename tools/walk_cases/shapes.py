"""Queries whose walks have a given length.

A walk that comes to its end has an odd number of steps: each step either enters or leaves a goal's ancestor, or turns from going in (call, redo)
to coming out (exit, fail) or back, and a walk starts going in and ends coming out, with no ancestors both times. So no walk ends by itself after
exactly 100,000 steps; but its next step may be refused there.
"""
from walk_cases.table import *

CHOICE, TOO_FAR = 5, 6
# a choice that both times succeeds; a predicate whose local needs variable 65,536 when it is called with the last one
RULES = program(definition(CHOICE, 0, 0, disj(TRUE, TRUE)), definition(TOO_FAR, 1, 1, eq(V0, V1)))
STUCK = atom(TOO_FAR, var(65535))


def choices(k):
    """k choices one after another, all of them tried since fail follows"""
    return (b'\x13' + atom(CHOICE)) * k + FAIL


def choices_steps(k):
    return 24 * 2 ** k - 23


def failing(n):
    """a goal that fails after n steps, n odd"""
    assert n % 2 == 1
    k = 0
    while choices_steps(k + 1) <= n:
        k += 1
    left = n - choices_steps(k)
    if left == 0:
        return choices(k)
    if left == 2:
        return conj(choices(k), TRUE)
    # the second half after the first: three steps more
    return disj(choices(k), failing(left - 3))


def ended(n):
    """a walk that ends at event n, n odd"""
    return RULES + record(failing(n))


def stuck(n):
    """a walk whose event n is the last, since the next step is refused by 9"""
    return RULES + record(disj(failing(n - 2), STUCK) if n % 2 else disj(failing(n - 3), conj(STUCK, TRUE)))
