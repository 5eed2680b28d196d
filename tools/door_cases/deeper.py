"""The same goal deeper down has other ancestors, and is passed; the same goal called again has other bets, and the nearest call counts."""
from door_cases.table import *
from step_cases.walks import AB, APP, APPEND, NESTED

heading('one step')
asked('exit true', NO_DEFINITIONS, at(EXIT, TRUE), want=(0, 1, at(CALL, TRUE)))
asked('fail fail', NO_DEFINITIONS, at(FAILS, FAIL), want=(0, 1, at(CALL, FAIL)))
asked('exit V0=a, with a bet more than its call', NO_DEFINITIONS, at(EXIT, eq(V0, A), bets=[unifier((0, A))]), want=(0, 1, at(CALL, eq(V0, A))))
asked('fail a=b', NO_DEFINITIONS, at(FAILS, eq(A, B)), want=(0, 1, at(CALL, eq(A, B))))
asked('fail of an atom without a definition', NO_DEFINITIONS, at(FAILS, P), want=(0, 1, at(CALL, P)))
asked('fail of an atom of another arity', program(definition(5, 1, 0, TRUE)), at(FAILS, P, [atom(5, A)]), want=(0, 1, at(CALL, P, [atom(5, A)])))

heading('p :- true ; p.')
# In the walk of p, fail: 1 call p  2 call of its body  3 call true  6 exit p  9 redo p  13 call p under 2/true;p  14 call of its body  15 call true
# 18 exit of the inner p  19 exit of the outer body  20 exit p  21 call fail  22 fail fail  23 redo p
LOOPING = program(definition(5, 0, 0, disj(TRUE, P)))
WALK = events(LOOPING, conj(P, FAIL), 23)
for words, doors in (('the inner p', {13: 13, 17: 14, 18: 13}), ('the outer body, the inner one being passed', {19: 2}),
                     ('the outer p, the inner one being passed', {20: 1, 23: 1}), ('fail, called at 7 and again at 21', {22: 21})):
    for n, door in doors.items():
        door_at(words, LOOPING, WALK, n, door)
spent_at('spent at the call of the inner p', LOOPING, WALK, 20, 7)

heading('p(X) :- p(X).')
# each call has one ancestor more, and the goal is always the same
LOOP = program(definition(5, 1, 0, atom(5, V0)))
ROUND = at(CALL, atom(5, A), [atom(5, A)] * 3)
asked('a call under three of the same goal', LOOP, ROUND, want=(0, 0, ROUND))
asked('a call under three of the same goal, limit 0', LOOP, ROUND, 0, want=(0, 0, ROUND))

heading('recursion')
# q(a). q(f(Z)) :- q(Z).
THREE = events(NESTED, conj(atom(5, chain(3, A)), FAIL), 200)
for n in 40, 46, 61, 72, 86:
    asked(f'q(f(f(f(a)))), fail, event {n} of {len(THREE) - 1}', NESTED, THREE[n], want=0)
door_at('q(f(f(f(a)))), fail, its final fail', NESTED, THREE, len(THREE) - 1, 0)
LISTS = events(APPEND, conj(atom(APP, V0, V1, AB), FAIL), 300)
for n in 67, 131, 154:
    asked(f'app(X, Y, [a,b]), fail, event {n} of {len(LISTS) - 1}', APPEND, LISTS[n], want=0)
door_at('app(X, Y, [a,b]), fail, its final fail', APPEND, LISTS, len(LISTS) - 1, 0)
