"""Lookups of each kind, and the four counts."""
from step_cases.refusals import BAD_EVENTS, BAD_PROGRAMS
from step_cases.table import *

# bytes 0 to 4 of a program are length, version and count; a definition has 4 bytes and its goal
THREE = program(definition(5, 0, 0, TRUE), definition(5, 1, 2, eq(V0, V2)), definition(300, 0, 0, conj(P, P)))
heading('lookup')
lookup('the first definition', THREE, at(CALL, atom(5)), want=(5, 5))
lookup('the middle one, of another arity', THREE, at(CALL, atom(5, A)), want=(10, 11))
lookup('the last one', THREE, at(CALL, atom(300)), want=(21, 13))
lookup('its arguments do not matter', THREE, at(CALL, atom(5, sym(6, V0, A))), want=(10, 11))
lookup('a goal of exit', THREE, at(EXIT, atom(300), bets=[by(TRUE)]), want=(21, 13))
lookup('a goal of fail', THREE, at(FAILS, atom(300)), want=(21, 13))
lookup('a goal of redo, under an atom that is defined too', THREE, at(REDO, atom(300), [atom(5)]), want=(21, 13))
lookup('no such predicate: lower than all', THREE, at(CALL, atom(4)), want=(0, 0))
lookup('no such predicate: between', THREE, at(CALL, atom(6)), want=(0, 0))
lookup('no such predicate: higher than all', THREE, at(CALL, atom(65535)), want=(0, 0))
lookup('no such arity', THREE, at(CALL, atom(5, A, A)), want=(0, 0))
lookup('predicate 44, whose number is the low byte of 300', THREE, at(CALL, atom(44)), want=(0, 0))
lookup('no definitions', NO_DEFINITIONS, at(CALL, atom(5)), want=(0, 0))
for goal, words in (TRUE, 'true'), (FAIL, 'fail'), (eq(A, A), 'an equality'), (conj(P, P), 'a conjunction'), (disj(P, P), 'a disjunction'):
    lookup('no atom but ' + words, THREE, at(CALL, goal, [P]), want=(0, 0))
for refused, bad in BAD_PROGRAMS.items():
    lookup(f'the program refused by {refused}', bad, at(CALL, P), want=(0, 0))
for refused, bad in BAD_EVENTS.items():
    lookup(f'the event refused by {refused}', THREE, bad, want=(0, 0))
FULL = program(*[definition(p, 0, 0, TRUE) for p in range(6551)])
lookup('the last of 6,551 definitions', FULL, at(CALL, atom(6550)), want=(5 + 6550 * 5, 5))
lookup('the 3,001st of them', FULL, at(CALL, atom(3000)), want=(15005, 5))

heading('counter')
PORTS = 'call', 'exit', 'fail', 'redo'
for place, word in enumerate(PORTS):
    def counts(changed, others=7):
        return tuple(changed if i == place else others for i in range(4))
    e = at(CALL + place, P, [P], [chosen(1)])
    counter(f'{word} from 0', e, (0, 0, 0, 0), want=(0, *counts(1, 0)))
    counter(f'{word} at 4,294,967,294', e, counts(4294967294), want=(0, *counts(4294967295)))
    counter(f'{word} at 4,294,967,295', e, counts(4294967295), want=(0, *counts(4294967295)))
    counter(f'{word}, the others at 4,294,967,295', e, counts(0, 4294967295), want=(0, *counts(1, 4294967295)))
counter('1 for each byte\'s limit', at(EXIT, TRUE), (255, 255, 65535, 16777215), want=(0, 255, 256, 65535, 16777215))
for refused, bad in BAD_EVENTS.items():
    counter(f'an event refused by {refused}', bad, (1, 2, 3, 4294967295), want=(refused, 1, 2, 3, 4294967295))
