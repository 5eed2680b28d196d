"""Events that no walk reaches and that pass the gate: what is refused with 7, forward, back by the first question and back by the last."""
from step_cases.table import *

DEFINED = program(definition(5, 0, 0, disj(TRUE, FAIL)), definition(6, 1, 1, conj(eq(V0, V1), TRUE)))
V_IS_A, EITHER, BOTH = eq(V0, A), disj(TRUE, FAIL), conj(TRUE, FAIL)


def no_rule(words, *parts):
    forward(words, DEFINED, at(*parts), want=(7, None))


def no_source(words, *parts):
    back(words, DEFINED, at(*parts), want=(7, None))


heading('7 forward')
no_rule('redo A;B without a bet', REDO, EITHER)
no_rule('redo A;B with a unifier on top, OR below', REDO, EITHER, [], [unifier(), chosen(1)])
no_rule('redo A;B with BY on top', REDO, EITHER, [], [by(EITHER)])
no_rule('redo of an equality without a bet', REDO, V_IS_A)
no_rule('redo of an equality with OR on top', REDO, V_IS_A, [], [chosen(1), unifier((0, A))])
no_rule('redo of an equality with BY on top', REDO, V_IS_A, [], [by(V_IS_A)])
no_rule('redo P without a bet', REDO, P)
no_rule('redo P with OR on top', REDO, P, [], [chosen(1), by(EITHER)])
no_rule('redo P with a unifier on top', REDO, P, [], [unifier()])
no_rule('redo of fail under an atom', REDO, FAIL, [P], [chosen(1)])
for tag, goal, words in (1, FAIL, 'the second half under tag 1'), (2, TRUE, 'the first half under tag 2'), (1, P, 'neither half'):
    no_rule(f'exit of {words} of a conjunction', EXIT, goal, [in_conj(tag, TRUE, FAIL)])
    no_rule(f'fail of {words} of a disjunction', FAILS, goal, [in_disj(tag, TRUE, FAIL)])
no_rule('exit of a half with another number', EXIT, eq(V1, A), [in_conj(1, V_IS_A, TRUE)])

heading('unreached, and yet a rule forward')
forward('redo of an equality with a unifier that is not the one', DEFINED, at(REDO, V_IS_A, bets=[unifier((3, B))]), want=(0, at(FAILS, V_IS_A)))
forward('redo P with BY a goal that is not its body', DEFINED, at(REDO, P, bets=[by(TRUE)]), want=(0, at(REDO, TRUE, [P])))
forward('redo P of no definition with BY', DEFINED, at(REDO, atom(7), bets=[by(P)]), want=(0, at(REDO, P, [atom(7)])))
forward('exit under an atom, of a goal that is not its body', DEFINED, at(EXIT, V_IS_A, [P]), want=(0, at(EXIT, P, bets=[by(V_IS_A)])))
forward('fail under an atom of no definition', DEFINED, at(FAILS, TRUE, [atom(7)]), want=(0, at(FAILS, atom(7))))
forward('redo of true with bets on top, which stay', DEFINED, at(REDO, TRUE, bets=[chosen(1)]), want=(0, at(FAILS, TRUE, bets=[chosen(1)])))
forward('call of a half, whatever the ancestor', DEFINED, at(CALL, BOTH, [in_disj(2, TRUE, TRUE)]),
        want=(0, at(CALL, TRUE, [in_conj(1, TRUE, FAIL), in_disj(2, TRUE, TRUE)])))
forward('both halves equal: under 2', DEFINED, at(EXIT, TRUE, [in_disj(2, TRUE, TRUE)]), want=(0, at(EXIT, disj(TRUE, TRUE), bets=[chosen(2)])))

heading('first 7 back')
no_source('exit A;B without a bet', EXIT, EITHER)
no_source('exit A;B with a unifier on top', EXIT, EITHER, [], [unifier(), chosen(1)])
no_source('exit A;B with BY on top', EXIT, EITHER, [], [by(TRUE)])
no_source('exit of an equality without a bet', EXIT, V_IS_A)
no_source('exit of an equality with OR on top', EXIT, V_IS_A, [], [chosen(1), unifier((0, A))])
no_source('exit of an equality with BY on top', EXIT, V_IS_A, [], [by(V_IS_A)])
no_source('exit P with a unifier on top', EXIT, P, [], [unifier()])
no_source('exit P with OR on top', EXIT, P, [], [chosen(2), by(EITHER)])
no_source('exit of fail', EXIT, FAIL, [P], [by(FAIL)])
for tag, goal, words in (1, FAIL, 'the second half under tag 1'), (2, TRUE, 'the first half under tag 2'), (2, P, 'neither half'):
    no_source(f'call of {words} of a conjunction', CALL, goal, [in_conj(tag, TRUE, FAIL)])
    no_source(f'redo of {words} of a disjunction', REDO, goal, [in_disj(tag, TRUE, FAIL)])
no_source('redo of a goal without ancestors', REDO, EITHER, [], [chosen(1)])

heading('last 7 back')
no_source('exit of an equality with the pair of another constant', EXIT, V_IS_A, [], [unifier((0, B))])
no_source('exit of an equality with the empty unifier', EXIT, V_IS_A, [], [unifier()])
no_source('exit of an equality with a pair too many', EXIT, V_IS_A, [], [unifier((0, A), (1, A))])
no_source('exit of V3=V7 with 3 bound to 7', EXIT, eq(V3, var(7)), [], [unifier((3, var(7)))])
no_source('exit of a=a with a pair', EXIT, eq(A, A), [], [unifier((0, A))])
no_source('exit of a=b: there is no unifier', EXIT, eq(A, B), [], [unifier()])
no_source('exit of V0=f(V0)', EXIT, eq(V0, sym(6, V0)), [], [unifier((0, sym(6, V1)))])
no_source('exit with the unifier of the terms, but V0 is bound below', EXIT, V_IS_A, [], [unifier((0, A)), unifier((0, A))])
no_source('call under an atom of a goal that is not its body', CALL, TRUE, [P])
no_source('call under an atom of its body numbered from 2 in place of 1', CALL, conj(eq(V0, V2), TRUE), [atom(6, V0)])
no_source('call under an atom of its body before the arguments are put in', CALL, conj(eq(V0, V1), TRUE), [atom(6, A)])
no_source('call under an atom of no definition', CALL, EITHER, [atom(7)])
no_source('call under an atom of another arity', CALL, EITHER, [atom(5, A)])
back('call under an atom of its body, as numbered there', DEFINED, at(CALL, conj(eq(V0, V1), TRUE), [atom(6, V0)]), want=(0, at(CALL, atom(6, V0))))
back('call under an atom of its body, numbered past the other ancestors', DEFINED, at(CALL, conj(eq(V0, V9), TRUE), [atom(6, V0), atom(5, var(8))]),
     want=(0, at(CALL, atom(6, V0), [atom(5, var(8))])))

heading('unreached, and yet a source')
back('exit P with BY a goal that is not its body', DEFINED, at(EXIT, P, bets=[by(V_IS_A)]), want=(0, at(EXIT, V_IS_A, [P])))
back('exit P of no definition with BY', DEFINED, at(EXIT, atom(7), bets=[by(FAIL)]), want=(0, at(EXIT, FAIL, [atom(7)])))
back('redo under an atom of a goal that is not its body', DEFINED, at(REDO, V_IS_A, [P]), want=(0, at(REDO, P, bets=[by(V_IS_A)])))
back('redo of a half: the bet OR comes back', DEFINED, at(REDO, FAIL, [in_disj(2, TRUE, FAIL)]), want=(0, at(REDO, EITHER, bets=[chosen(2)])))
back('both halves equal: under 1', DEFINED, at(REDO, TRUE, [in_disj(1, TRUE, TRUE)]), want=(0, at(REDO, disj(TRUE, TRUE), bets=[chosen(1)])))
back('call of the second half: the first had exited', DEFINED, at(CALL, FAIL, [in_conj(2, TRUE, FAIL)], [by(P)]),
     want=(0, at(EXIT, TRUE, [in_conj(1, TRUE, FAIL)], [by(P)])))

heading('fail read back')
back('fail of an equality that unifies, from redo', DEFINED, at(FAILS, V_IS_A), want=(0, at(REDO, V_IS_A, bets=[unifier((0, A))])))
back('fail of an equality that does not, from call', DEFINED, at(FAILS, eq(A, B)), want=(0, at(CALL, eq(A, B))))
back('fail of an equality that unifies by its terms but not under S', DEFINED, at(FAILS, V_IS_A, bets=[unifier((0, B))]),
     want=(0, at(CALL, V_IS_A, bets=[unifier((0, B))])))
back('fail of an equality that binds nothing under S', DEFINED, at(FAILS, V_IS_A, bets=[unifier((0, A))]),
     want=(0, at(REDO, V_IS_A, bets=[unifier(), unifier((0, A))])))
back('fail of an equality with bets of other kinds on top', DEFINED, at(FAILS, V_IS_A, bets=[chosen(1), by(P)]),
     want=(0, at(REDO, V_IS_A, bets=[unifier((0, A)), chosen(1), by(P)])))
back('fail of a defined atom, from its body', DEFINED, at(FAILS, P), want=(0, at(FAILS, EITHER, [P])))
back('fail of a defined atom with a local', DEFINED, at(FAILS, atom(6, V3), [atom(5, var(8))]),
     want=(0, at(FAILS, conj(eq(V3, V9), TRUE), [atom(6, V3), atom(5, var(8))])))
back('fail of an atom of no definition, from call', DEFINED, at(FAILS, atom(7, V3), [P]), want=(0, at(CALL, atom(7, V3), [P])))
back('fail of an atom of another arity, from call', DEFINED, at(FAILS, atom(5, A)), want=(0, at(CALL, atom(5, A))))
