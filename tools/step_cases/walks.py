"""Whole walks forward and back: garage rules, recursion, walks that end in fail, and those that are refused."""
from step_cases import p_q_r
from step_cases.table import *
from desk_model.canonical import canonical_program


def rules(*clauses):
    """the canonical program of these clauses"""
    number, made = canonical_program(record(listed(clauses)), ROOM)
    assert number == 0
    return made


def fact(p, *head):
    return clause(p, 0, head, TRUE)


def goals(*parts):
    """joined by conjunction to the right"""
    made = parts[-1]
    for part in reversed(parts[:-1]):
        made = conj(part, made)
    return made


heading('colouring of bays')
# light(red). light(green). light(blue).  Bays side by side get two lights: apart(X, Y), a fact for each two.
LIGHT, APART, SHEET = 1, 2, 3
COLOURS = [sym(c) for c in range(3)]
LIGHTS = [fact(LIGHT, c) for c in COLOURS] + [fact(APART, c, d) for c in COLOURS for d in COLOURS if c != d]
# sheet(A, B, C, D) :- light(A), light(B), apart(A, B), light(C), apart(A, C), apart(B, C), light(D), apart(C, D).
BAYS = [var(v) for v in range(4)]
ROW = clause(SHEET, 4, BAYS, goals(atom(LIGHT, V0), atom(LIGHT, V1), atom(APART, V0, V1), atom(LIGHT, V2), atom(APART, V0, V2), atom(APART, V1, V2),
                                   atom(LIGHT, V3), atom(APART, V2, V3)))
GARAGE = rules(*LIGHTS, ROW)
walk('four bays, to the first sheet', GARAGE, record(atom(SHEET, *BAYS)), 1000)
walk('four bays, the last one blue', GARAGE, record(conj(atom(SHEET, *BAYS), eq(V3, COLOURS[2]))), 400)
walk('two bays beside each other with one light: fail', rules(*LIGHTS), record(goals(atom(LIGHT, V0), atom(APART, V0, V0))), 1000)

heading('walk that ends in fail')
walk('V=a;V=b, then V=c', program(definition(5, 1, 0, disj(eq(V0, A), eq(V0, B)))), record(conj(atom(5, V0), eq(V0, sym(4)))), 100)
walk('true, fail', NO_DEFINITIONS, record(conj(TRUE, FAIL)), 100)
walk('an undefined atom in the second half', NO_DEFINITIONS, record(conj(disj(TRUE, TRUE), P)), 100)

heading('numbers that stand in bets alone')
assert rules(*p_q_r.CLAUSES) == p_q_r.PROGRAM
walk('p(W), (q, r(W)): 23 steps to the exit', p_q_r.PROGRAM, p_q_r.QUERY, 200, want=p_q_r.THERE_AND_BACK)

heading('recursion')
# q(a). q(f(Z)) :- q(Z).
NESTED = rules(fact(5, A), clause(5, 1, [sym(6, V0)], atom(5, V0)))
walk('q(f(f(f(a))))', NESTED, record(atom(5, chain(3, A))), 100)
walk('q(f(f(b))) fails', NESTED, record(atom(5, chain(2, B))), 100)
walk('q(X), answer after answer, 150 steps', NESTED, record(conj(atom(5, V0), FAIL)), 150)
# app([], Y, Y). app([H|T], Y, [H|Z]) :- app(T, Y, Z).
APP, NIL = 1, sym(0)


def cons(h, t):
    return sym(1, h, t)


APPEND = rules(clause(APP, 1, [NIL, V0, V0], TRUE), clause(APP, 4, [cons(V0, V1), V2, cons(V0, V3)], atom(APP, V1, V2, V3)))
AB = cons(A, cons(B, NIL))
walk('app([a,b], [a], X)', APPEND, record(atom(APP, AB, cons(A, NIL), V0)), 200)
walk('app(X, Y, [a,b]), every answer', APPEND, record(conj(atom(APP, V0, V1, AB), FAIL)), 300)

heading('walk of deep goals')
walk('50 conjunctions, each the first half of the one around it', NO_DEFINITIONS, record(leftward(0x13, 50, TRUE)), 300)
walk('50 disjunctions of fail, each the second half', NO_DEFINITIONS, record(b'\x14\x11' * 50 + TRUE), 300)
forward('8,000 conjunctions, each the first half', NO_DEFINITIONS, at(CALL, leftward(0x13, 8000, TRUE)), want=0)
back('8,000 conjunctions, each the first half: from fail', NO_DEFINITIONS, at(FAILS, leftward(0x13, 8000, TRUE)), want=0)
forward('8,000 disjunctions, each the second half', NO_DEFINITIONS, at(CALL, rightward(0x14, 8000, FAIL)), want=0)
forward('an argument 3,000 symbols deep goes into the body', program(definition(5, 1, 0, atom(6, V0))), at(CALL, atom(5, chain(3000, V1))), want=0)
back('and comes from there', program(definition(5, 1, 0, atom(6, V0))), at(CALL, atom(6, chain(3000, V1)), [atom(5, chain(3000, V1))]), want=0)

heading('walk refused')
walk('the query: only the first line', NO_DEFINITIONS, record(b'\x20'), 5, want=[('=', 13, None)])
walk('the query\'s event too long', NO_DEFINITIONS, record(rightward(0x13, 16380, TRUE)), 5, want=[('=', 10, None)])
walk('the program, which the first event does not need', hexa('00 03 02 00 00'), record(TRUE), 5,
     want=[('=', 0, at(CALL, TRUE)), ('>', 2, None), ('<', 2, None)])
walk('the step to a body that needs variable 65,536', program(definition(5, 1, 1, eq(V0, V1))), record(conj(TRUE, atom(5, var(65535)))), 5)
