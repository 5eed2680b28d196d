"""The bodies and branches: BY and OR from the bottom of the stack up, as they stand there; unifiers are neither written nor counted."""
from answers_cases.table import *


def f(*args):
    return sym(6, *args)


heading('bodies')
# p(X) :- q(X, L). q(X, Y) :- X=f(Y).: the bodies have the arguments as they were at their calls
P_BODY, Q_BODY = atom(6, V0, V1), eq(V0, f(V1))
query('BY p\'s body is above BY q\'s', P_OF_V, [definition(5, 1, 1, P_BODY), definition(6, 2, 0, Q_BODY)],
      want=(6, 15, [solution([(0, f(V1))], [by(Q_BODY), by(P_BODY)])]))
query('as it stands, though its variable is bound', conj(eq(V0, A), P_OF_V), [definition(5, 1, 0, eq(V0, V0))],
      want=(6, 19, [solution([(0, A)], [by(eq(V0, V0))])]))
query('as it stands, though its variable is bound later', conj(P_OF_V, eq(V0, A)), [definition(5, 1, 0, disj(TRUE, eq(V0, B)))], want=6)
query('a body that is an atom', P, [definition(5, 0, 0, atom(6)), definition(6, 0, 0, atom(7)), definition(7, 0, 0, TRUE)],
      want=(6, 19, [solution([], [by(TRUE), by(atom(7)), by(atom(6))])]))
query('the same atom three times', joined(P, P, P), [definition(5, 0, 0, TRUE)], want=6)
query('bodies of bodies, twice', conj(atom(6), atom(6)), [definition(6, 0, 0, conj(atom(7), atom(8))), definition(7, 0, 0, TRUE), definition(8, 0, 0, eq(A, A))], want=6)

heading('branches')
query('three levels of ;', either(eq(V0, A), eq(V0, B), eq(V0, sym(4)), eq(V0, sym(5))),
      want=(6, None, [solution([(0, A)], [chosen(1)]), solution([(0, B)], [chosen(1), chosen(2)]),
                    solution([(0, sym(4))], [chosen(1), chosen(2), chosen(2)]), solution([(0, sym(5))], [chosen(2)] * 3)]))
query('; within the first half', disj(disj(eq(V0, A), eq(V0, B)), eq(V0, sym(4))), want=6)
query('one after the other: the first is the oldest', joined(*[disj(eq(var(v), A), eq(var(v), B)) for v in range(3)]), want=6)

heading('bodies and branches')
# path(X, Y) :- edge(X, Y) ; (edge(X, Z), path(Z, Y)). over 1 -> 2 -> 3, 1 -> 3
EDGE, PATH = 2, 3
nodes = [sym(n) for n in range(1, 4)]
EDGES = definition(EDGE, 2, 0, either(*[conj(eq(V0, nodes[i]), eq(V1, nodes[j])) for i, j in ((0, 1), (1, 2), (0, 2))]))
PATHS = definition(PATH, 2, 1, disj(atom(EDGE, V0, V1), conj(atom(EDGE, V0, V2), atom(PATH, V2, V1))))
query('every path from 1', atom(PATH, nodes[0], V0), [EDGES, PATHS], want=6)
query('every path', atom(PATH, V1, V0), [EDGES, PATHS], want=6)
query('paths to a node and back', conj(atom(PATH, V1, V0), atom(PATH, V0, V1)), [EDGES, PATHS], want=6)
# light(red). light(green). light(blue). apart(X, Y) :- light(X), light(Y), .. a fact for each two
LIGHT, APART = 1, 2
lights = [sym(c) for c in range(3)]
GARAGE = [definition(LIGHT, 1, 0, either(*[conj(eq(V0, c), TRUE) for c in lights])),
          definition(APART, 2, 0, either(*[joined(eq(V0, c), eq(V1, d), TRUE) for c in lights for d in lights if c != d]))]
query('the lights of two bays side by side', conj(atom(LIGHT, V0), conj(atom(LIGHT, V1), atom(APART, V0, V1))), GARAGE, want=6)
query('the lights of a bay beside a green one', conj(eq(V1, lights[1]), atom(APART, V0, V1)), GARAGE, want=6)
query('unifiers of no pairs between them', joined(eq(A, A), disj(eq(A, A), eq(B, B)), P, eq(B, B)), [definition(5, 0, 0, eq(A, A))], want=6)
