"""Question 8: values of 8,192 and of 8,193 bytes. It is put to all values of an answer, and before question 10."""
from answers_cases.table import *

# S1 and S2 have 2,047 and 2,048 bytes, so a symbol of four of them has 8,192 bytes, or 8,193 with one S2
S1, S2 = chain(511, V2), chain(511, A)
assert (4 + 4 * len(S1), 4 + 3 * len(S1) + len(S2)) == (8192, 8193)


def four(x, last):
    return sym(8, x, x, x, last)


def big_body(x, y, local):
    return conj(eq(x, chain(511, local)), eq(y, S2))


# big(X, Y) :- X=S1, Y=S2.: the variable of S1 is a local
BIG = definition(6, 2, 1, big_body(V0, V1, V2))
X, Y, NEW = var(20), var(21), var(22)
LONGEST, LONGER = four(X, X), four(X, Y)
# once big(X, Y) is called, where nothing is above Y
BIG_BODY, MADE = big_body(X, Y, NEW), four(chain(511, NEW), chain(511, NEW))
BOUND = [(20, chain(511, NEW)), (21, S2)]

heading('question 8')
for words, goal, wanted in ('8,192 bytes', LONGEST, 6), ('8,193 bytes', LONGER, 8):
    kept = [solution([(0, MADE), *BOUND], [by(BIG_BODY)])] * (wanted == 6)
    query(words, conj(eq(V0, goal), atom(6, X, Y)), [BIG], want=(wanted, None, kept))
    query(words + ', an output of 70,000', conj(eq(V0, goal), atom(6, X, Y)), [BIG], room=MOST_ROOM, want=(wanted, None, kept))
    query(words + ', the second of two variables', conj(eq(V0, A), conj(eq(V1, goal), atom(6, X, Y))), [BIG], want=wanted)
    query(words + ', the first of two variables', conj(eq(V1, A), conj(eq(V0, goal), atom(6, X, Y))), [BIG], want=wanted)

# p(V) :- V=a ; (V=.., big(..)) ; V=b.: the local of big is V3
for words, last, wanted, count in ('8,192 bytes', V1, 6, 3), ('8,193 bytes', V2, 8, 1):
    body = either(eq(V0, A), conj(eq(V0, four(V1, last)), atom(6, V1, V2)), eq(V0, B))
    middle = four(chain(511, V3), chain(511, V3))
    kept = [solution([(0, A)], [chosen(1), by(body)]), solution([(0, middle)], [by(big_body(V1, V2, V3)), chosen(1), chosen(2), by(body)]),
            solution([(0, B)], [chosen(2), chosen(2), by(body)])]
    query(words + ', the second of three answers', P_OF_V, [definition(5, 1, 2, body), BIG], want=(wanted, None, kept[:count]))
query('8,193 bytes: the step that comes to the exit is counted', conj(eq(V0, LONGER), atom(6, X, Y)), [BIG], steps=12, want=(8, 12, []))
query('8,193 bytes, one step before', conj(eq(V0, LONGER), atom(6, X, Y)), [BIG], steps=11, want=(0, 11, []))
query('8,193 bytes of a variable that the query does not have', P,
      [definition(5, 0, 3, conj(eq(V0, four(V1, V2)), atom(6, V1, V2))), BIG], want=6)
query('8,192 bytes of one pair', eq(V0, chain(2047, A)), want=(6, 7, [solution([(0, chain(2047, A))])]))
query('V0 = f(V1,V1), V1 = f(V2,V2), ..: too long by the twelfth', joined(*[eq(var(v), sym(6, var(v + 1), var(v + 1))) for v in range(12)]), want=8)
query('the same with ten of them', joined(*[eq(var(v), sym(6, var(v + 1), var(v + 1))) for v in range(10)]), want=6)

heading('8 before 10')
# four values of 8,192 bytes have 32,776 as pairs, and the fifth has 8,193
FOUR = [eq(var(v), LONGEST) for v in range(4)]
query('the values before it do not fit', joined(*FOUR, eq(var(4), LONGER), atom(6, X, Y)), [BIG], want=8)
query('the values behind it do not fit', joined(eq(V0, LONGER), *[eq(var(v), LONGEST) for v in range(1, 5)], atom(6, X, Y)), [BIG], want=8)
FIRST, SECOND = [eq(var(v), A) for v in range(5)], [*FOUR, eq(var(4), LONGER), atom(6, X, Y)]
query('the second answer, the first is kept', disj(joined(*FIRST), joined(*SECOND)), [BIG],
      want=(8, None, [solution([(v, A) for v in range(5)] + [(20, X), (21, Y)], [chosen(1)])]))
query('without it', joined(*FOUR, atom(6, X, Y)), [BIG], want=10)
query('without it, an output of 70,000', joined(*FOUR, atom(6, X, Y)), [BIG], room=MOST_ROOM, want=6)
