"""Question 10: answers that fill the output to its last byte, and those that no longer fit it; the ones before are kept."""
from answers_cases.exits import NESTED
from answers_cases.table import *
from answers_cases.values import BIG, BIG_BODY, BOUND, LONGEST, MADE, X, Y


def last_fit(words, goal, definitions, answers, count, stopped):
    """an output that holds so many answers of the goal, one byte less, and one more; stopped: the number where it holds them"""
    room = sum(map(len, answers[:count]))
    assert ROOM < room < MOST_ROOM, (words, room)
    query(f'{words}, one byte less than its {room:,}', goal, definitions, room=room - 1, want=(10, None, answers[:count - 1]))
    query(f'{words}, exactly {room:,} bytes', goal, definitions, room=room, want=(stopped, None, answers[:count]))
    query(f'{words}, one byte more', goal, definitions, room=room + 1, want=(stopped, None, answers[:count]))


def with_big(n, *choices):
    """n of the first variables are LONGEST, and V9 is one of the choices, two or more"""
    goal = joined(*[eq(var(v), LONGEST) for v in range(n)], atom(6, X, Y), either(*[eq(V9, t) for t in choices]))
    # a choice is the second half of all that stand before it, and the first of its own unless it is the last
    branches = [[chosen(1)] * (i < len(choices) - 1) + [chosen(2)] * i for i in range(len(choices))]
    return goal, [BIG], [solution([*[(v, MADE) for v in range(n)], (9, t), *BOUND], [by(BIG_BODY), *branch]) for t, branch in zip(choices, branches)]


heading('question 10')
ONE = joined(*[eq(var(v), LONGEST) for v in range(3)], atom(6, X, Y))
last_fit('one answer', ONE, [BIG], [solution([*[(v, MADE) for v in range(3)], *BOUND], [by(BIG_BODY)])], 1, 6)
last_fit('the first of two', *with_big(3, A, B), 1, 10)
last_fit('the second of two', *with_big(3, A, B), 2, 6)
# three equalities, call and exit of big and of the two in it, and the exits of its body and of the conjunctions: 20 steps to the exit
query('one answer, 32,768 bytes', ONE, [BIG], want=(10, 20, []))
query('one answer, 32,768 bytes, as many steps as lead to its exit', ONE, [BIG], steps=20, want=(10, 20, []))
query('one answer, 32,768 bytes, one step less', ONE, [BIG], steps=19, want=(0, 19, []))
GOAL, DEFINITIONS, ANSWERS = with_big(2, A, B, A)
query('three answers, of which 32,768 bytes hold one', GOAL, DEFINITIONS, want=(10, None, ANSWERS[:1]))
last_fit('the second of three', GOAL, DEFINITIONS, ANSWERS, 2, 10)
query('three answers, of which 70,000 bytes hold two', GOAL, DEFINITIONS, room=MOST_ROOM, want=(10, None, ANSWERS[:2]))
# the first half of the choice is V0=LONGEST, and then the answer has four such values
GOAL = joined(disj(eq(V0, LONGEST), eq(V0, A)), *[eq(var(v), LONGEST) for v in range(1, 4)], atom(6, X, Y))
query('the first does not fit, the second would', GOAL, [BIG], want=(10, None, []))

heading('question 10 at the least output')
V11 = var(11)


def filling(length):
    """a goal and its one answer, of so many bytes: two values as long as can be, and a third with n symbols around a leaf"""
    for leaf, free in (A, []), (sym(6, V11, V11), [(11, V11)]):
        for branches in [], [chosen(1)]:

            def answer(n):
                third = sym(8, *[BOUND[0][1]] * 3, chain(n, leaf))
                return solution([(0, MADE), (1, MADE), (2, third), *free, *BOUND], [by(BIG_BODY), *branches])

            n, rest = divmod(length - len(answer(0)), 4)
            if not rest:
                equalities = [eq(V0, LONGEST), eq(V1, LONGEST), eq(var(2), sym(8, X, X, X, chain(n, leaf)))]
                return joined(*equalities, atom(6, X, Y), *[disj(TRUE, FAIL)] * len(branches)), answer(n)


for length in ROOM - 1, ROOM, ROOM + 1:
    GOAL, ANSWER = filling(length)
    assert len(ANSWER) == length
    fits = length <= ROOM
    query(f'an answer of {length:,} bytes, 32,768 bytes', GOAL, [BIG], want=(6 if fits else 10, None, [ANSWER] * fits))

heading('question 10 after many answers')


def nested_body(k):
    """of q(Vk), whose local is the next variable"""
    t, local = var(k), var(k + 1)
    return disj(conj(eq(t, A), TRUE), conj(eq(t, sym(6, local)), atom(7, local)))


def nested_answer(n):
    """X = f(.. f(a)) with n symbols f: the first half of the body at the call q(Vn), the second of each before"""
    return solution([(0, chain(n, A))], [chosen(1), by(nested_body(n))] + [bet for k in reversed(range(n)) for bet in (chosen(2), by(nested_body(k)))])


MANY = [nested_answer(n) for n in range(60)]
COUNT = next(n for n in range(60) if sum(map(len, MANY[:n])) > ROOM)
Q_OF_X = atom(7, V0)
query('q(X), 32,768 bytes', Q_OF_X, [NESTED], want=(10, None, MANY[:COUNT - 1]))
last_fit('q(X)', Q_OF_X, [NESTED], MANY, COUNT, 10)
last_fit('q(X), four answers more', Q_OF_X, [NESTED], MANY, COUNT + 4, 10)
