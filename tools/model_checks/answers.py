"""The answers of a query: of small programs, worked out by hand, and of programs by chance, the walk being cut at many step counts."""
from desk_model.answers import answer, answers
from desk_model.trees import *
from desk_model.writer import listed_record, record
from model_checks.bench import same
from model_checks.chance import Chance
from model_checks.walks import events_of
from stored import layout
from stored.layout import A, B, V0, V1, atom, by, chosen, conj, definition, disj, eq, listed, sym, var

ROOM = 32768
MOST = 4294967295
MOST_STEPS = 400


def laid_out(values, used):
    """an answer: pairs of a variable and its term, and bets"""
    return layout.unifier(*values)[1:] + listed(used)


def program_of(*definitions):
    return layout.record(listed(definitions))


# ---- Groups
def both_lights_of_a_bay():
    """p(V) has body V=a;V=b. Query p(V)."""
    body = disj(eq(V0, A), eq(V0, B))
    program, query = program_of(definition(5, 1, 0, body)), layout.record(atom(5, V0))
    # exit p(V) is event 6, as in the walk of p(V), V=b. Events 7 to 9 are call fail, fail and redo p(V), and the second exit is event 16. Behind it come
    # call fail, fail, redo of p(V), of its body and of V=b, and then fail of these three and of the query: 25.
    a, b = (laid_out([(0, light)], [chosen(tag), by(body)]) for tag, light in ((1, A), (2, B)))
    for steps in range(30):
        number, taken, kept = answers(program, query, steps, ROOM)
        same(kept, [a, b][:(steps >= 6) + (steps >= 16)])
        same((number, taken), (0, steps) if steps <= 25 else (6, 25))


def answers_that_are_alike_or_bind_nothing():
    free = eq(V0, V0)
    for goal, wanted in ((layout.TRUE, [laid_out([], [])]),
                         (eq(var(7), sym(6, V1)), [laid_out([(1, V1), (7, sym(6, V1))], [])]),
                         (disj(conj(free, free), free), [laid_out([(0, V0)], [chosen(n)]) for n in (1, 2)])):
        same(answers(program_of(), layout.record(goal), MOST, ROOM)[2], wanted)


def answers_within_step_counts():
    """against the events of walks by chance, looked at one by one"""
    chance, met = Chance(8), 0
    for _ in range(60):
        program, keys = chance.program(2)
        goal = chance.goal(3, keys, 3)
        events = events_of(program, Conj(goal, Failure()), MOST_STEPS)
        if len(events) > MOST_STEPS:
            continue
        under = stack([Half(CONJUNCTION, 1, goal, Failure())])
        exits = [n for n, e in enumerate(events) if (e.port, e.goal, e.ancestors) == (EXIT, goal, under)]
        whole = [answer(goal, events[n].bets) for n in exits]
        for steps in {*range(0, len(events), 1 + len(events) // 20), *exits, len(events) - 1, len(events)}:
            number, taken, kept = answers(listed_record(program), record(goal), steps, ROOM)
            same(kept, [each for n, each in zip(exits, whole) if n <= steps])
            same((number, taken), (0, steps) if steps < len(events) else (6, len(events) - 1))
        met += len(whole)
    assert met > 30


GROUPS = both_lights_of_a_bay, answers_that_are_alike_or_bind_nothing, answers_within_step_counts
