"""The lines of the bench sheet (SPECIFICATION 11), the walk program's example and the stored record cases, put to the model."""
from desk_model import canonical, gate, walk, writer
from desk_model.services import BACK, FORWARD, first_event, greatest, run, step, variable_value
# each of these modules adds its cases to the table
from record_cases import table, questions, queries, events, programs, clause_sets, limits
from stored.layout import *

ROOM = 32768
NO_DEFINITIONS = hexa('00 03 01 00 00')
CALL, EXIT, FAILS, REDO = 1, 2, 3, 4


def same(got, wanted):
    assert got == wanted, f'got {got}, wanted {wanted}'


def after(body, direction=FORWARD, program=NO_DEFINITIONS, room=ROOM):
    """the number and the record one step after the event"""
    return step(direction, program, record(body), room)


def goes(body, to, program=NO_DEFINITIONS):
    """forward, and back again"""
    same(after(body, FORWARD, program), (0, record(to)))
    same(after(to, BACK, program), (0, record(body)))


def unifies(t, u, *pairs):
    goes(event(CALL, eq(t, u)), event(EXIT, eq(t, u), bets=[unifier(*pairs)]))


# ---- Groups
def first_events():
    query = hexa('00 09 01 12 01 00 00 02 00 02 00')
    first = hexa('00 0E 01 01 12 01 00 00 02 00 02 00 00 00 00 00')
    second = hexa('00 17 01 02 12 01 00 00 02 00 02 00 00 00 00 01 20 00 01 00 00 02 00 02 00')
    same(first_event(query, ROOM), (0, first))
    same(step(FORWARD, NO_DEFINITIONS, first, ROOM), (0, second))
    same(step(BACK, NO_DEFINITIONS, second, ROOM), (0, first))
    same(walk.walk(NO_DEFINITIONS + query), '0 call 0 0\n1 exit 0 1\nstop 6\n')
    same(walk.walk(NO_DEFINITIONS + query + b'\x00'), '0 call 0 0\n1 exit 0 1\nstop 6\n')


def nineteen_steps():
    """p(V) has body V=a;V=b. Query p(V), V=b."""
    is_a, is_b, p = eq(V0, A), eq(V0, B), atom(5, V0)
    program = record(listed([definition(5, 1, 0, disj(is_a, is_b))]))
    at = [first_event(record(conj(p, is_b)), ROOM)[1]]
    for n in range(19):
        number, following = step(FORWARD, program, at[n], ROOM)
        same(number, 0)
        same(step(BACK, program, following, ROOM), (0, at[n]))
        same(run(FORWARD, program, at[0], n + 1, ROOM), (0, n + 1, following))
        same(run(BACK, program, following, n + 1, ROOM), (0, n + 1, at[0]))
        at.append(following)
    same(step(FORWARD, program, at[19], ROOM), (6, None))
    same(step(BACK, program, at[0], ROOM), (6, None))
    same(run(FORWARD, program, at[0], 4294967295, ROOM), (6, 19, at[19]))
    body = disj(is_a, is_b)
    in_query, in_body = in_conj(1, p, is_b), in_disj(1, is_a, is_b)
    same(at[8], record(event(FAILS, is_b, [in_conj(2, p, is_b)], [by(body), chosen(1), unifier((0, A))])))
    same(at[12], record(event(FAILS, is_a, [in_body, p, in_query])))
    same(at[19], record(event(EXIT, conj(p, is_b), bets=[unifier(), by(body), chosen(2), unifier((0, B))])))


def unifiers():
    f = lambda *args: sym(6, *args)
    goes(event(CALL, eq(V0, f(V0))), event(FAILS, eq(V0, f(V0))))
    unifies(V3, var(7), (7, V3))
    unifies(var(7), V3, (7, V3))
    unifies(f(V0, V0), f(V1, A), (0, A), (1, A))
    unifies(V0, V0)
    unifies(f(V2, V0, V1), f(V1, V1, V0), (1, V0), (2, V0))
    unifies(f(V0, V1), f(sym(7, V1), sym(7, V2)), (0, sym(7, sym(7, V2))), (1, sym(7, V2)))
    for t, u in (A, B), (A, f(A)), (f(A), f(A, A)), (f(V0, A), f(B, V0)), (f(V0, V1), f(f(V1), f(V0))):
        goes(event(CALL, eq(t, u)), event(FAILS, eq(t, u)))


def atoms_and_true():
    goes(event(CALL, P), event(FAILS, P))
    same(after(event(FAILS, P)), (6, None))
    same(after(event(REDO, TRUE)), (0, record(event(FAILS, TRUE))))
    same(after(event(REDO, TRUE), BACK), (7, None))


def canonical_form():
    """q(a). q(f(Z)) :- q(Z). becomes (X0=a, true) ; (X0=f(V1), q(V1)), one local"""
    clauses = record(listed([clause(5, 0, [A], TRUE), clause(5, 1, [sym(6, V0)], atom(5, V0))]))
    program = record(listed([definition(5, 1, 1, disj(conj(eq(V0, A), TRUE), conj(eq(V0, sym(6, V1)), atom(5, V1))))]))
    same(canonical.canonical_program(clauses, ROOM), (0, program))
    same(canonical.canonical_program(NO_DEFINITIONS, ROOM), (0, NO_DEFINITIONS))


def limits_of_the_bench_sheet():
    longest, longer = chain(2047, A), chain(2045, sym(9, V1, V1, V1))
    same((len(longest), len(longer)), (8192, 8193))
    same(after(event(CALL, eq(A, longest)))[0], 0)
    same(after(event(CALL, eq(A, longer)))[0], 8)
    same(variable_value(record(event(EXIT, TRUE, bets=[unifier((0, longest))])), 0, ROOM), (0, longest))
    same(variable_value(record(event(EXIT, TRUE, bets=[unifier((0, longer))])), 0, ROOM), (8, None))
    one_local = record(listed([definition(5, 1, 1, eq(V0, V1))]))
    goes(event(CALL, atom(5, var(65534))), event(CALL, eq(var(65534), var(65535)), [atom(5, var(65534))]), one_local)
    same(after(event(CALL, atom(5, var(65535))), program=one_local), (9, None))
    same(after(event(CALL, TRUE), room=32767), (5, None))
    same(after(event(CALL, TRUE), room=32768)[0], 0)


def locals_above_a_bet():
    program = record(listed([definition(5, 1, 2, eq(V1, sym(6, V0, V2)))]))
    p, V4, V9 = atom(5, var(4)), var(4), var(9)
    for bet in unifier((9, A)), unifier((3, sym(6, V9))), by(eq(V9, A)):
        bets = [chosen(1), bet]
        goes(event(CALL, p, bets=bets), event(CALL, eq(var(10), sym(6, V4, var(11))), [p], bets), program)


def p_q_and_r():
    """p(A) :- A=g(L). q :- L=1. r(A) :- A=g(2). Query p(W),(q,r(W))."""
    g = lambda t: sym(6, t)
    one, two = sym(1), sym(2)
    rules = [clause(7, 2, [V0], eq(V0, g(V1))), clause(8, 1, [], eq(V0, one)), clause(9, 1, [V0], eq(V0, g(two)))]
    number, program = canonical.canonical_program(record(listed(rules)), ROOM)
    same(number, 0)
    query = conj(atom(7, V0), conj(atom(8), atom(9, V0)))
    number, steps, last = run(FORWARD, program, first_event(record(query), ROOM)[1], 4294967295, ROOM)
    same((number, steps, last[3]), (6, 23, EXIT))
    same(variable_value(last, 0, ROOM), (0, g(two)))


def part_of_the_greatest_variable():
    same(greatest(hexa('00 16 01 01 15 00 07 01 01 00 04 00 00 00 01 20 00 01 00 09 02 00 01 00')), (0, 1, 9))
    p8, p9 = atom(7, var(8)), atom(7, var(9))
    same(greatest(record(event(CALL, p9, bets=[unifier((3, var(9)))]))), (0, 1, 9))
    same(greatest(record(event(CALL, p9, [p9], [by(p8)]))), (0, 2, 9))
    same(greatest(record(event(CALL, TRUE, [P], [chosen(1)]))), (0, 0, 0))


def stored_records():
    """the numbers of questions 1 to 4 that were worked out by hand for the program records_cases"""
    readers = dict(q=gate.query, e=gate.event, p=gate.program, c=gate.clauses)
    for words, kind, number, data in table.cases:
        try:
            tree = readers[kind](data)
            got = 0
        except gate.Refused as no:
            got = no.number
        assert got == number, (kind, number, words, got)
        if got == 0 and kind in 'qe':
            assert writer.record(tree) == data, words
        if got == 0 and kind in 'pc':
            assert writer.listed_record(tree) == data, words


GROUPS = (
    first_events, nineteen_steps, unifiers, atoms_and_true, canonical_form, limits_of_the_bench_sheet,
    locals_above_a_bet, p_q_and_r, part_of_the_greatest_variable, stored_records,
)
