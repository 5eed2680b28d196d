"""Questions 3 and 4 of events: port, ancestors, bets, and the rules of a unifier's pairs."""
from record_cases.table import *

heading('port')
for number, port in (13, 0), (0, 1), (0, 2), (0, 3), (0, 4), (13, 5), (13, 255):
    an_event(number, str(port), event(port, TRUE))
an_event(0, 'any port with any stacks: redo of true under an atom, with OR', event(4, TRUE, [P], [chosen(2)]))

heading('ancestor')
ancestors(0, 'an atom', atom(5, V0))
ancestors(0, 'an atom of arity 16', atom(5, *[V0] * 16))
ancestors(13, 'an atom of arity 17, with 17 terms', atom(5, *[V0] * 17))
for number, tag in (13, 0), (0, 1), (0, 2), (13, 3), (13, 255):
    ancestors(number, f'a conjunction with tag {tag}', in_conj(tag, TRUE, FAIL))
    ancestors(number, f'a disjunction with tag {tag}', in_disj(tag, TRUE, FAIL))
for data, what in (('00', 'kind 00'), ('01 00 00', 'a variable'), ('02 00 02 00', 'a constant'), ('10', 'the goal true'), ('11', 'the goal fail'),
                   ('12 01 00 00 01 00 00', 'the goal equality'), ('13 10 10', 'the goal conjunction'), ('14 10 10', 'the goal disjunction'),
                   ('16 00 05 00', 'kind 16'), ('20 00 00', 'a unifier'), ('21 01', 'OR'), ('22 10', 'BY'), ('2F 01 10 10', 'kind 2F'),
                   ('32 01 10 10', 'kind 32'), ('FF', 'kind FF')):
    ancestors(13, what + ' for an ancestor', hexa(data))
ancestors(13, 'the goal equality below an atom', P, eq(V0, V1))
ancestors(13, 'a conjunction with a term for a half', in_conj(1, V0, TRUE))
ancestors(13, 'a disjunction with an ancestor for a half', in_disj(1, TRUE, in_disj(1, TRUE, TRUE)))
ancestors(0, 'one of each kind, the halves of many kinds', P, in_conj(2, eq(V0, A), conj(P, TRUE)), in_disj(1, disj(P, FAIL), P))
an_event(13, 'one, counted 0', event(1, TRUE, [in_conj(1, TRUE, TRUE)], ancestor_count=0))
an_event(13, 'none, counted 1', event(1, TRUE, ancestor_count=1))
an_event(13, 'none, counted 65,535', event(1, TRUE, ancestor_count=65535))
an_event(13, 'two, counted 1', event(1, TRUE, [P, P], ancestor_count=1))
an_event(13, 'two, counted 3', event(1, TRUE, [P, P], ancestor_count=3))
an_event(13, 'one, the count with its low byte first', event(1, TRUE, [P], ancestor_count=256))
an_event(0, '256 of them', event(1, TRUE, [in_conj(1, TRUE, TRUE)] * 256))

heading('bet')
bets(0, 'a unifier of no pairs', unifier())
bets(0, 'BY true', by(TRUE))
for number, tag in (13, 0), (0, 1), (0, 2), (13, 3), (13, 255):
    bets(number, f'OR with tag {tag}', chosen(tag))
for data, what in (('00', 'kind 00'), ('01 00 00', 'a variable'), ('02 00 02 00', 'a constant'), ('10', 'the goal true'), ('15 00 05 00', 'an atom'),
                   ('1F 00 00', 'kind 1F'), ('23 10', 'kind 23'), ('30 01 10 10', 'an ancestor of kind 30'),
                   ('31 01 10 10', 'an ancestor of kind 31'), ('FF', 'kind FF')):
    bets(13, what + ' for a bet', hexa(data))
bets(13, 'BY a term', by(V0))
bets(13, 'BY an ancestor', by(in_conj(1, TRUE, TRUE)))
bets(0, 'one of each kind', unifier((0, A)), chosen(2), by(conj(P, eq(V0, V1))))
an_event(13, 'one, counted 0', event(2, TRUE, bets=[chosen(1)], bet_count=0))
an_event(13, 'one, counted 2', event(2, TRUE, bets=[chosen(1)], bet_count=2))
an_event(13, 'none, counted 1', event(2, TRUE, bet_count=1))
an_event(13, 'none, counted 65,535', event(2, TRUE, bet_count=65535))
an_event(13, 'one, the count with its low byte first', event(2, TRUE, bets=[chosen(1)], bet_count=256))
an_event(0, '256 of them', event(2, TRUE, bets=[chosen(1)] * 256))

heading('pair')
pairs(0, 'a term of arity 16', (0, sym(6, *[V9] * 16)))
pairs(13, 'a term of arity 17, with 17 terms', (0, sym(6, *[V9] * 17)))
pairs(13, 'a goal for the term', (0, TRUE))
pairs(13, 'kind 03 for the term', (0, hexa('03 00 00')))
bets(13, 'one, counted 0, in the last bet', unifier((0, A), count=0))
bets(13, 'one, counted 2, in the last bet', unifier((0, A), count=2))
bets(13, 'one, counted 0, before another bet', unifier((0, A), count=0), chosen(1))
bets(13, 'one, counted 2, before another bet', unifier((0, A), count=2), chosen(1))
bets(13, 'two, counted 1', unifier((0, A), (1, A), count=1))
bets(13, 'none, counted 65,535', unifier(count=65535))
bets(0, '256 of them', unifier(*[(v, A) for v in range(256)]))

heading('event')
for what, data in (('the port', hexa('01 00') + CALL_TRUE[1:]),
                   ('the goal', event(1, TRUE + b'\x10', [P])),
                   ('an ancestor', event(1, TRUE, [in_conj(1, TRUE, TRUE) + b'\x10'])),
                   ('the last ancestor', event(1, TRUE, [P, P + b'\x00'])),
                   ('the pairs of a unifier', event(1, TRUE, [], [unifier((0, A)) + b'\x10', chosen(1)])),
                   ('the tag of OR', event(1, TRUE, [], [chosen(1) + b'\x01', chosen(1)])),
                   ('the goal of BY', event(1, TRUE, [], [by(TRUE) + b'\x10', chosen(1)])),
                   ('the last bet', event(1, TRUE, [], [chosen(1)]) + b'\x00'),
                   ('empty stacks', CALL_TRUE + b'\x00')):
    an_event(13, 'a byte too many after ' + what, data)
whole = event(2, eq(V0, V1), [atom(5, V0), in_conj(1, TRUE, TRUE)], [unifier((1, sym(6, V0))), chosen(2), by(FAIL)])
for n in range(1, 39):
    an_event(13, f'the first {n} of the 39 bytes of one with parts of many kinds', whole[:n])
an_event(0, 'those 39 bytes', whole, size=42)

heading('unifier')
pairs(0, 'V0 to a', (0, A))
pairs(0, 'rising variables', (0, A), (1, B), (7, A))
pairs(14, 'equal variables', (1, A), (1, A))
pairs(14, 'equal variables with other terms', (1, A), (1, B))
pairs(14, 'falling variables', (1, A), (0, A))
pairs(14, 'the third variable between the first two', (1, A), (3, A), (2, A))
pairs(14, 'the third variable equal to the first', (1, A), (3, A), (1, A))
pairs(0, 'variables 255 and 256', (255, A), (256, A))
pairs(14, 'variables 256 and 255', (256, A), (255, A))
pairs(0, 'variables 65,534 and 65,535', (65534, A), (65535, A))
pairs(14, 'variable 65,535 twice', (65535, A), (65535, A))
pairs(14, 'V0 to V0', (0, V0))
pairs(14, 'V65535 to V65535', (65535, var(65535)))
pairs(14, 'V0 to a symbol of V0', (0, sym(6, V0)))
pairs(0, 'V0 to V1', (0, V1))
pairs(0, 'V1 to V0', (1, V0))
pairs(0, 'both pairs to one free variable', (0, V9), (1, V9))
pairs(14, 'a bound variable as the term of a later pair', (0, A), (1, V0))
pairs(14, 'a bound variable as the term of an earlier pair', (0, V1), (1, A))
pairs(14, 'V0 to V1 and V1 to V0', (0, V1), (1, V0))
pairs(14, 'a bound variable within the term of a later pair', (0, A), (1, sym(6, V9, V0)))
pairs(14, 'a bound variable within the term of an earlier pair', (0, sym(6, V9, V1)), (1, A))
pairs(14, 'a bound variable 50 symbols deep in a later pair', (0, A), (1, chain(50, V0)))
pairs(14, 'a bound variable 50 symbols deep in an earlier pair', (0, chain(50, V1)), (1, A))
pairs(14, 'a bound variable as the last of 16 arguments', (0, A), (1, sym(6, *[V9] * 15, V0)))
pairs(14, 'the second of three bound variables in the last term', (0, A), (4, A), (8, sym(6, var(4))))
pairs(14, 'the second of three bound variables in the first term', (0, sym(6, var(4))), (4, A), (8, A))
pairs(0, 'free variables below, between and above the bound ones', (1, sym(6, V0, V2)), (3, sym(6, V2, V9)))
pairs(0, 'a free variable with the low byte of the bound one', (1, var(257)))
pairs(0, 'a free variable with the high byte of the bound one', (257, var(256)))
bets(0, 'two unifiers that bind one variable', unifier((0, A)), unifier((0, B)))
bets(0, 'a variable that the unifier below binds', unifier((0, V1)), unifier((1, A)))
bets(0, 'a variable that the unifier above binds', unifier((1, A)), unifier((0, V1)))
bets(14, 'the second of two unifiers falls', unifier((0, A), (1, A)), unifier((1, A), (0, A)))
bets(14, 'the first of two unifiers falls', unifier((1, A), (0, A)), unifier((0, A), (1, A)))
bets(14, 'V0 to V0 below OR and BY', chosen(1), by(TRUE), unifier((0, V0)))
bets(0, 'a bound variable in BY', by(eq(V0, V0)), unifier((0, A)))
an_event(0, 'a bound variable in the goal and the ancestors', event(2, eq(V0, V0), [atom(5, V0)], [unifier((0, A))]))
