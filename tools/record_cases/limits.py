"""Depth and size. A record has at most 32,768 bytes, so its body has at most 32,765."""
from record_cases.table import *

heading('depth')
# An equality has 1 byte of its own, n symbols within each other have 4n, a constant 4 and a variable 3; so 8,190 is the deepest: 1 + 32,760 + 4.
query(0, '8,190 terms within each other on the left', eq(chain(8189, A), A), size=32768)
query(0, '8,190 terms within each other on the right', eq(A, chain(8189, A)), size=32768)
query(0, '8,190 terms within each other in an atom, the innermost a variable', atom(5, chain(8189, V0)), size=32766)
query(13, 'the same, the innermost of kind 03', atom(5, chain(8189, hexa('03 00 00'))), size=32766)
query(13, 'the same, the innermost missing', atom(5, chain(8189, b'')), size=32763)
query(0, '4,000 symbols of arity 2, each the first argument of the one around it', atom(5, sym(6, arity=2) * 4000 + A * 4001))
query(0, '4,000 symbols of arity 2, each the second argument of the one around it', atom(5, (sym(6, arity=2) + A) * 4000 + A))
query(0, '660 symbols of arity 16, each the first argument of the one around it', atom(5, sym(6, arity=16) * 660 + V0 * 9901))
query(13, 'the same, with one argument too few', atom(5, sym(6, arity=16) * 660 + V0 * 9900))
# n conjunctions and n + 1 goals that are no conjunctions: 2 * 16,382 + 1 bytes.
query(0, '16,382 conjunctions, each the first half of the one around it', leftward(0x13, 16382, TRUE), size=32768)
query(0, '16,382 conjunctions, each the second half of the one around it', rightward(0x13, 16382, TRUE), size=32768)
query(0, '16,382 disjunctions, each the first half of the one around it', leftward(0x14, 16382, FAIL), size=32768)
query(0, '16,382 disjunctions, each the second half of the one around it', rightward(0x14, 16382, FAIL), size=32768)
query(13, '16,382 conjunctions to the left, the last goal missing', leftward(0x13, 16382, b''), size=32767)
query(13, '16,382 conjunctions to the right, the last goal a bare kind 12', rightward(0x13, 16382, b'\x12'), size=32768)
an_event(0, '4,000 deep in the goal, in both halves of an ancestor and in BY',
         event(2, leftward(0x13, 4000, TRUE), [in_conj(1, rightward(0x13, 4000, P), leftward(0x14, 4000, FAIL))], [by(rightward(0x14, 4000, P))]))
pairs(0, '8,180 symbols down to a free variable', (0, chain(8180, V9)))
pairs(14, '8,180 symbols down to the bound variable', (0, chain(8180, V0)))
body(0, '8,180 symbols down to the last local', 0, 1, atom(6, chain(8180, V0)))
body(4, '8,180 symbols down to a variable over the limit', 0, 1, atom(6, chain(8180, V1)))
body(0, '16,000 conjunctions in a body', 0, 0, leftward(0x13, 16000, TRUE))
one_clause(0, '8,180 symbols in the head, down to the one variable', 1, [chain(8180, V0)], TRUE)
one_clause(4, '8,180 symbols in the head, down to V1 with v 1', 1, [chain(8180, V1)], TRUE)

heading('size')
# 9 bytes stand before the pairs; 6,550 pairs of 5 bytes and one of 6 take the other 32,756.
many = [(v, var(65535)) for v in range(6550)]
pairs(0, '6,551 pairs, 32,768 bytes', *many, (6550, A), size=32768)
pairs(14, 'the last of 6,551 pairs binds the variable of the one before it', *many, (6549, A), size=32768)
pairs(14, 'the last of 6,551 pairs has the variable of the first for its term', *many, (6550, V0), size=32767)
pairs(14, 'the last of 6,551 pairs has its own variable for its term', *many, (6550, var(6550)), size=32767)
pairs(14, 'the first of 6,551 pairs has the variable of the last for its term', (0, var(6550)), *many[1:], (6550, A), size=32768)
# 6 bytes stand before the bets; OR has 2, a unifier of no pairs 3.
bets(0, '16,379 bets, 32,768 bytes', *[chosen(1)] * 16378, unifier(), size=32768)
bets(11, '16,379 bets, 32,769 bytes', *[chosen(1)] * 16377, unifier(), unifier(), size=32769)
bets(0, '4,000 bets of all kinds', *[chosen(2), unifier(), by(TRUE), unifier((0, A))] * 1000)
bets(14, '4,000 bets, the last of them V0 to V0', *[chosen(2)] * 3999, unifier((0, V0)))
bets(13, '4,000 bets, the last of them OR with tag 0', *[chosen(2)] * 3999, chosen(0))
ancestors(0, '8,189 ancestors', *[P] * 8189)
# 2 bytes stand before the definitions or clauses; true makes one of 5 bytes, an atom of arity 0 one of 8.
facts = [definition(p, 0, 0, TRUE) for p in range(6551)]
program(0, '6,552 definitions, 32,768 bytes', *facts, definition(6551, 0, 0, P), size=32768)
program(1, '6,552 definitions, 32,769 bytes', *facts, definition(6551, 0, 0, rightward(0x13, 2, TRUE)), size=32769)
program(4, 'the last of 6,552 definitions equal to the one before it', *facts, definition(6550, 0, 0, P), size=32768)
fact = clause(5, 0, [], TRUE)
clauses(0, '6,552 clauses, 32,768 bytes', *[fact] * 6551, clause(5, 0, [], P), size=32768)
clauses(1, '6,552 clauses, 32,769 bytes', *[fact] * 6551, clause(5, 0, [A], TRUE), size=32769)
clauses(4, 'the last of 6,552 clauses with v 1 and no variable', *[fact] * 6551, clause(5, 1, [], P), size=32768)
query(11, '32,769 bytes', leftward(0x13, 16381, P), size=32769)
case('q', 11, 'a record of 32,768 bytes and a byte more', record(leftward(0x13, 16382, TRUE)) + b'\x00', size=32769)
query(11, '40,000 bytes', rightward(0x13, 19998, TRUE), size=40000)
