"""Question 3 of goals and terms. A query has no question 4."""
from record_cases.table import *

heading('goal')
query(0, 'true', TRUE)
query(0, 'fail', FAIL)
query(0, 'an equality of a variable and itself', eq(V0, V0))
query(0, 'a conjunction', conj(TRUE, FAIL))
query(0, 'a disjunction', disj(FAIL, TRUE))
query(0, 'an atom of arity 0', P)
query(0, 'an atom with a variable and a symbol', atom(5, V0, sym(6, V0, A)))
query(0, 'predicate, symbol and variable 65,535', atom(65535, sym(65535, var(65535))))
query(0, 'predicate, symbol and variable 0', atom(0, sym(0, V0)))
query(0, 'variables in any order and with gaps: no question 4', conj(eq(V9, V1), atom(5, var(300), V1)))
for data, what in (('00', 'kind 00'), ('01 00 00', 'a variable'), ('02 00 02 00', 'a constant'), ('03 00 00', 'kind 03'), ('0F', 'kind 0F'),
                   ('16 00 05 00', 'kind 16'), ('1F', 'kind 1F'), ('20 00 00', 'a unifier'), ('21 01', 'OR'), ('22 10', 'BY'),
                   ('23 10', 'kind 23'), ('2F 01 10 10', 'kind 2F'), ('30 01 10 10', 'an ancestor of kind 30'),
                   ('31 01 10 10', 'an ancestor of kind 31'), ('32 01 10 10', 'kind 32'), ('FF', 'kind FF')):
    query(13, what + ' for a goal', hexa(data))
query(13, 'a variable for the first half of a conjunction', conj(V0, TRUE))
query(13, 'a constant for the second half of a conjunction', conj(TRUE, A))
query(13, 'kind 0F for the first half of a disjunction', disj(hexa('0F'), TRUE))
query(13, 'kind 16 for the second half of a disjunction', disj(TRUE, hexa('16 00 05 00')))
query(13, 'a conjunction with one half', conj(TRUE, b''))
query(13, 'a disjunction with one half', disj(TRUE, b''))
query(13, 'a conjunction and a goal more', conj(TRUE, TRUE) + TRUE)
query(13, 'true and a byte 00 more', TRUE + b'\x00')
query(13, 'true and fail, not joined', TRUE + FAIL)
query(13, 'an equality with three terms', eq(V0, V1) + V2)
for n in range(1, 8):
    query(13, f'the first {n} of the 8 bytes of V0 = a', eq(V0, A)[:n])
query(13, 'V0 = a and a byte more', eq(V0, A) + b'\x00')

heading('term')
NO_TERMS = (('00 00 00', 'kind 00'), ('03 00 00', 'kind 03 over three bytes'), ('03 00 00 00', 'kind 03 over four bytes'), ('10', 'true'),
            ('11', 'fail'), ('12 01 00 00 01 00 00', 'an equality'), ('13 10 10', 'a conjunction'), ('14 10 10', 'a disjunction'),
            ('15 00 05 00', 'an atom'), ('20 00 00', 'a unifier'), ('30 01 10 10', 'an ancestor'), ('FF 00 00', 'kind FF'))
for data, what in NO_TERMS:
    equality(13, what + ' for the left term', hexa(data), V0)
    equality(13, what + ' for the right term', V0, hexa(data))
equality(13, 'true for an argument of a symbol', sym(6, V0, TRUE), A)
equality(13, 'an atom for an argument of a symbol', sym(6, P), A)
equality(13, 'kind 03 for an argument of a symbol', sym(6, hexa('03 00 00')), A)
query(13, 'true for an argument of an atom', atom(5, TRUE))
query(13, 'kind 00 for the last argument of an atom', atom(5, V0, hexa('00 00 00')))
equality(13, 'a variable number of one byte', V0, hexa('01 00'))
equality(0, 'a symbol of arity 16', sym(6, *[V0] * 16), A)
equality(13, 'a symbol of arity 17, with 17 terms', sym(6, *[V0] * 17), A)
equality(13, 'a symbol of arity 255, with 255 terms', sym(6, *[V0] * 255), A)
equality(0, 'arity 16 within arity 16', sym(6, *[sym(7, *[A] * 16)] * 16), A)
equality(13, 'arity 17 within the last argument of arity 16', sym(6, *[A] * 15, sym(7, *[A] * 17)), A)
equality(13, 'a symbol with an arity one too low', sym(6, V0, V1, arity=1), A)
equality(13, 'a symbol with an arity one too high', sym(6, V0, arity=2), A)
query(0, 'an atom of arity 16', atom(5, *[V0] * 16))
query(13, 'an atom of arity 17, with 17 terms', atom(5, *[V0] * 17))
query(13, 'an atom with an arity one too low', atom(5, V0, V1, arity=1))
query(13, 'an atom with an arity one too high', atom(5, V0, arity=2))
query(13, 'an atom with an arity one too low, before another goal', conj(atom(5, V0, V1, arity=1), TRUE))
query(13, 'an atom without its arity', hexa('15 00 05'))
