"""Texts that nest deep or go on long: brackets, which leave no byte in the record, terms, goals in brackets on either side, conjuncts and clauses."""
from reader_cases.table import *

ONE_GOAL = (0, listed_names('a b'), record(listed([body(atom(1))])))


def nested(before, opening, n, inner, closing, behind='.', fewer=0):
    """n times the opening, then the inner part and the closing, so many times fewer"""
    return [before, (opening, n), inner, (closing, n - fewer), behind]


heading('brackets')
for n in 1000, 32000, 32764, 32765:
    rules(f'{n:,}', nested('a:-', '(', n, 'b', ')'), want=ONE_GOAL)
    no(21, nested('a:-', '(', n, 'b', ')', fewer=1), words=f'{n:,}, one of them not closed')
for n in 1000, 32000, 32764:
    no(21, nested('a:-', '(', n, 'b', ')', ').'), words=f'{n:,}, and one closed more')
no(21, nested('a:-', '(', 32764, 'B', ')'), words='32,764 around a variable')
no(21, nested('a:-', '(', 32764, '', ')'), words='32,764 around nothing')
no(22, nested('a:-', '(', 32766, 'b', ')'), words='32,766')
no(22, nested('a:-', '(', 60000, 'b', ')'), words='60,000')
no(21, nested('a:-', '(', 60000, 'b', ')', fewer=1), words='60,000, one of them not closed')
no(21, ['a:-', ('(', 65532)], words='65,532 that nothing closes')
no(21, [(')', 65535)], words='65,535 closing ones')
rules('16,000 twice', nested('a:-', '(', 16000, 'b', ')', ',') + nested('', '(', 16000, 'b', ')'), want=0)
rules('16,000 in each of two clauses', nested('a:-', '(', 16000, 'b', ')') + nested('a:-', '(', 16000, 'b', ')'), want=0)
no(21, nested('a:-', '(', 10000, 'b', ')', fewer=1) + nested('a:-', '(', 10000, 'b', '))', fewer=5000),
   words='not closed in one clause, closed too often in the next')
rules('21,000 around an equality', nested('a:-', '(', 21000, 'X=b', ')'), want=(0, listed_names('a b'), record(listed([body(eq(V0, sym(1)), v=1)]))))
rules('21,000 around true', nested('a:-', '(', 21000, 'true', ')'), want=(0, listed_names('a'), record(listed([body(TRUE)]))))

heading('goals in brackets')
for words, opening, closing in (('on the right, conjunctions', '(b,', ')'), ('on the right, disjunctions', '(b;', ')'), ('on the left, conjunctions', '(', ',b)'),
                                ('on the left, disjunctions', '(', ';b)'), ('on both sides, in turns', '(b;(b,', ';b),b)')):
    atoms = (opening + closing).count('b')
    rules(f'{words}, 6,000 atoms', nested('a:-', opening, 6000 // atoms, 'b', closing), want=0)
    no(10, nested('a:-', opening, 12000 // atoms, 'b', closing), words=f'{words}, 12,000 atoms')
    no(21, nested('a:-', opening, 12000 // atoms, 'b', closing, fewer=1), words=f'{words}, 12,000 atoms, one bracket not closed')
rules('on the left, 200 conjunctions', nested('a:-', '(', 200, 'b', ',b)'),
      want=(0, listed_names('a b'), record(listed([body(b'\x13' * 200 + atom(1) * 201)]))))
rules('on the left, 200 disjunctions', nested('a:-', '(', 200, 'b', ';b)'),
      want=(0, listed_names('a b'), record(listed([body(b'\x14' * 200 + atom(1) * 201)]))))
rules('on the right, 200 disjunctions', nested('a:-', '(b;', 200, 'b', ')'),
      want=(0, listed_names('a b'), record(listed([body((b'\x14' + atom(1)) * 200 + atom(1))]))))

heading('terms')
no(10, nested('', 'f(', 21844, 'a', ')'), words='a head of 21,844')
no(21, nested('', 'f(', 21844, 'a', ')', fewer=1), words='a head of 21,844, one bracket not closed')
no(21, nested('', 'f(', 21844, 'a', ')', ').'), words='a head of 21,844, and one closed more')
no(10, nested('a:-', 'f(', 21843, 'a', ')'), words='an atom of 21,843')
no(10, nested('a:-X=', 'f(', 21842, 'a', ')'), words='an equality of 21,842')
no(21, nested('a:-X=', 'f(', 21842, '', ')'), words='an equality of 21,842, and nothing within')
no(21, nested('a:-X=', 'f(', 21842, 'a', ')', fewer=2), words='an equality of 21,842, two brackets not closed')
no(22, nested('a:-X=', 'f(', 21843, 'a', ')'), words='an equality of 21,843')
no(22, nested('a:-X=', 'f(', 45000, 'a', ')'), words='an equality of 45,000')
no(21, nested('a:-X=', 'f(', 45000, 'a', ')', fewer=1), words='an equality of 45,000, one bracket not closed')
rules('a term of 8,000', nested('a:-X=', 'f(', 8000, 'X', ')'),
      want=(0, listed_names('a f'), record(listed([body(eq(V0, sym(1, arity=1) * 8000 + V0), v=1)]))))
rules('on both sides of =, 4,000', nested('a:-', 'f(', 4000, 'X', ')', '=') + nested('', 'g(', 4000, 'X', ')'),
      want=(0, listed_names('a f g'), record(listed([body(eq(sym(1, arity=1) * 4000 + V0, sym(2, arity=1) * 4000 + V0), v=1)]))))
rules('of two arguments, the second within, 3,000', nested('a(', 'f(b,', 3000, 'c', ')', ').'), want=0)
rules('of two arguments, the first within, 3,000', nested('a(', 'f(', 3000, 'b', ',c)', ').'), want=0)
no(3, nested('a:-X=', 'f(', 21000, f'g{arguments(17)}', ')'), words='17 arguments at 21,000')
no(3, ['a:-X=', ('f(', 21000), 'a', (')', 20999), (',b', 16), ').'], words='17 arguments of the outermost of 21,000')

heading('long texts')
for joined in ',', ';':
    no(10, ['a:-', (f'a{joined}', 32764), 'a.'], words=f'32,765 atoms, joined by {joined}')
    no(21, ['a:-', (f'a{joined}', 32765), '.'], words=f'32,765 atoms, joined by {joined}, and nothing behind the last')
    rules(f'10,000 times true, joined by {joined}', ['a:-', (f'true{joined}', 10000), 'fail.'], want=0)
no(10, [('a.', 32767)], words='32,767 facts')
no(21, [('a.', 32767), 'a'], words='32,767 facts and no full stop')
no(21, ['a', ('.', 65534)], words='65,534 full stops')
no(10, ['a:-', ('X=X,', 16000), 'a.'], words='16,000 equalities')
no(10, [('p(_).', 13107)], words='13,107 facts with a variable each')
rules('2,000 facts, each with a variable', [('p(_).', 2000)], want=(0, listed_names('p'), record(listed([clause(0, 1, [V0], TRUE)] * 2000))))
# 15 variables alike in their first 1,000 letters
ALIKE = [part for n in range(10, 25) for part in (('V', 1000), f'{n},')]
rules('15 variables that differ behind 1,000 letters, four times', ['a:-', *['p(', *ALIKE, 'x),'] * 4, 'b.'], want=0)
