"""Names, variables and numbers: which bytes start one and which follow, and that each is as long as it can be."""
from reader_cases.table import *


def constant(word, words=None):
    """the word as the one argument of a fact"""
    reads(f'p({word}).', f'p {word}', clause(0, 0, [sym(1)], TRUE), words=words)


def variable(word):
    reads(f'p({word}).', 'p', clause(0, 1, [V0], TRUE))


heading('names')
for letter in 'abmyz':
    constant(letter)
for word_read in 'aB', 'a1', 'a_', 'a_B1_', 'zZ9_', 'truer', 'true_', 'true1', 'fails', 'failX', 'tru', 'trueTrue':
    constant(word_read)
for letter in 'azAZ09_':
    reads(f'x{letter}.', f'x{letter}', body(TRUE))
reads('truer :- fails.', 'truer fails', body(atom(1)))
reads('a :- tru, fai.', 'a tru fai', body(conj(atom(1), atom(2))))

heading('numbers')
for digits in '0', '9', '10', '007', '65536', '4294967296', '0123456789':
    constant(digits)
for text in '7a', '7A', '7_', '7 7', '7.5':
    no(21, f'p({text}).')
reads('p(7).q(5).', 'p 7 q 5', clause(0, 0, [sym(1)], TRUE), clause(2, 0, [sym(3)], TRUE))

heading('variables')
for word_read in 'A', 'M', 'Z', 'Aa', 'A1', 'A_', 'Zz9_Z', '_a', '_A', '_1', '__', '___', '_':
    variable(word_read)
reads('p(A,Aa,a,aA).', 'p a aA', clause(0, 2, [V0, V1, sym(1), sym(2)], TRUE))
no(21, 'p(A a).')
no(21, 'p(_ A).')

heading('long words')
rules('a name of 65,534 letters', [('a', 65534), '.'], 65536, want=(0, word(65534) + b'a' * 65534, record(listed([body(TRUE)]))))
rules('a number of 65,531 digits', ['p(', ('7', 65531), ').'], 65536, want=(0, listed_names('p') + word(65531) + b'7' * 65531, record(listed([clause(0, 0, [sym(1)], TRUE)]))))
rules('a variable of 65,531 letters', ['p(', ('V', 65531), ').'], 3, want=(0, listed_names('p'), record(listed([clause(0, 1, [V0], TRUE)]))))
rules('two variables that differ in the last of 32,000 letters', ['p(', ('V', 31999), 'W,', ('V', 32000), ').'], 3,
      want=(0, listed_names('p'), record(listed([clause(0, 2, [V0, V1], TRUE)]))))
rules('two names that differ in the last of 32,000 letters', ['p', ('q', 31999), 'r.p', ('q', 32000), '.'], 64006,
      want=(0, word(32001) + b'p' + b'q' * 31999 + b'r' + word(32001) + b'p' + b'q' * 32000, record(listed([body(TRUE), body(TRUE, 1)]))))
rules('a name that is the front of the other', [('a', 300), '.', ('a', 299), '.', ('a', 300), '.'], 603,
      want=(0, word(300) + b'a' * 300 + word(299) + b'a' * 299, record(listed([body(TRUE), body(TRUE, 1), body(TRUE)]))))
