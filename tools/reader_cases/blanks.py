"""Blanks between tokens and at either end, of each kind and many of them; none where they part what is one token, or a name and its bracket."""
from reader_cases.table import *

TOKENS = ['p(', 'X', ',', 'f(', '7', ')', ')', ':-', '(', 'q', ';', 'X', '=', 'r(', '_', ')', ')', ',', 'true', '.']
WANTED = clause(0, 2, [V0, sym(1, sym(2))], conj(disj(atom(3), eq(V0, sym(4, V1))), TRUE))
NAMES_THERE = 'p f 7 q r'
BLANKS = {'a tab': '\t', 'a line feed': '\n', 'a carriage return': '\r', 'a blank': ' '}

heading('none')
reads(''.join(TOKENS), NAMES_THERE, WANTED)
for words, blank in BLANKS.items():
    heading(words)
    for n in range(len(TOKENS) + 1):
        reads(''.join(TOKENS[:n]) + blank + ''.join(TOKENS[n:]), NAMES_THERE, WANTED, words=f'before token {n}' if n < len(TOKENS) else 'at the end')
    reads(blank + blank.join(TOKENS) + blank, NAMES_THERE, WANTED, words='everywhere')

heading('many')
reads('\t\n\r ' + ' \r\n\t'.join(TOKENS) + '  \n\n', NAMES_THERE, WANTED, words='everywhere, of all kinds')
for n in 0, 7, 12, 19, 20:
    rules(f'60,000 before token {n}', [''.join(TOKENS[:n]), (' \n', 30000), ''.join(TOKENS[n:])], want=(0, listed_names(NAMES_THERE), record(listed([WANTED]))))
rules('65,535 and nothing else', [(' ', 65535)], 0, want=(0, b'', record(listed([]))))

heading('within a token')
for text in 'p (X).', 'p\t(X).', 'p\n(X).', 'p\r(X).', 'p(f (X)).', 'a :- p (X).', 'a :- X = f (X).', 'a : - b.', 'a :\n- b.':
    no(21, text)
reads('p(a,a).', 'p a', clause(0, 0, [sym(1), sym(1)], TRUE))
for text in 'a b.', 'p(a b).', 'p(7 7).', 'p(X Y).', 'a :- tr ue b.', 'p(X y).':
    no(21, text)
