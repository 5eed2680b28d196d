"""Every token at every place of the grammar. At a place one knows which tokens may come next, by hand; the rest of the text is right in either case."""
from reader_cases.table import *

# each token, and what else it takes to go on as at the place before it
TOKENS = {
    'a name': 'b', 'a name and its bracket': 'b(c)', 'a variable': 'V', 'a number': '7', '(': '(b)', ')': ')', ',': ',b', ';': ';b', '=': '=b', ':-': ':-b',
    '.': '.b', 'the end': None,
}
TERM = {'a name', 'a name and its bracket', 'a variable', 'a number'}
GOAL = TERM | {'('}
JOINED = {',', ';'}

# words, the text before, what closes it, and what may come; where a goal starts, a variable or a number is a left side
PLACES = [
    ('where a clause starts', '', '.', {'a name', 'a name and its bracket', 'the end'}),
    ('behind a clause', 'a.', '.', {'a name', 'a name and its bracket', 'the end'}),
    ('behind a head alone', 'a', '.', {':-', '.'}),
    ('behind a head with arguments', 'a(x)', '.', {':-', '.'}),
    ('where an argument of a head starts', 'a(', ').', TERM),
    ('behind an argument of a head', 'a(x', ').', {',', ')'}),
    ('behind a comma in a head', 'a(x,', ').', TERM),
    ('within an argument of a head', 'a(f(', ')).', TERM),
    ('behind an argument of an argument', 'a(f(x', ')).', {',', ')'}),
    ('where a body starts', 'a:-', '.', GOAL),
    ('behind an atom alone', 'a:-b', '.', JOINED | {'=', '.'}),
    ('behind an atom with arguments', 'a:-b(x)', '.', JOINED | {'=', '.'}),
    ('where an argument of an atom starts', 'a:-b(', ').', TERM),
    ('behind an argument of an atom', 'a:-b(x', ').', {',', ')'}),
    ('behind true', 'a:-true', '.', JOINED | {'=', '.'}),
    ('behind a variable', 'a:-V', '.', {'='}),
    ('behind a number', 'a:-7', '.', {'='}),
    ('behind =', 'a:-b=', '.', TERM),
    ('behind the right side', 'a:-b=c', '.', JOINED | {'.'}),
    ('behind a right side with arguments', 'a:-b=c(x)', '.', JOINED | {'.'}),
    ('where an argument of a right side starts', 'a:-b=c(', ').', TERM),
    ('behind a comma', 'a:-b,', '.', GOAL),
    ('behind a semicolon', 'a:-b;', '.', GOAL),
    ('behind an opening bracket', 'a:-(', ').', GOAL),
    ('behind an atom in brackets', 'a:-(b', ').', JOINED | {'=', ')'}),
    ('behind a variable in brackets', 'a:-(V', ').', {'='}),
    ('behind = in brackets', 'a:-(b=', ').', TERM),
    ('behind a right side in brackets', 'a:-(b=c', ').', JOINED | {')'}),
    ('behind a comma in brackets', 'a:-(b,', ').', GOAL),
    ('behind a semicolon in brackets', 'a:-(b;', ').', GOAL),
    ('behind brackets', 'a:-(b)', '.', JOINED | {'.'}),
    ('behind brackets in brackets', 'a:-((b)', ').', JOINED | {')'}),
]


def text_with(before, token, after, may):
    """behind the end nothing comes, and what a closing bracket closes is not closed again; a blank keeps the token apart"""
    if token == 'the end':
        return before
    rest = after.removeprefix(')') if token == ')' else after
    left_side = may == GOAL and token in ('a variable', 'a number')
    return f'{before} {TOKENS[token]}' + ('=b' if left_side else '') + rest


for place, before, after, may in PLACES:
    heading(place)
    for token in TOKENS:
        text = text_with(before, token, after, may)
        rules(f'{token}, {text!r}', text, want=0 if token in may else (21, None, None))
