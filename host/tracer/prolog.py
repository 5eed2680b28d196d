"""Trees as Prolog text, and the two Prolog programs run over many cases at once. Symbol n is sn, predicate n pn, variable n Vn."""
import pathlib, subprocess

from desk_model.trees import *

HERE = pathlib.Path(__file__).parent
BOXED = {Truth: 'true', Failure: 'fail', Equal: 'eq', Conj: 'and', Disj: 'or'}
PLAIN = {Truth: 'true', Failure: 'fail', Equal: '=', Conj: ',', Disj: ';'}


def applied(name, parts):
    return f'{name}({",".join(parts)})' if parts else name


def text(part, names, variable):
    """names: those of the kinds of goals; variable: a variable number to its text"""
    if isinstance(part, Var):
        return variable(part.number)
    name = f's{part.symbol}' if isinstance(part, Sym) else f'p{part.predicate}' if isinstance(part, Atom) else names[type(part)]
    return applied(name, [text(each, names, variable) for each in part.parts])


def named(v):
    return f'V{v}'


def boxed(part):
    return text(part, BOXED, named)


def plain(part):
    """=, comma and ; stand between their halves"""
    if isinstance(part, (Equal, Conj, Disj)):
        return f'({plain(part.parts[0])} {PLAIN[type(part)]} {plain(part.parts[1])})'
    return text(part, PLAIN, named)


def renamed(*parts, within=None):
    """the part, or the parts within a term of that name, as the Prolog programs print it: variables numbered from 0 as they occur"""
    met = {}
    texts = [text(each, BOXED, lambda v: f'$VAR({met.setdefault(v, len(met))})') for each in parts]
    return applied(within, texts) if within else texts[0]


def clause_text(clause):
    head = Atom(clause.predicate, clause.head)
    return f'({plain(head)} :- {plain(clause.body)})'


def head(definition):
    return Atom(definition.predicate, tuple(map(Var, range(definition.arity))))


def boxes_case(number, limit, goal, program):
    definitions = [f'definition({boxed(head(d))},{boxed(d.body)})' for d in program]
    return f'case({number},{limit},{boxed(goal)},[{",".join(definitions)}]).\n'


def own_case(number, answers, listing, ports, query, values):
    """the first answers of the query, one by one and as a list, and the first ports of its goal, which may go on with fail"""
    listed = [f'p{name}/{arity}' for name, arity in query.predicates()]
    return (f'case({number},{answers},{listing},{ports},{plain(query.asked)},{plain(query.goal)},{applied("values", list(map(boxed, values)))},'
            f'[{",".join(map(clause_text, query.clauses))}],[{",".join(listed)}]).\n')


def run(program, cases, seconds, *flags):
    """the lines of each case, by its number; the process is ended after that many seconds"""
    try:
        done = subprocess.run(['swipl', *flags, '-q', '-g', 'main', '-t', 'halt', HERE / program],
                              input=''.join(cases), capture_output=True, text=True, timeout=seconds)
    except subprocess.TimeoutExpired:
        raise SystemExit(f'{program} did not end within {seconds} seconds')
    if done.returncode or done.stderr:
        raise SystemExit(f'{program}: {done.stderr[:2000]}')
    found = {}
    for line in done.stdout.splitlines():
        if line.startswith('case '):
            lines = found[int(line[5:])] = []
        else:
            lines.append(line)
    return found
