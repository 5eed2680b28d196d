"""Trees to bytes, each part laid out by stored/layout.py."""
from desk_model.trees import *
from stored import layout

LAID_OUT = {
    Var: lambda t: layout.var(t.number),
    Sym: lambda t: layout.sym(t.symbol, *map(written, t.args)),
    Truth: lambda g: layout.TRUE,
    Failure: lambda g: layout.FAIL,
    Equal: lambda g: layout.eq(written(g.left), written(g.right)),
    Conj: lambda g: layout.conj(written(g.first), written(g.second)),
    Disj: lambda g: layout.disj(written(g.first), written(g.second)),
    Atom: lambda g: layout.atom(g.predicate, *map(written, g.args)),
    Half: lambda a: {CONJUNCTION: layout.in_conj, DISJUNCTION: layout.in_disj}[a.kind](a.tag, written(a.first), written(a.second)),
    Unifier: lambda b: layout.unifier(*[(p.variable, written(p.term)) for p in b.pairs]),
    Or: lambda b: layout.chosen(b.tag),
    By: lambda b: layout.by(written(b.goal)),
    Event: lambda e: layout.event(e.port, written(e.goal), list(map(written, e.ancestors)), list(map(written, e.bets))),
    Definition: lambda d: layout.definition(d.predicate, d.arity, d.locals, written(d.body)),
    Clause: lambda c: layout.clause(c.predicate, c.count, list(map(written, c.head)), written(c.body)),
}


def written(part):
    made = LAID_OUT[type(part)](part)
    assert len(made) == part.length, part
    return made


def record(part):
    """the record of a query's goal or of an event"""
    return layout.record(written(part))


def listed_record(parts):
    """the record of a program's definitions or of clauses"""
    return layout.record(layout.listed(list(map(written, parts))))
