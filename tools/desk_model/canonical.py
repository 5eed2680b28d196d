"""Clauses to canonical program."""
from desk_model import gate
from desk_model.gate import Refused, ask, record_fits
from desk_model.substitution import replaced
from desk_model.trees import *
from desk_model.writer import listed_record


def to_the_right(join, goals):
    *before, made = goals
    for goal in reversed(before):
        made = join(goal, made)
    return made


def branch(clause, numbered_from):
    """X1=T1, .., Xn=Tn, G with variable i become numbered_from + i"""
    renamed = {i: Var(numbered_from + i) for i in range(clause.count)}
    heads = [Equal(Var(i), replaced(t, renamed)) for i, t in enumerate(clause.head)]
    return to_the_right(Conj, [*heads, replaced(clause.body, renamed)])


def defined(predicate, arity, clauses):
    """the definition, given the predicate's own clauses"""
    branches, local_count = [], 0
    for clause in clauses:
        branches.append(branch(clause, arity + local_count))
        local_count += clause.count
    return Definition(predicate, arity, local_count, to_the_right(Disj, branches))


def canonical(clauses):
    keys = sorted({(c.predicate, len(c.head)) for c in clauses})
    return [defined(*key, [c for c in clauses if (c.predicate, len(c.head)) == key]) for key in keys]


def canonical_program(clause_record, room):
    try:
        clauses = gate.clauses(clause_record)
        gate.room_enough(room)
        program = canonical(clauses)
        ask(9, all(d.locals <= 255 for d in program))
        record_fits(2 + sum(d.length for d in program))
        return 0, listed_record(program)
    except Refused as no:
        return no.number, None
