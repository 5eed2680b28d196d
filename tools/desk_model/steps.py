"""One step forward and one step back on trees, with questions 6 to 10 in their order and the last 7."""
from desk_model.body import body
from desk_model.gate import Refused, ask, record_fits
from desk_model.matching import made, matched
from desk_model.rules import RULES
from desk_model.substitution import value
from desk_model.trees import *
from desk_model.unifier import unifier


def call_unifier(found):
    """of S(T1) and S(T2), S being the call's; puts question 8"""
    return unifier(value(found['S'], found['T1']), value(found['S'], found['T2']))


def call_body(program, found):
    """of P as at its call; puts question 9"""
    return body(program, found['P'], found['U'], found['S'])


def holds(condition, program, found):
    """adds M or B to found where the condition says what it is"""
    if condition == 'question 8':
        call_unifier(found)
    elif condition == 'question 9':
        call_body(program, found)
    elif condition == 'unifier':
        found['M'] = call_unifier(found)
        return found['M'] is not None
    elif condition == 'no unifier':
        return call_unifier(found) is None
    elif condition == 'body':
        found['B'] = call_body(program, found)
        return found['B'] is not None
    elif condition == 'no body':
        return call_body(program, found) is None
    return True


def only(made_by):
    """the rules are a function in either direction"""
    (result,) = made_by
    return result


def fitting(condition, event):
    """question 10, not asked where an equality without a unifier is called (SPECIFICATION 7.6)"""
    if condition != 'no unifier':
        record_fits(event.length)
    return event


def step_forward(program, event):
    ask(6, event.port not in (EXIT, FAIL) or event.ancestors != EMPTY)
    lines = [(rule, matched(rule.left, event)) for rule in RULES]
    lines = [(rule, found) for rule, found in lines if found]
    ask(7, lines)
    rule, found = only([line for line in lines if holds(line[0].forward, program, line[1])])
    return fitting(rule.forward, made(rule.right, found))


def step_back(program, event):
    ask(6, event.port != CALL or event.ancestors != EMPTY or event.bets != EMPTY)
    lines = [(rule, matched(rule.right, event)) for rule in RULES]
    lines = [(rule, found) for rule, found in lines if found]
    ask(7, lines)
    rule, found = only([line for line in lines if holds(line[0].back, program, line[1])])
    candidate = fitting(rule.back, made(rule.left, found))
    ask(7, steps_to(program, candidate, event))
    return candidate


def steps_to(program, candidate, event):
    """a candidate whose own step is refused steps to no event"""
    try:
        return step_forward(program, candidate) == event
    except Refused:
        return False
