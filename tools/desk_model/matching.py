"""A side of a rule against an event: what its letters stand for, and the event they make."""
from dataclasses import fields

from desk_model.rules import Hole
from desk_model.trees import *


def matches(pattern, part, found):
    """adds to found what the letters stand for; a letter met twice stands for equal parts"""
    if isinstance(pattern, Hole):
        return isinstance(part, pattern.classes) and found.setdefault(pattern.name, part) == part
    if not isinstance(pattern, Part):
        return pattern == part
    return type(pattern) is type(part) and all(matches(getattr(pattern, f.name), getattr(part, f.name), found) for f in fields(pattern))


def taken_off(top, stack, rest, found):
    """the named top matches that of the stack; the letter rest stands for what is left"""
    if top is not None:
        if stack == EMPTY or not matches(top, stack.top, found):
            return False
        stack = stack.rest
    found[rest] = stack
    return True


def matched(side, event):
    """what the letters stand for, or None"""
    found = {}
    if (side.port == event.port and matches(side.goal, event.goal, found)
            and taken_off(side.ancestor, event.ancestors, 'U', found) and taken_off(side.bet, event.bets, 'S', found)):
        return found
    return None


def filled(pattern, found):
    if isinstance(pattern, Hole):
        return found[pattern.name]
    if not isinstance(pattern, Part):
        return pattern
    return type(pattern)(*(filled(getattr(pattern, f.name), found) for f in fields(pattern)))


def put_on(top, stack, found):
    return stack if top is None else Stack(filled(top, found), stack)


def made(side, found):
    return Event(side.port, filled(side.goal, found), put_on(side.ancestor, found['U'], found), put_on(side.bet, found['S'], found))
