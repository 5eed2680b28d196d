"""Texts in pieces, so that a long one takes few bytes where it is stored: a piece is a string, or a string and how often it stands there."""
from stored.files import field


def pieces(text):
    """bytes and how often, one behind the other"""
    parts = [text] if isinstance(text, str) else text
    return [(unit.encode('latin-1'), times) for unit, times in (part if isinstance(part, tuple) else (part, 1) for part in parts)]


def whole(text):
    return b''.join(unit * times for unit, times in pieces(text))


def number(n):
    return n.to_bytes(4, 'big')


def stored(text):
    """as it stands on standard input"""
    parts = pieces(text)
    return number(len(parts)) + b''.join(number(len(unit) * times) + field(unit) for unit, times in parts)
