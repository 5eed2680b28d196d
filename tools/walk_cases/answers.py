"""The line that the program walk_cases prints for a text."""
from stored.shown import checksum

SHOWN = 80


def shown(text):
    """the text, or its last line"""
    front = '' if len(text) <= SHOWN else '.. '
    lines = text.splitlines(keepends=True)
    return front + ''.join(lines if front == '' else lines[-1:]).replace('\n', '/')


def line(ordinal, text):
    return f'{ordinal} {len(text)} {text.count(chr(10))} {checksum(text.encode()):08x} {shown(text)}'
