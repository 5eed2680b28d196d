"""The heads of functions in Rattle: all that stands before their code."""
import re

# the first line of a function; its head ends where its code opens
HEAD = re.compile(r'^(?:pub )?(?:extern "C" )?fn (?=\w)')


def heads(source):
    """each function's name, what it takes and gives, and its contract, blanks as one"""
    head = None
    for line in source.read_text().splitlines():
        if HEAD.match(line):
            head = [HEAD.sub('', line)]
        elif head is not None:
            head.append(line)
        if head is not None and line.endswith('{'):
            yield ' '.join(' '.join(head).removesuffix('{').split())
            head = None
