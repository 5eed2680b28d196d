"""Question 20, and the tokens of a text: names, variables, numbers and marks, with blanks between them."""
import re
from dataclasses import dataclass

from desk_model.gate import ask

ALLOWED = re.compile(rb'[A-Za-z0-9_:=;,().\t\n\r -]*')
BLANKS = re.compile(rb'[\t\n\r ]*')
# a name, a variable or a number has all the letters, digits and underscores that may follow; : and - are marks together alone
TOKEN = re.compile(rb'(?P<name>[a-z][A-Za-z0-9_]*)|(?P<variable>[A-Z_][A-Za-z0-9_]*)|(?P<number>[0-9]+)|(?P<mark>:-|[=;,().])')


@dataclass(frozen=True)
class Token:
    """kind: name, variable, number or mark; the places in the text are those of its first byte and behind its last"""
    kind: str
    word: bytes
    start: int
    end: int


# behind the last token of a text
END = Token('end', b'', -1, -1)


def bytes_asked(text):
    ask(20, ALLOWED.fullmatch(text))


def tokens(text):
    """all of a text; 21 where bytes make none"""
    found, at = [], BLANKS.match(text).end()
    while at < len(text):
        match = TOKEN.match(text, at)
        ask(21, match)
        found.append(Token(match.lastgroup, match[0], match.start(), match.end()))
        at = BLANKS.match(text, match.end()).end()
    return found
