"""The 21 rules, to be held against SPECIFICATION 3 line by line.

A and B stand for any goal, P for an atom, T1 and T2 for terms, M for a unifier; U and S for the rest of the ancestors and of the bets.
A side that names no ancestor or no bet leaves that stack as it is. Behind the bars stands what else must hold, forward and back:

unifier     M is the unifier of S(T1) and S(T2)      body      B is P's body, numbered with P, U and S
no unifier  S(T1) and S(T2) have none                no body   P has no definition
question 8, question 9   the question is put, and the last 7 compares M or B
"""
import re
from dataclasses import dataclass

from desk_model.trees import *

TABLE = '''
Conjunction
 1  call A,B                  ->  call A      1/A,B on U
 2  exit A      1/A,B on U    ->  call B      2/A,B on U
 3  fail A      1/A,B on U    ->  fail A,B
 4  exit B      2/A,B on U    ->  exit A,B
 5  fail B      2/A,B on U    ->  redo A      1/A,B on U
 6  redo A,B                  ->  redo B      2/A,B on U
Disjunction
 7  call A;B                  ->  call A      1/A;B on U
 8  fail A      1/A;B on U    ->  call B      2/A;B on U
 9  fail B      2/A;B on U    ->  fail A;B
10  exit A      1/A;B on U    ->  exit A;B    OR 1 on S
11  exit B      2/A;B on U    ->  exit A;B    OR 2 on S
12  redo A;B    OR 1 on S     ->  redo A      1/A;B on U
12  redo A;B    OR 2 on S     ->  redo B      2/A;B on U
true
13  call true                 ->  exit true
14  redo true                 ->  fail true
fail
15  call fail                 ->  fail fail
Equality
16  call T1=T2                ->  exit T1=T2  M on S        | unifier    | question 8
16  call T1=T2                ->  fail T1=T2                | no unifier | no unifier
17  redo T1=T2  M on S        ->  fail T1=T2                |            | unifier
Atom
18  call P                    ->  call B      P on U        | body       | question 9
18  call P                    ->  fail P                    | no body    | no body
19  exit B      P on U        ->  exit P      BY B on S
20  fail B      P on U        ->  fail P                    |            | body
21  redo P      BY B on S     ->  redo B      P on U
'''


class Hole(Part):
    """a letter of the table, for any part of these classes"""

    def __init__(self, name, classes):
        self.name, self.classes = name, classes
        self.know([], 0, -1)


A, B, P, M = Hole('A', GOALS), Hole('B', GOALS), Hole('P', (Atom,)), Hole('M', (Unifier,))
T1, T2 = (Hole(name, (Var, Sym)) for name in ('T1', 'T2'))

PORTS = {'call': CALL, 'exit': EXIT, 'fail': FAIL, 'redo': REDO}
PARTS = {
    'A': A, 'B': B, 'P': P, 'M': M, 'true': Truth(), 'fail': Failure(), 'A,B': Conj(A, B), 'A;B': Disj(A, B), 'T1=T2': Equal(T1, T2),
    '1/A,B': Half(CONJUNCTION, 1, A, B), '2/A,B': Half(CONJUNCTION, 2, A, B),
    '1/A;B': Half(DISJUNCTION, 1, A, B), '2/A;B': Half(DISJUNCTION, 2, A, B),
    'OR 1': Or(1), 'OR 2': Or(2), 'BY B': By(B),
}


@dataclass(frozen=True)
class Side:
    """an event with holes; ancestor and bet are those on top, or None where the side names none"""
    port: int
    goal: Part
    ancestor: Part
    bet: Part


@dataclass(frozen=True)
class Rule:
    number: int
    left: Side
    right: Side
    forward: str
    back: str


def side(text):
    """such as 'exit A      1/A,B on U'"""
    event, *tops = re.split(r' {2,}', text.strip())
    port, goal = event.split(' ')
    on = {top[-1]: PARTS[top.removesuffix(' on U').removesuffix(' on S')] for top in tops}
    return Side(PORTS[port], PARTS[goal], on.get('U'), on.get('S'))


def rule(line):
    sides, forward, back = (line + '||').split('|')[:3]
    left, right = sides.split('->')
    number, left = left.split(None, 1)
    return Rule(int(number), side(left), side(right), forward.strip(), back.strip())


RULES = [rule(line) for line in TABLE.splitlines() if '->' in line]
