"""The lines of the bench sheet (SPECIFICATION 11) that are steps, with every byte worked out by hand."""
from step_cases.table import *

heading('bench sheet')
QUERY = hexa('00 09 01 12 01 00 00 02 00 02 00')  # V0=a
FIRST = hexa('00 0E 01 01 12 01 00 00 02 00 02 00 00 00 00 00')  # call, no ancestors, no bets
NEXT = hexa('00 17 01 02 12 01 00 00 02 00 02 00 00 00 00 01 20 00 01 00 00 02 00 02 00')  # exit, one bet: V0/a
query('the query V0=a', QUERY, want=(0, FIRST))
there_and_back('its first event and the next', NO_DEFINITIONS, FIRST, NEXT)
forward('no step from exit without ancestors', NO_DEFINITIONS, NEXT, want=(6, None))
back('no step back from the first event', NO_DEFINITIONS, FIRST, want=(6, None))
walk('that query, two steps asked for', NO_DEFINITIONS, QUERY, 2,
     want=[('=', 0, FIRST), ('>', 0, NEXT), ('>', 6, None), ('<', 0, FIRST), ('<', 6, None)])

# p is predicate 5, V variable 0, a symbol 2, b symbol 3.
#   V=a  12 010000 02000200        V=b  12 010000 02000300        p(V)  15 0005 01 010000
#   the body V=a;V=b  14 12 010000 02000200 12 010000 02000300
#   the query p(V), V=b  13 15 0005 01 010000 12 010000 02000300
P_OF_V = hexa('00 18 01 00 01 00 05 01 00 14 12 01 00 00 02 00 02 00 12 01 00 00 02 00 03 00')
P_AND_B = hexa('00 11 01 13 15 00 05 01 01 00 00 12 01 00 00 02 00 03 00')
NINETEEN = [body(text) for text in (
    # 0 call p(V), V=b
    '01 13 15 0005 01 010000 12 010000 02000300  0000  0000',
    # 1 call p(V) under 1/p(V), V=b
    '01 15 0005 01 010000  0001 30 01 15 0005 01 010000 12 010000 02000300  0000',
    # 2 call V=a;V=b under p(V), 1/p(V), V=b
    '01 14 12 010000 02000200 12 010000 02000300  0002 15 0005 01 010000 30 01 15 0005 01 010000 12 010000 02000300  0000',
    # 3 call V=a under 1/V=a;V=b, p(V), 1/p(V), V=b
    '01 12 010000 02000200  0003 31 01 12 010000 02000200 12 010000 02000300 15 0005 01 010000 30 01 15 0005 01 010000 12 010000 02000300  0000',
    # 4 exit V=a, and the bet V/a
    '02 12 010000 02000200  0003 31 01 12 010000 02000200 12 010000 02000300 15 0005 01 010000 30 01 15 0005 01 010000 12 010000 02000300'
    '  0001 20 0001 0000 02000200',
    # 5 exit V=a;V=b, and the bet OR 1
    '02 14 12 010000 02000200 12 010000 02000300  0002 15 0005 01 010000 30 01 15 0005 01 010000 12 010000 02000300'
    '  0002 21 01 20 0001 0000 02000200',
    # 6 exit p(V), and the bet BY V=a;V=b
    '02 15 0005 01 010000  0001 30 01 15 0005 01 010000 12 010000 02000300'
    '  0003 22 14 12 010000 02000200 12 010000 02000300 21 01 20 0001 0000 02000200',
    # 7 call V=b under 2/p(V), V=b
    '01 12 010000 02000300  0001 30 02 15 0005 01 010000 12 010000 02000300'
    '  0003 22 14 12 010000 02000200 12 010000 02000300 21 01 20 0001 0000 02000200',
    # 8 fail V=b, for V is a
    '03 12 010000 02000300  0001 30 02 15 0005 01 010000 12 010000 02000300'
    '  0003 22 14 12 010000 02000200 12 010000 02000300 21 01 20 0001 0000 02000200',
    # 9 redo p(V) under 1/p(V), V=b
    '04 15 0005 01 010000  0001 30 01 15 0005 01 010000 12 010000 02000300'
    '  0003 22 14 12 010000 02000200 12 010000 02000300 21 01 20 0001 0000 02000200',
    # 10 redo V=a;V=b under p(V), 1/p(V), V=b, the bet BY gone
    '04 14 12 010000 02000200 12 010000 02000300  0002 15 0005 01 010000 30 01 15 0005 01 010000 12 010000 02000300'
    '  0002 21 01 20 0001 0000 02000200',
    # 11 redo V=a under 1/V=a;V=b, the bet OR gone
    '04 12 010000 02000200  0003 31 01 12 010000 02000200 12 010000 02000300 15 0005 01 010000 30 01 15 0005 01 010000 12 010000 02000300'
    '  0001 20 0001 0000 02000200',
    # 12 fail V=a, no bets
    '03 12 010000 02000200  0003 31 01 12 010000 02000200 12 010000 02000300 15 0005 01 010000 30 01 15 0005 01 010000 12 010000 02000300  0000',
    # 13 call V=b under 2/V=a;V=b
    '01 12 010000 02000300  0003 31 02 12 010000 02000200 12 010000 02000300 15 0005 01 010000 30 01 15 0005 01 010000 12 010000 02000300  0000',
    # 14 exit V=b, and the bet V/b
    '02 12 010000 02000300  0003 31 02 12 010000 02000200 12 010000 02000300 15 0005 01 010000 30 01 15 0005 01 010000 12 010000 02000300'
    '  0001 20 0001 0000 02000300',
    # 15 exit V=a;V=b, and the bet OR 2
    '02 14 12 010000 02000200 12 010000 02000300  0002 15 0005 01 010000 30 01 15 0005 01 010000 12 010000 02000300'
    '  0002 21 02 20 0001 0000 02000300',
    # 16 exit p(V), and the bet BY V=a;V=b
    '02 15 0005 01 010000  0001 30 01 15 0005 01 010000 12 010000 02000300'
    '  0003 22 14 12 010000 02000200 12 010000 02000300 21 02 20 0001 0000 02000300',
    # 17 call V=b under 2/p(V), V=b
    '01 12 010000 02000300  0001 30 02 15 0005 01 010000 12 010000 02000300'
    '  0003 22 14 12 010000 02000200 12 010000 02000300 21 02 20 0001 0000 02000300',
    # 18 exit V=b: b equals b under the empty unifier
    '02 12 010000 02000300  0001 30 02 15 0005 01 010000 12 010000 02000300'
    '  0004 20 0000 22 14 12 010000 02000200 12 010000 02000300 21 02 20 0001 0000 02000300',
    # 19 exit p(V), V=b
    '02 13 15 0005 01 010000 12 010000 02000300  0000'
    '  0004 20 0000 22 14 12 010000 02000200 12 010000 02000300 21 02 20 0001 0000 02000300',
)]
THERE = [('=', 0, NINETEEN[0])] + [('>', 0, e) for e in NINETEEN[1:]]
AND_BACK = [('<', 0, e) for e in NINETEEN[-2::-1]] + [('<', 6, None)]
walk('p(V), V=b forward 19 steps and back 19', P_OF_V, P_AND_B, 19, want=THERE + AND_BACK)
walk('p(V), V=b, 20 steps asked for: the 20th is refused', P_OF_V, P_AND_B, 20, want=THERE + [('>', 6, None)] + AND_BACK)
walk('p(V), V=b, back from the 8th event', P_OF_V, P_AND_B, 8, want=THERE[:9] + [('<', 0, e) for e in NINETEEN[7::-1]] + [('<', 6, None)])
walk('p(V), V=b without a step', P_OF_V, P_AND_B, 0, want=[THERE[0], ('<', 6, None)])

OCCURS = '12 01 00 00 02 00 06 01 01 00 00'  # V0=f(V0)
there_and_back('V0=f(V0) fails', NO_DEFINITIONS, body('01' + OCCURS + '00 00 00 00'), body('03' + OCCURS + '00 00 00 00'))
TWO_FREE = '12 01 00 03 01 00 07'  # V3=V7
there_and_back('V3=V7 binds 7 to 3', NO_DEFINITIONS, body('01' + TWO_FREE + '00 00 00 00'),
               body('02' + TWO_FREE + '00 00  00 01  20 00 01 00 07 01 00 03'))
SHARED = '12  02 00 06 02 01 00 00 01 00 00  02 00 06 02 01 00 01 02 00 02 00'  # f(V0,V0)=f(V1,a)
there_and_back('f(V0,V0)=f(V1,a) binds 0 and 1 to a', NO_DEFINITIONS, body('01' + SHARED + '00 00 00 00'),
               body('02' + SHARED + '00 00  00 01  20 00 02 00 00 02 00 02 00 00 01 02 00 02 00'))
there_and_back('an undefined atom goes call, fail', NO_DEFINITIONS, body('01 15 00 05 00 00 00 00 00'), body('03 15 00 05 00 00 00 00 00'))
REDO_TRUE = hexa('00 07 01 04 10 00 00 00 00')
forward('redo true with empty stacks', NO_DEFINITIONS, REDO_TRUE, want=(0, hexa('00 07 01 03 10 00 00 00 00')))
back('redo true with empty stacks', NO_DEFINITIONS, REDO_TRUE, want=(7, None))
