"""Every rule in both directions, with every byte worked out by hand. Each event has the ancestor q and the bet OR 2 at the bottom, which stay."""
from step_cases.table import *

U, S = ' 15 00 09 00 ', ' 21 02'  # the atom q and OR 2: the rest of the stacks
# p is predicate 7 with one argument; its body V0=V1 has one local
DEFINED = hexa('00 0E 01 00 01 00 07 01 01 12 01 00 00 01 00 01')
V_IS_A, A_IS_B = ' 12 01 00 00 02 00 02 00 ', ' 12 02 00 02 00 02 00 03 00 '
PV = ' 15 00 07 01 01 00 03 '  # p(V3)
NUMBERED = ' 12 01 00 03 01 00 04 '  # its body at a call where 3 is the greatest variable: V3=V4


def rule(number, words, left, right, program_record=DEFINED):
    heading(f'rule {number}')
    there_and_back(words, program_record, body(left), body(right))


# the halves are true (10) and fail (11)
PLAIN = f' 00 01 {U} 00 01 {S}'
rule(1, 'call A,B to call A, 1/A,B on U', f'01 13 10 11 {PLAIN}', f'01 10  00 02 30 01 10 11 {U} 00 01 {S}')
rule(2, 'exit A under 1 to call B under 2', f'02 10  00 02 30 01 10 11 {U} 00 01 {S}', f'01 11  00 02 30 02 10 11 {U} 00 01 {S}')
rule(3, 'fail A under 1 to fail A,B', f'03 10  00 02 30 01 10 11 {U} 00 01 {S}', f'03 13 10 11 {PLAIN}')
rule(4, 'exit B under 2 to exit A,B', f'02 11  00 02 30 02 10 11 {U} 00 01 {S}', f'02 13 10 11 {PLAIN}')
rule(5, 'fail B under 2 to redo A under 1', f'03 11  00 02 30 02 10 11 {U} 00 01 {S}', f'04 10  00 02 30 01 10 11 {U} 00 01 {S}')
rule(6, 'redo A,B to redo B, 2/A,B on U', f'04 13 10 11 {PLAIN}', f'04 11  00 02 30 02 10 11 {U} 00 01 {S}')
rule(7, 'call A;B to call A, 1/A;B on U', f'01 14 10 11 {PLAIN}', f'01 10  00 02 31 01 10 11 {U} 00 01 {S}')
rule(8, 'fail A under 1 to call B under 2', f'03 10  00 02 31 01 10 11 {U} 00 01 {S}', f'01 11  00 02 31 02 10 11 {U} 00 01 {S}')
rule(9, 'fail B under 2 to fail A;B', f'03 11  00 02 31 02 10 11 {U} 00 01 {S}', f'03 14 10 11 {PLAIN}')
rule(10, 'exit A under 1 to exit A;B, OR 1 on S', f'02 10  00 02 31 01 10 11 {U} 00 01 {S}', f'02 14 10 11  00 01 {U} 00 02 21 01 {S}')
rule(11, 'exit B under 2 to exit A;B, OR 2 on S', f'02 11  00 02 31 02 10 11 {U} 00 01 {S}', f'02 14 10 11  00 01 {U} 00 02 21 02 {S}')
rule(12, 'redo A;B with OR 1 to redo A, 1/A;B on U', f'04 14 10 11  00 01 {U} 00 02 21 01 {S}', f'04 10  00 02 31 01 10 11 {U} 00 01 {S}')
rule(12, 'redo A;B with OR 2 to redo B, 2/A;B on U', f'04 14 10 11  00 01 {U} 00 02 21 02 {S}', f'04 11  00 02 31 02 10 11 {U} 00 01 {S}')
rule(13, 'call true to exit true', f'01 10 {PLAIN}', f'02 10 {PLAIN}')
rule(14, 'redo true to fail true', f'04 10 {PLAIN}', f'03 10 {PLAIN}')
rule(15, 'call fail to fail fail', f'01 11 {PLAIN}', f'03 11 {PLAIN}')
rule(16, 'call V0=a to exit, V0/a on S', f'01 {V_IS_A} {PLAIN}', f'02 {V_IS_A} 00 01 {U} 00 02 20 00 01 00 00 02 00 02 00 {S}')
rule(16, 'call a=b to fail', f'01 {A_IS_B} {PLAIN}', f'03 {A_IS_B} {PLAIN}')
rule(17, 'redo V0=a with V0/a to fail, that bet gone', f'04 {V_IS_A} 00 01 {U} 00 02 20 00 01 00 00 02 00 02 00 {S}', f'03 {V_IS_A} {PLAIN}')
rule(18, 'call P to call of the body, P on U', f'01 {PV} {PLAIN}', f'01 {NUMBERED} 00 02 {PV} {U} 00 01 {S}')
rule(18, 'call P to fail P, there being no definition', f'01 {PV} {PLAIN}', f'03 {PV} {PLAIN}', NO_DEFINITIONS)
rule(19, 'exit B under P to exit P, BY B on S', f'02 {NUMBERED} 00 02 {PV} {U} 00 01 {S}', f'02 {PV} 00 01 {U} 00 02 22 {NUMBERED} {S}')
rule(20, 'fail B under P to fail P', f'03 {NUMBERED} 00 02 {PV} {U} 00 01 {S}', f'03 {PV} {PLAIN}')
rule(21, 'redo P with BY B to redo B, P on U', f'04 {PV} 00 01 {U} 00 02 22 {NUMBERED} {S}', f'04 {NUMBERED} 00 02 {PV} {U} 00 01 {S}')
