"""Questions 1 to 4 of the clause record, and 5 of the output, each before those that follow it."""
from canonical_cases.table import *

GOOD = record(listed([clause(5, 1, [V0], TRUE)]))
MANY = record(listed([clause(5, 1, [V0], TRUE)] * 256))
LONG = record(listed([clause(5, 0, [A] * 16, TRUE)] * 226))

heading('1')
refused(1, 'no bytes', b'')
refused(1, 'two bytes', hexa('00 00'))
refused(1, 'a length field one too low', record(listed([]), length=2))
refused(1, 'a length field one too high', record(listed([]), length=4))
refused(1, 'a byte after the record', GOOD + b'\x00')
refused(1, '32,769 bytes', record(listed([clause(5, 0, [], rightward(0x13, 16378, P))])))
refused(1, '40,000 bytes', b'\x9c\x3e' + b'\x01' * 39998)

heading('2')
refused(2, 'version 0', record(listed([]), version=0))
refused(2, 'version 2', record(listed([clause(5, 0, [], TRUE)]), version=2))

heading('3')
refused(3, 'an empty body', record(b''))
refused(3, 'one clause, counted 2', record(listed([clause(5, 0, [], TRUE)], count=2)))
refused(3, 'arity 17', record(listed([clause(5, 0, [A] * 17, TRUE)])))
refused(3, 'v 65', record(listed([clause(5, 65, [], TRUE)])))
refused(3, 'a second clause without its goal', record(listed([clause(5, 0, [], TRUE), clause(5, 0, [A], b'')])))
refused(3, 'before 4', record(listed([clause(5, 1, [A], TRUE), clause(5, 0, [], b'\x16')])))

heading('4')
refused(4, 'v 1 and no variable', record(listed([clause(5, 1, [A], TRUE)])))
refused(4, 'v 0 and a variable', record(listed([clause(5, 0, [V0], TRUE)])))
refused(4, 'V1 missing in the last clause', record(listed([clause(5, 2, [V0, V1], TRUE), clause(5, 2, [V0, V0], TRUE)])))
refused(4, 'before 9', record(listed([clause(5, 1, [V0], TRUE)] * 256 + [clause(5, 1, [A], TRUE)])))

heading('5')
refused(5, 'a good record', GOOD, kind='s')
refused(5, 'no clauses', record(listed([])), kind='s')
refused(5, 'before 9', MANY, kind='s')
refused(5, 'before 10', LONG, kind='s')
refused(1, 'after 1', GOOD[:-1], kind='s')
refused(2, 'after 2', record(listed([]), version=0), kind='s')
refused(3, 'after 3', record(b''), kind='s')
refused(4, 'after 4', record(listed([clause(5, 1, [A], TRUE)])), kind='s')

heading('9 and 10')
refused(9, 'with a whole output', MANY)
refused(10, 'with a whole output', LONG)
