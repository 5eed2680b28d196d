"""What is refused before the walk: 1 to 4 of the program, 11 to 13 of the query, 5, and 10 of the first event of 'Q, fail', in this order."""
from answers_cases.table import *

# each breaks one question
BAD_PROGRAMS = {
    1: hexa('00 04 01 00 00'),
    2: hexa('00 03 02 00 00'),
    3: hexa('00 03 01 00 01'),
    4: program(definition(5, 0, 0, eq(V0, A))),
}
BAD_QUERIES = {
    11: hexa('00 03 01 10'),
    12: hexa('00 02 00 10'),
    13: hexa('00 02 01 20'),
}
Q = record(P_OF_V)
GOOD = program(LIT)
# queries of 32,761 and of 32,762 bytes; the first event of 'Q, fail' has 7 more
FITS, TOO_LONG = record(rightward(0x13, 16377, P)), record(rightward(0x13, 16379, TRUE))
assert (len(FITS), len(TOO_LONG)) == (32761, 32762)


def refused(words, program_record, query_record, question, steps=MOST, room=ROOM):
    asked(words, program_record, query_record, steps, room, want=(question, 0, []))


heading('refused records')
for question, bad in BAD_PROGRAMS.items():
    refused(f'program, {question}', bad, Q, question)
    refused(f'program, {question}, no steps', bad, Q, question, steps=0)
for question, bad in BAD_QUERIES.items():
    refused(f'query, {question}', GOOD, bad, question)
    refused(f'query, {question}, no steps', GOOD, bad, question, steps=0)
refused('program, 1: no bytes', b'', Q, 1)
refused('program, 1: 32,769 bytes', program(definition(5, 0, 0, leftward(0x13, 16378, P))), Q, 1)
refused('query, 11: no bytes', GOOD, b'', 11)
refused('query, 11: two bytes', GOOD, b'\0\0', 11)
refused('query, 11: 32,769 bytes', GOOD, record(rightward(0x13, 16381, P)), 11)
refused('query, 13: an event', GOOD, record(event(1, TRUE)), 13)
refused('query, 13: a goal and a byte more', GOOD, hexa('00 03 01 10 10'), 13)
refused('program, 4: two definitions that fall', program(definition(6, 0, 0, TRUE), definition(5, 0, 0, TRUE)), Q, 4)

heading('question 5')
for room, wanted in (0, 5), (1, 5), (32767, 5), (32768, 6), (32769, 6), (65536, 6):
    asked(f'output {room:,}', GOOD, Q, room=room, want=wanted)
refused('output 32,767, no steps', GOOD, Q, 5, steps=0, room=32767)
asked('output 32,768, no steps', GOOD, Q, steps=0, want=(0, 0, []))

heading('question 10 of the first event')
asked('query of 32,761 bytes, no steps', GOOD, FITS, steps=0, want=(0, 0, []))
asked('query of 32,761 bytes, one step: its event does not fit', GOOD, FITS, steps=1, want=(10, 0, []))
refused('query of 32,762 bytes, no steps', GOOD, TOO_LONG, 10, steps=0)
refused('query of 32,762 bytes, one step', GOOD, TOO_LONG, 10, steps=1)
refused('query of 32,768 bytes', GOOD, record(leftward(0x14, 16382, TRUE)), 10)
refused('query of 32,762 bytes, output 70,000', GOOD, TOO_LONG, 10, room=MOST_ROOM)

heading('order of the questions')
refused('program 4, query 11', BAD_PROGRAMS[4], BAD_QUERIES[11], 4)
refused('program 1, query 13, output 0', BAD_PROGRAMS[1], BAD_QUERIES[13], 1, room=0)
refused('program 3, output 32,767', BAD_PROGRAMS[3], Q, 3, room=32767)
refused('query 13, output 32,767', GOOD, BAD_QUERIES[13], 13, room=32767)
refused('query 11, output 0', GOOD, BAD_QUERIES[11], 11, room=0)
refused('query of 32,762 bytes, output 32,767: 5 before 10', GOOD, TOO_LONG, 5, room=32767)
refused('program 4, query of 32,762 bytes', BAD_PROGRAMS[4], TOO_LONG, 4)
