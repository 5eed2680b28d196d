"""What is refused before the way back: 1 to 4 of the program, 11 to 14 of the event, then 5. Nothing is written, whatever the limit."""
from door_cases.table import *
from step_cases.refusals import BAD_EVENTS, BAD_PROGRAMS

CALLED, EXITED = at(CALL, TRUE), at(EXIT, TRUE)


def refused(words, program_record, event_record, question, limit=MOST, room=ROOM):
    asked(words, program_record, event_record, limit, room, want=(question, 0, None))


heading('refused records')
for question, bad in BAD_PROGRAMS.items():
    refused(f'program, {question}', bad, EXITED, question)
for question, bad in BAD_EVENTS.items():
    refused(f'event, {question}', NO_DEFINITIONS, bad, question)
refused('program, 1: no bytes', b'', EXITED, 1)
refused('event, 11: no bytes', NO_DEFINITIONS, b'', 11)
refused('event, 13: a query', NO_DEFINITIONS, record(TRUE), 13)
refused('program, 4, a call and limit 0', BAD_PROGRAMS[4], CALLED, 4, limit=0)
refused('event, 14, a call and limit 0', NO_DEFINITIONS, BAD_EVENTS[14], 14, limit=0)

heading('question 5')
for room in 0, 1, 32767:
    refused(f'output {room:,}', NO_DEFINITIONS, EXITED, 5, room=room)
for room in 32768, 32769, 40000:
    asked(f'output {room:,}', NO_DEFINITIONS, EXITED, room=room, want=(0, 1, CALLED))
refused('output 32,767, a call and limit 0', NO_DEFINITIONS, CALLED, 5, limit=0, room=32767)

heading('order of the questions')
refused('program 4, event 11', BAD_PROGRAMS[4], BAD_EVENTS[11], 4)
refused('program 1, event 14, output 0', BAD_PROGRAMS[1], BAD_EVENTS[14], 1, room=0)
refused('program 3, output 32,767', BAD_PROGRAMS[3], EXITED, 3, room=32767)
refused('event 14, output 32,767', NO_DEFINITIONS, BAD_EVENTS[14], 14, room=32767)
refused('5 before 7', NO_DEFINITIONS, at(REDO, TRUE), 5, room=32767)
refused('5 before 32', NO_DEFINITIONS, EXITED, 5, limit=0, room=32767)
