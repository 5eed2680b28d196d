"""Refused records by number in each service, and the order of the questions."""
from step_cases.table import *

CALL_TRUE_RECORD = at(CALL, TRUE)
# each breaks one question; those of a program and those of an event
BAD_PROGRAMS = {
    1: hexa('00 04 01 00 00'),
    2: hexa('00 03 02 00 00'),
    3: hexa('00 03 01 00 01'),
    4: program(definition(5, 0, 0, eq(V0, A))),
}
BAD_EVENTS = {
    11: hexa('00 08 01 01 10 00 00 00 00'),
    12: hexa('00 07 00 01 10 00 00 00 00'),
    13: hexa('00 07 01 05 10 00 00 00 00'),
    14: at(CALL, TRUE, bets=[unifier((0, V0))]),
}


def each_service(words, program_record, event_record, room, number, steps=1):
    """step and run, both ways, refused with one number"""
    forward(words, program_record, event_record, room, want=(number, None))
    back(words, program_record, event_record, room, want=(number, None))
    run_forward(words, program_record, event_record, steps, room, want=(number, 0, None))
    run_back(words, program_record, event_record, steps, room, want=(number, 0, None))


heading('refused records')
for refused, bad in BAD_PROGRAMS.items():
    each_service(f'program, {refused}', bad, CALL_TRUE_RECORD, ROOM, refused)
for refused, bad in BAD_EVENTS.items():
    each_service(f'event, {refused}', NO_DEFINITIONS, bad, ROOM, refused)
forward('an event of 32,769 bytes, 11', NO_DEFINITIONS, at(CALL, rightward(0x13, 16380, TRUE), size=32769), want=(11, None))
back('a program of 32,769 bytes, 1', program(definition(5, 0, 0, leftward(0x13, 16378, P))), at(EXIT, TRUE), want=(1, None))
query('query, 11', hexa('00 03 01 10'), want=(11, None))
query('query, 11: no bytes', b'', want=(11, None))
query('query, 12', hexa('00 02 07 10'), want=(12, None))
query('query, 13', hexa('00 02 01 20'), want=(13, None))
query('query, 13: a goal and a byte more', hexa('00 03 01 10 10'), want=(13, None))

heading('order of the questions')
each_service('program 4, event 11: the program is questioned first', BAD_PROGRAMS[4], BAD_EVENTS[11], ROOM, 4)
each_service('program 1, event 14, output 0', BAD_PROGRAMS[1], BAD_EVENTS[14], 0, 1)
each_service('event 14, output 32,767: the event before 5', NO_DEFINITIONS, BAD_EVENTS[14], 32767, 14)
query('query 13, output 0: the query before 5', hexa('00 02 01 20'), 0, want=(13, None))
forward('5 before 6', NO_DEFINITIONS, at(EXIT, TRUE), 32767, want=(5, None))
back('5 before 6', NO_DEFINITIONS, at(CALL, TRUE), 32767, want=(5, None))
forward('5 before 7', NO_DEFINITIONS, at(REDO, FAIL), 32767, want=(5, None))
back('5 before 7', NO_DEFINITIONS, at(REDO, TRUE), 32767, want=(5, None))
run_forward('5 before 6 in a run', NO_DEFINITIONS, at(EXIT, TRUE), 1, 32767, want=(5, 0, None))
run_forward('a run of no steps puts questions 1 to 4 too', BAD_PROGRAMS[3], CALL_TRUE_RECORD, 0, want=(3, 0, None))
run_back('a run of no steps puts questions 11 to 14 too', NO_DEFINITIONS, BAD_EVENTS[14], 0, want=(14, 0, None))

heading('6 against 7')
forward('exit without ancestors, with bets', NO_DEFINITIONS, at(EXIT, P, bets=[by(TRUE), chosen(1)]), want=(6, None))
forward('fail without ancestors', NO_DEFINITIONS, at(FAILS, disj(P, P)), want=(6, None))
forward('exit of fail without ancestors: no rule either', NO_DEFINITIONS, at(EXIT, FAIL), want=(6, None))
forward('exit with an ancestor that is another goal\'s', NO_DEFINITIONS, at(EXIT, TRUE, [in_conj(1, FAIL, TRUE)]), want=(7, None))
forward('redo of fail without ancestors', NO_DEFINITIONS, at(REDO, FAIL), want=(7, None))
forward('redo without ancestors is no end', NO_DEFINITIONS, at(REDO, conj(TRUE, P)), want=(0, at(REDO, P, [in_conj(2, TRUE, P)])))
back('call with both stacks empty', NO_DEFINITIONS, at(CALL, conj(P, P)), want=(6, None))
back('call with bets alone', NO_DEFINITIONS, at(CALL, TRUE, bets=[unifier()]), want=(7, None))
back('call with an ancestor that is another goal\'s', NO_DEFINITIONS, at(CALL, TRUE, [in_conj(1, FAIL, TRUE)]), want=(7, None))
back('redo with both stacks empty', NO_DEFINITIONS, at(REDO, P), want=(7, None))
back('exit with both stacks empty', NO_DEFINITIONS, at(EXIT, P), want=(7, None))
back('exit of true with both stacks empty', NO_DEFINITIONS, at(EXIT, TRUE), want=(0, at(CALL, TRUE)))
back('fail with both stacks empty', NO_DEFINITIONS, at(FAILS, FAIL), want=(0, at(CALL, FAIL)))
