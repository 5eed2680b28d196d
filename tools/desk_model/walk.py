"""What the walk program prints for its standard input."""
from desk_model import gate
from desk_model.gate import Refused, ask, record_fits
from desk_model.steps import step_forward
from desk_model.trees import *

MOST_STEPS = 100000
WORDS = {CALL: 'call', EXIT: 'exit', FAIL: 'fail', REDO: 'redo'}


def cut_off(data, question_1):
    """the record at the front of the input, and the bytes after it"""
    length = int.from_bytes(data[:2], 'big')
    ask(question_1, len(data) >= 2 + length and len(data) >= 2 and length <= 32766)
    return data[:2 + length], data[2 + length:]


def line(step, event):
    return f'{step} {WORDS[event.port]} {event.ancestors.count} {event.bets.count}\n'


def walk(data, most=MOST_STEPS):
    printed = []
    try:
        record, data = cut_off(data, 1)
        program = gate.program(record)
        goal = gate.query(cut_off(data, 11)[0])
        event = Event(CALL, goal, EMPTY, EMPTY)
        record_fits(event.length)
        printed.append(line(0, event))
        for step in range(1, most + 1):
            event = step_forward(program, event)
            printed.append(line(step, event))
        number = 0
    except Refused as no:
        number = no.number
    return ''.join(printed) + f'stop {number}\n'
