"""Events of 32,768 bytes: given, on the way and reached; a short record behind a long one leaves the bytes that the long one would take."""
from door_cases.table import *
from step_cases.sizes import filled

heading('32,768 bytes')
asked('call, which fills the output', NO_DEFINITIONS, filled(32768, CALL, TRUE), 0, want=(0, 0, filled(32768, CALL, TRUE)))
asked('exit, one byte more lent', NO_DEFINITIONS, filled(32768, EXIT, TRUE), room=32769, want=(0, 1, filled(32768, CALL, TRUE)))
asked('32,769 bytes', NO_DEFINITIONS, filled(32769, CALL, TRUE), want=(11, 0, None))

heading('32,768 bytes on the way')
# p(X) has the body q(X, .., X, T) with X 15 times; q has no definition. T is a chain around one of these leaves, where V1 is p's local
LEAVES = A, V1, sym(9, V1, V1), sym(9, V1, V1, V1)
LONG = chain(480, V0)


def body(x, t):
    return atom(6, *[x] * 15, t)


def filling(length):
    """T, such that the event fail q(..) under p(LONG) has so many bytes"""
    left = length - len(at(FAILS, body(LONG, b''), [atom(5, LONG)]))
    leaf = next(leaf for leaf in LEAVES if (left - len(leaf)) % 4 == 0)
    return chain((left - len(leaf)) // 4, leaf)


def way_back(length):
    """the program, and fail p(LONG) with what comes before it"""
    p, t = atom(5, LONG), filling(length)
    q = body(LONG, t)
    return program(definition(5, 1, 1, body(V0, t))), [at(FAILS, p), at(FAILS, q, [p], size=length), at(CALL, q, [p], size=length), at(CALL, p)]


FITS, WAY = way_back(32768)
for limit in 0, 1, 2:
    asked(f'fail p, limit {limit}', FITS, WAY[0], limit, want=(32, limit, WAY[limit]))
asked('fail p: the door is short, and the bytes behind it are as they were lent', FITS, WAY[0], 3, want=(0, 3, WAY[3]))
asked('fail p, an output of 40,000', FITS, WAY[0], room=MOST_ROOM, want=(0, 3, WAY[3]))
OVER, WAY = way_back(32769)
for limit in 0, MOST:
    asked(f'fail p whose body does not fit, limit {limit:,}', OVER, WAY[0], limit, want=(10, 0, WAY[0]))
