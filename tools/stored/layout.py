"""The bytes of records (SPECIFICATION 1). Writes only; a count, an arity, a version or a length that is not the true one is given by name."""


def hexa(text):
    return bytes.fromhex(text)


def word(n):
    return n.to_bytes(2, 'big')


def given_or(given, n):
    return n if given is None else given


def record(body, version=1, length=None):
    return word(given_or(length, 1 + len(body))) + bytes([version]) + body


# ---- Terms
def var(v):
    return b'\x01' + word(v)


def sym(f, *args, arity=None):
    return b'\x02' + word(f) + bytes([given_or(arity, len(args))]) + b''.join(args)


def chain(n, t):
    """n symbols of arity 1 around the term t"""
    return sym(6, arity=1) * n + t


def fours(variables):
    """terms with four of the variables each, the last one with what is left"""
    vs = [var(v) for v in variables]
    return [sym(9, *vs[i:i + 4]) for i in range(0, len(vs), 4)]


# ---- Goals
TRUE, FAIL = b'\x10', b'\x11'


def eq(t, u):
    return b'\x12' + t + u


def conj(a, b):
    return b'\x13' + a + b


def disj(a, b):
    return b'\x14' + a + b


def atom(p, *args, arity=None):
    return b'\x15' + word(p) + bytes([given_or(arity, len(args))]) + b''.join(args)


def leftward(kind, n, last):
    """n conjunctions (13) or disjunctions (14) of true, each the first half of the one around it, and the goal that ends them"""
    return bytes([kind]) * n + TRUE * n + last


def rightward(kind, n, last):
    """n conjunctions (13) or disjunctions (14) of true, each the second half of the one around it, and the goal that ends them"""
    return (bytes([kind]) + TRUE) * n + last


def halved(n, goal):
    """n times the goal, joined by conjunctions whose halves are nearly of one size, so that no event of it has many ancestors"""
    return goal if n == 1 else conj(halved(n - n // 2, goal), halved(n // 2, goal))


# ---- Ancestors and bets
def in_conj(tag, a, b):
    return bytes([0x30, tag]) + a + b


def in_disj(tag, a, b):
    return bytes([0x31, tag]) + a + b


def unifier(*pairs, count=None):
    return b'\x20' + word(given_or(count, len(pairs))) + b''.join(word(v) + t for v, t in pairs)


def chosen(tag):
    """OR"""
    return bytes([0x21, tag])


def by(goal):
    return b'\x22' + goal


# ---- Bodies of records
def listed(parts, count=None):
    return word(given_or(count, len(parts))) + b''.join(parts)


def event(port, goal, ancestors=(), bets=(), ancestor_count=None, bet_count=None):
    return bytes([port]) + goal + listed(ancestors, ancestor_count) + listed(bets, bet_count)


def definition(p, arity, local_count, goal):
    return word(p) + bytes([arity, local_count]) + goal


def clause(p, v, head, goal, arity=None):
    return word(p) + bytes([given_or(arity, len(head)), v]) + b''.join(head) + goal


# ---- Parts that many cases use
A, B = sym(2), sym(3)
P = atom(5)
V0, V1, V2, V3, V9 = var(0), var(1), var(2), var(3), var(9)
CALL_TRUE = event(1, TRUE)
