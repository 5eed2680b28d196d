"""Bytes as the case programs print them."""


def checksum(data):
    """FNV-1a, 32 bits"""
    h = 0x811C9DC5
    for byte in data:
        h = (h ^ byte) * 0x01000193 % 2 ** 32
    return h


def shown(data, most):
    """in hexadecimal; of more than so many bytes their number, the first 16 and the checksum"""
    if len(data) <= most:
        return data.hex()
    return f'#{len(data)}:{data[:16].hex()}:{checksum(data):08x}'


# the checksums that the function's authors publish
assert (checksum(b''), checksum(b'a'), checksum(b'foobar')) == (0x811C9DC5, 0xE40C292C, 0xBF9CF968)
