"""Where records end: input that ends early, length fields at their limit, bytes that belong to no record."""
from walk_cases.table import *

heading('early end')
for n in range(len(EXAMPLE)):
    refused(f'the specification\'s input after {n} bytes', EXAMPLE[:n], 1 if n < len(NO_DEFINITIONS) else 11)
refused('a program of version 2 before its last byte: 1 before 2', record(listed([]), version=2)[:-1], 1)
refused('a query of version 2 before its last byte: 11 before 12', NO_DEFINITIONS + record(TRUE, version=2)[:-1], 11)
refused('a query\'s field that names one byte more than there are', NO_DEFINITIONS + record(TRUE, length=3), 11)

# records of 32,768 bytes, their fields 32,766; and the same with one byte more
LARGEST, LONGER = (program(definition(5, 0, 0, rightward(0x13, 16379, TRUE) + more)) for more in (b'', TRUE))
LARGEST_QUERY, LONGER_QUERY = (record(rightward(0x13, 16382, TRUE) + more) for more in (b'', TRUE))
assert {data[:2] for data in (LARGEST, LARGEST_QUERY)} == {word(32766)} and {data[:2] for data in (LONGER, LONGER_QUERY)} == {word(32767)}
# the most that a field can name
FARTHEST = record(TRUE, length=65535)

heading('program, length field 32,766')
case('its bytes and a query', LARGEST + EXAMPLE_QUERY, EXAMPLE_TEXT)
refused('its bytes and no query', LARGEST, 11)
refused('one byte fewer', LARGEST[:-1], 1)
refused('the field alone', LARGEST[:2], 1)
refused('the field before a good program and a query', LARGEST[:2] + EXAMPLE, 1)

heading('program, length field 32,767')
refused('its bytes and a query', LONGER + EXAMPLE_QUERY, 1)
refused('its bytes and no query', LONGER, 1)
refused('one byte fewer', LONGER[:-1], 1)
refused('the field alone', LONGER[:2], 1)
refused('the field before a good program and a query', LONGER[:2] + EXAMPLE, 1)
refused('65,535, and few bytes', FARTHEST + EXAMPLE, 1)

heading('query, length field 32,766')
refused('its bytes: the first event does not fit', NO_DEFINITIONS + LARGEST_QUERY, 10)
refused('its bytes and more', NO_DEFINITIONS + LARGEST_QUERY + EXAMPLE_QUERY, 10)
refused('its bytes, which are no goal', NO_DEFINITIONS + LARGEST, 13)
refused('one byte fewer', NO_DEFINITIONS + LARGEST_QUERY[:-1], 11)
refused('the field alone', NO_DEFINITIONS + LARGEST_QUERY[:2], 11)
refused('the field before a good query', NO_DEFINITIONS + LARGEST_QUERY[:2] + EXAMPLE_QUERY, 11)

heading('query, length field 32,767')
refused('its bytes', NO_DEFINITIONS + LONGER_QUERY, 11)
refused('its bytes and more', NO_DEFINITIONS + LONGER_QUERY + EXAMPLE_QUERY, 11)
refused('one byte fewer', NO_DEFINITIONS + LONGER_QUERY[:-1], 11)
refused('the field alone', NO_DEFINITIONS + LONGER_QUERY[:2], 11)
refused('the field before a good query', NO_DEFINITIONS + LONGER_QUERY[:2] + EXAMPLE_QUERY, 11)
refused('65,535, and few bytes', NO_DEFINITIONS + FARTHEST + EXAMPLE_QUERY, 11)

heading('bytes after the query')
case('one', EXAMPLE + b'\x00', EXAMPLE_TEXT)
case('another query', EXAMPLE + record(P), EXAMPLE_TEXT)
case('another program and query', EXAMPLE + EXAMPLE, EXAMPLE_TEXT)
case('40,000', EXAMPLE + b'\xFF' * 40000, EXAMPLE_TEXT)
refused('that would complete a query of two', NO_DEFINITIONS + record(b'\x13' + TRUE) + TRUE, 13)
