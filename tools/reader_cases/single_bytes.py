"""Question 20 is asked of bytes alone: every byte as a text of its own, and those that no token holds within a text that is read without them."""
from reader_cases.table import *

BLANK = b'\t\n\r '
ALLOWED = b'abcdefghijklmnopqrstuvwxyzABCDEFGHIJKLMNOPQRSTUVWXYZ0123456789_:-=;,().' + BLANK

heading('one byte')
for byte in range(256):
    text = chr(byte)
    if byte in BLANK:
        reads(text, '', words=f'{byte:02x}, a blank')
    else:
        no(21 if byte in ALLOWED else 20, text, words=f'{byte:02x}')

heading('a byte that no token holds')
for byte in b'\x00\x08\x0b\x0c\x0e\x1f!"%\'*+/<>?@[]\\`{|}~\x7f\x80\xa0\xe4\xff':
    no(20, 'a' + chr(byte) + '.', words=f'{byte:02x} behind a name')
no(20, '%a.', words='first of the text')
no(20, 'a.%', words='last of the text')
no(20, ['a.', (' ', 65532), '%'], words='the last of 65,535 bytes')
no(20, "'a'.", words='a quoted name')
no(20, 'a :- b -> c.', words='an arrow')
no(20, 'a :- \\+ b.', words='a negation')
no(20, 'a([]).', words='a list')
no(20, 'a :- !.', words='a cut')
