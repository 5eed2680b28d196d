"""The files of stored cases: a program's standard input and what it prints.

A tool hands over what makes the cases; for each case that gives its bytes, the lines that the program prints for it, and words.
"""
import os, sys

from desk_model.deep import with_deep_stack

ROOT = os.path.dirname(os.path.dirname(os.path.dirname(os.path.abspath(__file__))))


def field(data):
    """a length of four bytes, high byte first, and the bytes"""
    return len(data).to_bytes(4, 'big') + data


def written(root, crate, cases):
    """crates/CRATE/stdin and stdout below a folder"""
    folder = os.path.join(root, 'crates', crate)
    os.makedirs(folder, exist_ok=True)
    with open(os.path.join(folder, 'stdin'), 'wb') as given, open(os.path.join(folder, 'stdout'), 'w') as printed:
        for data, lines, words in cases:
            given.write(data)
            printed.writelines(line + '\n' for line in lines)


def tool(doc, crate, cases):
    """without words to write the cases, with --list to tell them, with --to FOLDER to write them below another folder"""
    def main():
        if sys.argv[1:] == ['--list']:
            for data, lines, words in cases():
                print(words, flush=True)
        elif sys.argv[1:2] == ['--to'] and len(sys.argv) == 3:
            written(sys.argv[2], crate, cases())
        elif sys.argv[1:]:
            sys.exit(doc)
        else:
            written(ROOT, crate, cases())

    with_deep_stack(main)
