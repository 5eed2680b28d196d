"""The sections of the specification: which there are, which the map has, and which are cited."""
import re
import subprocess

HEADING = re.compile(r'(?m)^#{2,3} (\d+(?:\.\d+)?) ')
LINE = re.compile(r'(?m)^\|? ?(11\.\d+)[ .]')
CITED = re.compile(r'SPECIFICATION (\d+(?:\.\d+)?)')
GLOSSARY = '12'


def in_first_column(text):
    """the sections at the start of the map's rows, ranges such as '11.1 to 11.12' too"""
    for row in re.findall(r'(?m)^\| (\d[^|]*) \|', text):
        for chapter, first, last in re.findall(r'(\d+)\.(\d+) to \d+\.(\d+)', row):
            yield from (f'{chapter}.{n}' for n in range(int(first), int(last) + 1))
        yield from re.findall(r'(?<![\w.(])\d+(?:\.\d+)?', row)


class Sections:
    def __init__(self, root):
        self.root = root
        text = (root / 'docs' / 'SPECIFICATION.md').read_text()
        self.all = list(dict.fromkeys(HEADING.findall(text) + LINE.findall(text)))

    def left_out(self):
        """a chapter needs a row only where it has no sections of its own"""
        mapped = set(in_first_column((self.root / 'docs' / 'SPEC-MAP.md').read_text()))
        for section in self.all:
            parts = any(each.startswith(section + '.') for each in self.all)
            if section.split('.')[0] != GLOSSARY and not parts and section not in mapped:
                yield f'docs/SPEC-MAP.md has no row for SPECIFICATION {section}'

    def unknown(self):
        listed = subprocess.run(['git', 'ls-files', '-z'], cwd=self.root, stdout=subprocess.PIPE, check=True).stdout.decode()
        for name in filter(None, listed.split('\0')):
            path = self.root / name
            if path.is_file() and path.suffix not in ('.in', '.a'):
                for number, line in enumerate(path.read_bytes().decode(errors='replace').splitlines(), 1):
                    for section in CITED.findall(line):
                        if section not in self.all:
                            yield f'{name}:{number}: the specification has no section {section}'
