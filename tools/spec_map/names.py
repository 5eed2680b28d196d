"""The names in a line of the map: files with what they define, functions, must-fail edits."""
import difflib
import re

CRATES = {
    'R': 'records',
    'T': 'terms',
    'S': 'stepper',
    'A': 'answers',
    'M': 'meaning',
    'N': 'meaning',
    'D': 'goal_door',
    'C': 'canonical',
    'X': 'text',
    'E': 'reader',
    'W': 'walk_text',
    'P': 'walk',
}
# of these the theorems in `proofs` are meant
PROVED = {'N'}
QUOTED = re.compile(r'`([^`]+)`')
FILES = re.compile(r'\b([RTSAMNDCXEWP])/((?:[A-Z]\w*/)*[A-Z]\w*)((?: \(?`[^`]+`(?:, `[^`]+`)*)?)')
EDITS = re.compile(r'must-fail ((?:`[a-z_0-9]+`(?:, )?)+)')
FUNCTIONS = re.compile(r'\bfn ((?:`[a-z_0-9]+`(?:, )?)+)')

# a line of antt that declares names: 'pub short : ..', 'truth failure : Goal', 'pub record Rule (..)'
DECLARED = re.compile(r'^\s*(?:(?:abbrev|unfoldable|pub|mutual|record|data)\s+)*((?:[^\s:=(){}|]+ )*[^\s:=(){}|]+)\s*(?:[:({]|where|$)')


def defined(text):
    """the names that a file of antt declares"""
    found = set()
    for line in text.splitlines():
        declared = DECLARED.match(line)
        if declared and not line.lstrip().startswith(('use ', '--', 'module ', 'unfolding ')):
            found |= set(declared[1].split())
    return found


def like(name, names, told=str):
    """words on the names that are like this one"""
    near = difflib.get_close_matches(name, names, 3, 0.6)
    return '; like it: ' + ', '.join(told(each) for each in near) if near else ''


class Names:
    def __init__(self, root):
        self.files = {}
        for letter, crate in CRATES.items():
            folder = root / 'crates' / crate / ('proofs' if letter in PROVED else 'specs')
            for path in sorted(folder.rglob('*.antt')):
                self.files[f'{letter}/{path.relative_to(folder).with_suffix("")}'] = defined(path.read_text())
        code = '\n'.join(path.read_text() for path in sorted(root.glob('crates/*/src/**/*.rt')))
        self.functions = sorted(set(re.findall(r'\bfn (\w+)[<(]', code)))
        self.edits = sorted({path.stem for path in root.glob('crates/*/must-fail/*.edit')})

    def wrong(self, line):
        for letter, module, names in FILES.findall(line):
            yield from self.wrong_in_file(f'{letter}/{module}', QUOTED.findall(names))
        yield from self.wrong_in_list(line, FUNCTIONS, self.functions, 'function')
        yield from self.wrong_in_list(line, EDITS, self.edits, 'must-fail edit')

    def wrong_in_file(self, file, names):
        if file not in self.files:
            last = file.split('/')[-1]
            moved = [each for each in self.files if each[0] == file[0] and each.split('/')[-1] == last]
            yield f'there is no {file}' + (f'; it is {" or ".join(moved)} now' if moved else like(file, self.files))
        for name in names:
            if name not in self.files.get(file, ()):
                yield f'{file} does not define {name}{self.elsewhere(file[0], name)}'

    def elsewhere(self, letter, name):
        """where else a name is defined: in its crate, in another one, or under a name that is like it"""
        places = [file for file, names in self.files.items() if name in names]
        places = [file for file in places if file[0] == letter] or places
        if places:
            return f'; it is defined in {", ".join(places)}'
        near = {each: file for file, names in self.files.items() if file[0] == letter for each in names}
        return like(name, near, lambda each: f'{near[each]} {each}')

    def wrong_in_list(self, line, pattern, known, what):
        for names in pattern.findall(line):
            for name in QUOTED.findall(names):
                if name not in known:
                    yield f'no crate has the {what} {name}{like(name, known)}'
