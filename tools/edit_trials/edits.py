"""Must-fail edits: replacements of text in the files of one crate, as rt reads and applies them."""
import glob, os, re

# what is no code: contracts, a clause from its word to the end of a line that closes it; what they import; what tells the prover how; comments
NO_CODE = re.compile(r'^ *(?:requires|ensures)\b.*?\}$|ghost use [^;]*;|#!?\[tactic\([^\n]*\)\]|//[^\n]*', re.M | re.S)


class Unfit(Exception):
    """why an edit is no wrong program"""


def listed(root, names):
    """crate and label of each edit that a name asks for, of all without names"""
    paths = sorted(glob.glob(os.path.join(root, 'crates', '*', 'must-fail', '*.edit')))
    found = [(path.split(os.sep)[-3], os.path.basename(path).removesuffix('.edit')) for path in paths]
    for name in names:
        if not any(name in (crate, f'{crate}/{label}') for crate, label in found):
            raise Unfit(f'no must-fail edit has the name {name}')
    return [(crate, label) for crate, label in found if not names or crate in names or f'{crate}/{label}' in names]


def replacements(path):
    """a 'file:' line holds for the 'old:' and 'new:' lines after it; any other line is passed over"""
    file, old = '', ''
    with open(path) as f:
        for line in f.read().splitlines():
            if line.startswith('file: '):
                file = line.removeprefix('file: ')
            elif line.startswith('old: '):
                old = line.removeprefix('old: ')
            elif line.startswith('new:'):
                yield file, old, line.removeprefix('new:').removeprefix(' ')
                old = ''


def words(text):
    """the code of a file, without its layout"""
    return NO_CODE.sub(' ', text).split()


def has_code(root, crate):
    """whether a crate's source has more than comments"""
    for path in glob.glob(os.path.join(root, 'crates', crate, 'src', '*.rt')):
        with open(path) as f:
            if words(f.read()):
                return True
    return False


def unshown(root, crate, label):
    """why no stored case shows an edit, where it says so"""
    with open(os.path.join(root, 'crates', crate, 'must-fail', f'{label}.edit')) as f:
        return next((line[2:].strip() for line in f if line.startswith('# no stored case')), '')


def changed(text, old, new, code):
    """the text of a file with one replacement, in code one of code alone"""
    if not old or text.count(old) != 1:
        raise Unfit(f"'{old}' is in the file {text.count(old) if old else 0} times")
    made = text.replace(old, new)
    if code and NO_CODE.findall(made) != NO_CODE.findall(text):
        raise Unfit(f"'{old}' is no code: a contract, an import or a comment changes")
    if code and words(made) == words(text):
        raise Unfit(f"'{old}' becomes the same code")
    return made


def apply(edit, crate):
    """change the files of a crate's folder; a proof may be fitted to the code"""
    files = []
    for file, old, new in replacements(edit):
        path = os.path.join(crate, file)
        if not file.startswith(('src/', 'proofs/')):
            raise Unfit(f"'{file}' is neither code nor proof")
        files.append(file)
        if not os.path.isfile(path):
            raise Unfit(f"'{file}' is no file of the crate")
        with open(path) as f:
            text = f.read()
        with open(path, 'w') as f:
            f.write(changed(text, old, new, file.startswith('src/')))
    if not any(file.startswith('src/') for file in files):
        raise Unfit('it changes no code')
