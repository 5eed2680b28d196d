"""What an edit does to the lines of the stored cases."""
import os, shutil, tempfile
from itertools import zip_longest

from edit_trials.edits import Unfit, apply
from edit_trials.kit import printed

# the programs whose stored cases ask what a crate answers; what records writes is asked for by way of the stepper
PROGRAMS = {
    'records': ['records_cases', 'stepper_cases'],
    'terms': ['terms_cases'],
    'stepper': ['stepper_cases'],
    'answers': ['answers_cases'],
    'goal_door': ['goal_door_cases'],
    'canonical': ['canonical_cases'],
    'text': ['reader_cases'],
    'reader': ['reader_cases'],
    'walk_text': ['walk_cases'],
    'case_io': ['records_cases', 'walk_cases'],
}


def copied(root, folder):
    """the code and proofs of all crates"""
    shutil.copy(os.path.join(root, 'crates.txt'), folder)
    for crate in os.listdir(os.path.join(root, 'crates')):
        for part in 'src', 'proofs':
            source = os.path.join(root, 'crates', crate, part)
            if os.path.isdir(source):
                shutil.copytree(source, os.path.join(folder, 'crates', crate, part))


def differences(root, program, crate=None, edit=None):
    """number, stored text and printed text of each line of a program that an edit of a crate changes"""
    stored = os.path.join(root, 'crates', program)
    with tempfile.TemporaryDirectory() as folder:
        copied(root, folder)
        if edit:
            apply(edit, os.path.join(folder, 'crates', crate))
        fault, text = printed(folder, program, os.path.join(stored, 'stdin'))
    if fault:
        raise Unfit(f'the program {fault}')
    with open(os.path.join(stored, 'stdout')) as f:
        want = f.read().split('\n')
    pairs = enumerate(zip_longest(want, text.split('\n'), fillvalue=''), 1)
    return [(number, old, new) for number, (old, new) in pairs if old != new]


def cut(line, at):
    """a line, or of a long one its start and what stands from a place on"""
    if len(line) <= 90:
        return line
    return (line[:80] if at < 80 else line[:24] + '..' + line[at:at + 54]) + '..'


def told(program, line):
    """a line that changes, in words"""
    number, old, new = line
    at = len(os.path.commonprefix([old, new]))
    return f"{program} line {number}: '{cut(old, at)}' becomes '{cut(new, at)}'"


def edited(root, crate, label):
    """the first line that an edit changes, in the first program where it changes one"""
    edit = os.path.join(root, 'crates', crate, 'must-fail', label + '.edit')
    for program in PROGRAMS.get(crate, []):
        for line in differences(root, program, crate, edit):
            return told(program, line)
    raise Unfit(f'no stored line changes (asked: {", ".join(PROGRAMS.get(crate, [])) or "no program"})')


def unedited(root, program):
    """the stored cases hold of the code as it is"""
    for line in differences(root, program):
        raise Unfit(told(program, line))
    return 'as stored'
