"""The questions of the planners' garages, as their pages have them, answered by the desk and by SWI-Prolog: the same values in the same order."""
import json, pathlib, re, shlex, subprocess

ASKED = re.compile(r'^\$ (desk answers .*)$', re.M)
# a list that a limit stopped has no end to be compared
STOPPED = 3
HERE = pathlib.Path(__file__).parent


def questions(examples):
    """rules and goal of each question that a page asks"""
    pages = sorted(pathlib.Path(examples).glob('*.md'))
    found = [shlex.split(command)[2:4] for page in pages for command in ASKED.findall(page.read_text())]
    return sorted(set(map(tuple, found)))


def desk_rows(desk, repository, rules, goal):
    """the values of each answer, or nothing where a limit stopped the list"""
    ran = subprocess.run([desk, 'answers', rules, goal, '--json'], cwd=repository, capture_output=True, text=True)
    if ran.returncode == STOPPED:
        return None
    return ['|'.join(f'{name}={value}' for name, value in answer['values'].items()) for answer in json.loads(ran.stdout)['answers']]


def prolog_rows(repository, rules, goal):
    ran = subprocess.run(['swipl', HERE / 'garages.pl', '--', rules, goal], cwd=repository, capture_output=True, text=True)
    return ran.stdout.splitlines() if ran.returncode == 0 and not ran.stderr else [ran.stderr]


def compare(desk, repository):
    """prints a line; whether all agree"""
    alike = differing = stopped = 0
    for rules, goal in questions(pathlib.Path(repository, 'examples')):
        ours = desk_rows(desk, repository, rules, goal)
        if ours is None:
            stopped += 1
            continue
        theirs = prolog_rows(repository, rules, goal)
        if ours == theirs:
            alike += 1
        else:
            differing += 1
            print(f'{rules}, {goal}:\n    desk {ours}\n    Prolog {theirs}')
    print(f"{alike + differing} questions of the planners' garages: {alike} agree, {differing} differ; {stopped} stopped by a limit")
    return differing == 0 and alike > 0
