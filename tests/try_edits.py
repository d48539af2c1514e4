#!/usr/bin/env python3
"""Writes what the prover says of each must-fail edit to LOGS/CRATE/EDIT/.log, for tests/edits.py. rt ci tells of an edit the first error that is no name that a
proof file does not find, cut after 160 letters. Where that is an error in a proof that is at a fact, it is all that an edit of one definition needs, since no name
comes from a definition's text. Any other is tried here once more, by `rt check` in a copy of the repository as rt ci left it: one that changes code, whose
goals are named after it, one that gets several promises wrong, since every error counts, and one whose line does not say enough.

try_edits.py RT_CI_LOG LOGS
try_edits.py RT_CI_LOG LOGS --all    tries all of them once more"""
import json, os, pathlib, re, shutil, subprocess, sys, tempfile
sys.dont_write_bytecode = True
from concurrent.futures import ThreadPoolExecutor
from queue import Queue

import edits

ROOT = pathlib.Path(__file__).resolve().parent.parent
CRATES = ROOT / 'crates'


def wants_all(edit, said):
    """Whether more counts than what rt ci said of an edit."""
    text, crate = edit.read_text(), edit.parent.parent
    error = next(iter(edits.errors(said + '\n')), None)
    if not error or said.startswith('note:') or edits.kind(error[2]) not in edits.FACTS:
        return True
    return 'src' in edits.parts(text) or len(edits.promises(text, crate)) > 1


def linked(one, other):
    try:
        os.link(one, other)
    except OSError:
        # the folder for temporary files may be on another disk
        shutil.copy2(one, other)


def copied(room):
    """A copy of the repository in the folder `room`, with what rt ci built of its libraries."""
    shutil.copyfile(ROOT / 'crates.txt', room / 'crates.txt')
    for crate in CRATES.iterdir():
        shutil.copytree(crate, room / 'crates' / crate.name, ignore=shutil.ignore_patterns('must-fail', 'stdin', 'stdout', 'data', 'incremental', 'rlib'))
        if (crate / 'out/rlib').is_dir():
            shutil.copytree(crate / 'out/rlib', room / 'crates' / crate.name / 'out/rlib', copy_function=linked)


def texts(edit, crate):
    """The files of a crate that an edit changes, as it makes them."""
    made, file = {}, ''
    for named, old, new in re.findall(r'^(?:file: (.*)\n)?old: (.*)\nnew: ?(.*)', edit.read_text(), re.M):
        file = named or file
        text = made.get(file) or (crate / file).read_text()
        if text.count(old) != 1:
            sys.exit(f'try_edits.py: {edit}: {file} has not once: {old}')
        made[file] = text.replace(old, new)
    return made


def names(crate, folder):
    """Of each function the goals, each with its kind, as they come in the code, and the steps, each by its place."""
    shutil.rmtree(folder, ignore_errors=True)
    subprocess.run(['rt', 'check', '--jobs', '1', '--generated', str(folder), '--old-names'], cwd=crate, stdin=subprocess.DEVNULL, stdout=subprocess.DEVNULL, stderr=subprocess.DEVNULL)
    file = folder / 'names.json'
    told = json.loads(file.read_text()) if file.is_file() else {}
    # A place is a kind and a number, or a temporary's, behind it.
    return {
        module.split('.')[-2]: ([(re.sub(r'(-t\d+)?(-\d+)?$', '', place), name) for place, name in said['needs']], dict(step for _, _, step, *_ in said['places']))
        for module, said in told.items() if 'needs' in said
    }


def by_kind(goals):
    kinds = {}
    for kind, name in goals:
        kinds.setdefault(kind, []).append(name)
    return kinds


def own(was, now):
    """The name that each goal has after an edit. A name comes from the code, so a changed test may rename a goal, or give its name to another: where a function has as many
    goals of a kind as before, they are the same, one after the other. Where it has more or fewer, a goal that has lost its name gets one that no goal has, so that its
    answer is refused for that."""
    new, after = {}, by_kind(now)
    for kind, before in by_kind(was).items():
        here = after.get(kind, [])
        new.update(zip(before, here) if len(before) == len(here) else ((name, name if name in here else f'{name}-gone') for name in before))
    return new


def can_tell():
    """Made-up goals: one renamed, names handed on, and more of a kind, of which one has lost its name."""
    samples = (
        ([('returns', 'x-ne8'), ('returns', 'r')], [('returns', 'x-lt8'), ('returns', 'r')], {'x-ne8': 'x-lt8', 'r': 'r'}),
        ([('cast', 'pairs'), ('cast', 'pairs-2')], [('cast', 'block'), ('cast', 'pairs')], {'pairs': 'block', 'pairs-2': 'pairs'}),
        ([('returns', 'x-ne8'), ('returns', 'r')], [('returns', 'y'), ('returns', 'x-lt8'), ('returns', 'r')], {'x-ne8': 'x-ne8-gone', 'r': 'r'}),
    )
    for was, now, names_then in samples:
        if own(was, now) != names_then:
            sys.exit(f'try_edits.py: of the made-up goals {was} and {now} the names are {own(was, now)}')
    for word, then in (('x', 'y'), ('x-clause-one', 'y-clause-one'), ('z-clause-x', 'z-clause-x'), ('z', 'z')):
        if called({'x': 'y'}, word) != then:
            sys.exit(f'try_edits.py: the made-up word {word} is called {called({"x": "y"}, word)}')


def called(new, word):
    """What a word of an answer is called after an edit. Where a contract has several clauses, each has the goal by its own name behind it."""
    goal, mark, clause = word.partition('-clause-')
    return new.get(word, new.get(goal, goal) + mark + clause)


def renamed(before, after, crate):
    """The answers of the functions in which an edit renames goals or steps, under the new names, so that each is tried at its own goal."""
    made = {}
    for function, (goals, steps) in before.items():
        goals_now, steps_now = after.get(function, ([], {}))
        answers = crate / 'proofs' / function / 'Answers.antt'
        if (goals, steps) != (goals_now, steps_now) and answers.is_file():
            new = {name: steps_now.get(place, name) for place, name in steps.items() if name} | own(goals, goals_now)
            made[answers.relative_to(crate)] = re.sub(r"[^\s(){}\[\].,;]+", lambda word: called(new, word[0]), answers.read_text())
    return made


def tried(edit, room, known):
    """What rt check says of a crate with this edit."""
    crate = room / 'crates' / edit.parts[-3]
    changed = texts(edit, crate)
    code = any(file.startswith('src/') for file in changed)
    if code and crate.name not in known:
        known[crate.name] = names(crate, room / 'names')
    before = {file: (crate / file).read_text() for file in changed}
    try:
        for file, text in changed.items():
            (crate / file).write_text(text)
        for file, text in (renamed(known[crate.name], names(crate, room / 'names'), crate) if code else {}).items():
            before.setdefault(file, (crate / file).read_text())
            (crate / file).write_text(text)
        return subprocess.run(['rt', 'check', '--jobs', '1'], cwd=crate, stdin=subprocess.DEVNULL, stdout=subprocess.PIPE, stderr=subprocess.STDOUT).stdout.decode(errors='replace')
    finally:
        for file, text in before.items():
            (crate / file).write_text(text)


def main(ci_log, logs, every):
    said = dict(re.findall(r'^rt: must-fail (\S+)\.edit: refused, as it must be: (.*)', pathlib.Path(ci_log).read_text(errors='replace'), re.M))
    shutil.rmtree(logs, ignore_errors=True)
    rooms, whole, known = Queue(), [], {}
    for edit in sorted(CRATES.glob('*/must-fail/*.edit')):
        name = f'{edit.parts[-3]}/{edit.stem}'
        (logs / name).mkdir(parents=True)
        if every or wants_all(edit, said.get(name, '')):
            whole.append((edit, logs / name / '.log'))
        else:
            (logs / name / '.log').write_text(said.get(name, '') + '\n')

    def work(task):
        room = rooms.get()
        try:
            task[1].write_text(tried(task[0], room, known))
        finally:
            rooms.put(room)

    count = len(os.sched_getaffinity(0))
    with tempfile.TemporaryDirectory() as work_room:
        for i in range(count):
            room = pathlib.Path(work_room, str(i))
            room.mkdir()
            copied(room)
            rooms.put(room)
        with ThreadPoolExecutor(count) as pool:
            list(pool.map(work, whole))
    print(f'{len(whole)} edits tried once more, for all that is said of them')


if __name__ == '__main__':
    can_tell()
    main(sys.argv[1], pathlib.Path(sys.argv[2]), '--all' in sys.argv)
