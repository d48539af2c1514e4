#!/usr/bin/env python3
"""What each must-fail edit was refused at. Reads the first error of every log that tests/try_edits.py writes, prints how many there are of each kind, and
fails where an edit has no log, or was refused only because a proof no longer fits the code's shape: that shows nothing of what the edit gets
wrong, since a right change of the same shape would be refused as well. A kind that is not listed here fails too: somebody has to look at it.
An edit may get several functions wrong, each by itself: then every function whose code it changes must be refused at a fact, by an error of its
own. A function that calls one that is refused is left unproved too, which shows nothing of it. It may get several promises wrong: then of each that
it changes the theorem must be refused, in the same way.
An edit may change a definition and the code together, so that the one still meets the other: then no function may be refused, and the first error
is in a law of the definition. It may change the proofs of the two as well, which no other edit may.

edits.py LOGS    LOGS has CRATE/EDIT/.log for each crates/CRATE/must-fail/EDIT.edit
edits.py LOGS --all    prints each edit with its first error too"""
import collections, pathlib, re, sys, tempfile

SHAPE = "the proof does not fit the code's shape"
UNKNOWN = 'of a kind that tests/edits.py does not list'

# The prover's own words, without the terms that it quotes. The first that fits counts.
KINDS = [
    (SHAPE, r'has no (field|member)? ?`|not in scope|takes no argument|stopped before the end of the file'),
    ('an arithmetic fact does not follow', r'^`omega`'),
    ('no proof of a fact is found', r'^`search`: no proof of|^`grind` found no proof|^it is not proved that'),
    ('an equation does not follow from those known', r'equations had joined|the equations do not join'),
    ('what is left to show after rewriting is not shown', r'give a proof of that as the last argument|list the missing equation'),
    ('what is left to show is no equation of equal ends', r'must be a path whose two ends are equal'),
    ('a comparison is false', r'does not hold'),
    ('what is shown is another statement', r'the two (types|sides) (first )?differ|the two types are|expected type `'),
]
FACTS = dict(KINDS[1:])
WORDS = ('`search`', '`grind`', '`omega`', '`cc`', '`rw`', '`simp`')


def errors(log):
    """(place, what is declared there, error) of each error that does not only follow from another, and then, for those in a proof of the prover's own, of
    each note with a place."""
    said = re.findall(r'^(\S+): error: (?:`([^`]*)`: )?(.*(?:\n[ \t].*)*)', log, re.M)
    notes = re.findall(r'^note: (\S+:\d+:\d+): ()(.*)', log, re.M)
    notes += [(f'/proofs/{function}/', '', f'it is not proved that {goals} hold') for function, goals in re.findall(r'^fn \w+::(\w+): no proof: .*`search` did not prove (.*)', log, re.M)]
    return [error for error in said if not re.match(r'`[^`]*` was not admitted|\d+ declarations? that depend', error[2])] + notes


def heads(source):
    """The functions of a source, each as it is found in it, from its attributes on."""
    return list(re.finditer(r'^(?:[ \t]*#\[.*\]\n)*[ \t]*(?:pub )?(?:extern "C" )?fn (\w+)', source, re.M))


def in_function(function, crate, place, _):
    """Whether an error is placed in a function: in its proof, or, where the prover makes that itself, in its code. No change makes a line more or less."""
    found = re.search(r'(?:^|/)(src/\w+\.rt):(\d+):', place)
    if not found:
        return f'/proofs/{function}/' in place
    source = (crate / found[1]).read_text()
    above = [head[1] for head in heads(source) if source.count('\n', 0, head.start()) < int(found[2])]
    return above[-1:] == [function]


def in_theorem(promise, crate, place, declared):
    """Whether an error is in the theorem of a promise: the one that has it for its type."""
    file = re.search(r'/(proofs/\w+\.antt):', place)
    return bool(file and declared and re.search(rf'^pub {re.escape(declared)} : {promise}$', (crate / file[1]).read_text(), re.M))


def changed(edit, crate):
    """The functions whose code, and not whose contract, an edit changes: one that meets a wrong contract is refused at its callers. The
    changes are made one after the other, as rt makes them."""
    sources, names, contracts, file = {}, set(), set(), ''
    for named, old, new in re.findall(r'^(?:file: (.*)\n)?old: (.*)\nnew: (.*)', edit, re.M):
        file = named or file
        if not file.startswith('src/'):
            continue
        source = sources.get(file) or (crate / file).read_text()
        before, _, behind = source.partition(old)
        line = before.rpartition('\n')[2] + old
        kept = contracts if re.match(r'\s*(requires|ensures)', line) else names
        kept.update(head[1] for head in heads(before)[-1:])
        sources[file] = before + new + behind
    return sorted(names - contracts)


def promises(edit, crate):
    """The definitions of specs/Promises.antt that an edit changes, each as it is named."""
    source, names, file = '', set(), ''
    for named, old, new in re.findall(r'^(?:file: (.*)\n)?old: (.*)\nnew: (.*)', edit, re.M):
        file = named or file
        if file == 'specs/Promises.antt':
            before, _, behind = (source or (crate / file).read_text()).partition(old)
            names.update(re.findall(r'^(?:abbrev pub|pub record|pub data) (\w+)', before, re.M)[-1:])
            source = before + new + behind
    return sorted(names)


def parts(edit):
    """The folders that an edit changes: src, specs, proofs."""
    return {file.split('/')[0] for file in re.findall(r'^file: (.*)', edit, re.M)}


def together(error, said):
    """What is wrong with the log of an edit that changes a definition and the code together."""
    refused = re.findall(r'^fn \w+::(\w+): (?!proved$)', said, re.M)
    if refused:
        return 'a definition and its code are changed together and do not agree', ', '.join(refused)
    if not re.search(r'/proofs/[A-Z]\w*\.antt:', error[0]):
        return 'a definition and its code are changed together and no law is refused', error[0]
    return None


def kind(message):
    words = re.sub(r'`[^`]*`', lambda quoted: quoted[0] if quoted[0] in WORDS else '`..`', message)
    return next((name for name, pattern in KINDS if re.search(pattern, words)), UNKNOWN)


def unseen(names, within, crate, said):
    """What is wrong with the log of an edit that gets functions, or promises, wrong: the first that has no error of its own, or none at a fact."""
    for name in names:
        own = next((message for place, declared, message in errors(said) if within(name, crate, place, declared)), None)
        if own is None:
            return 'of those that it changes one has no error of its own', name
        if kind(own) not in FACTS:
            return kind(own), f'{name}: ' + ' '.join(own.split())
    return None


def read(crates, logs):
    """(edit, kind, first error) of each edit."""
    for edit in sorted(crates.glob('*/must-fail/*.edit')):
        name = f'{edit.parts[-3]}/{edit.stem}'
        log = logs / name / '.log'
        said = log.read_text(errors='replace') if log.is_file() else ''
        error = next(iter(errors(said)), None)
        changes = edit.read_text()
        crate = edit.parent.parent
        folders = parts(changes)
        both = {'src', 'specs'} <= folders
        functions = [] if both else changed(changes, crate)
        proved = [f for f in functions if re.search(rf'^fn \w+::{f}: proved$', said, re.M)]
        promised = promises(changes, crate)
        hidden = unseen(functions, in_function, crate, said) or len(promised) > 1 and unseen(promised, in_theorem, crate, said)
        if 'proofs' in folders and not both:
            yield name, 'it changes a proof', ''
        elif error and both and together(error, said):
            yield name, *together(error, said)
        elif error and proved:
            yield name, 'a function that it changes is proved', ', '.join(proved)
        elif error and hidden:
            yield name, *hidden
        elif error:
            place, _, message = error
            yield name, kind(message), f'{place.split(name + "/")[-1]}: ' + ' '.join(message.split())
        else:
            yield name, 'no log with an error of its own', ''


def bad(found):
    return [f'{name}: {kind}: {error[:300]}' for name, kind, error in found if kind not in FACTS]


def can_fail():
    """Made-up logs: those that show nothing are named, the others are not."""
    F, G = ('/x/proofs/%s/Proof.antt:1:1: error: `x`: ' % function for function in 'fg')
    ONE, TWO = ('/x/proofs/Laws.antt:1:1: error: `%s`: ' % theorem for theorem in ('one', 'two'))
    samples = {
        'fact': '/p: error: `returns`: `search`: no proof of `a has no field `\n  was found.\n',
        'grind': '/p: error: `returns`: `grind` found no proof. It did not look into `x`\n',
        'own_proof': 'fn a: proved\nnote: /src/lib.rt:1:1: it is not proved that what the function ensures holds (`returns`)\n',
        'later_shape': '/p: error: `x`: `omega`: it fails\n/p: error: `y`: record `lts.T` has no field `if1`\n',
        'no_field': '/p: error: `x`: record `lts.T` has no field `if1`\n/p: error: `y`: `omega`: it fails\n',
        'goal_renamed': './proofs/f/Answers.antt:1:1: error: `r-then-a`: `goal.r-then-a`: module `f.Goals` has no `r-then-a`\n/p: error: `y`: `omega`: it fails\n',
        'no_need': '/p: error: `x`: `tie` has no `Need-returns-2`\n',
        'follows': '/p: error: `x`: `close` was not admitted, so\nnote: /src/lib.rt:1:1: it is not proved that it returns\n',
        'follows_shape': '/p: error: `x`: `close` was not admitted, so\n/p: error: `y`: `tie` has no `Need-returns-2`\n',
        'only_follows': '/p: error: `x`: `close` was not admitted, so\n',
        'only_depends': '/p: error: 1 declaration that depends on `close`, which was not admitted, was not checked: x\n',
        'other': '/p: error: `x`: something else\n',
        'silent': 'fn a: proved\n',
        'one_of_two': f'{F}`omega`: it fails\n{G}`omega`: it fails\nfn c::f: proved\nfn c::g: not proved\n',
        'both': f'{F}`omega`: it fails\n{G}`close` was not admitted, so\n{G}`omega`: it fails\nfn c::f: not proved\nfn c::g: no proof\n',
        'both_noted': f'{F}`omega`: it fails\nnote: src/lib.rt:7:1: it is not proved that it returns\nfn c::f: not proved\nfn c::g: no proof\n',
        'both_later_shape': f'{F}`omega`: it fails\n{F}`tie` has no `Need-2`\n{G}`omega`: it fails\nfn c::f: not proved\nfn c::g: not proved\n',
        'second_follows': f'{F}`omega`: it fails\n{G}`close` was not admitted, so\nfn c::f: not proved\nfn c::g: not proved\n',
        'second_shape': f'{F}`omega`: it fails\n{G}`tie` has no `Need-2`\n{G}`omega`: it fails\nfn c::f: not proved\nfn c::g: not proved\n',
        'second_other': f'{F}`omega`: it fails\n{G}something else\nfn c::f: not proved\nfn c::g: not proved\n',
        'noted_elsewhere': f'{F}`omega`: it fails\nnote: /x/src/lib.rt:4:5: it is not proved that it returns\nfn c::f: not proved\nfn c::g: no proof\n',
        'promises': f'{ONE}`omega`: it fails\n{TWO}`omega`: it fails\n',
        'promises_follow': f'{ONE}`omega`: it fails\n{TWO}`one` was not admitted, so\n',
        'promises_shape': f'{ONE}`omega`: it fails\n{TWO}`tie` has no `Need-2`\n',
        'promises_other': f'{ONE}`omega`: it fails\n{TWO.replace("two", "lemma")}`omega`: it fails\n',
        'promises_unproved': f'{ONE}`omega`: it fails\n{TWO}`omega`: it fails\n',
        'with_contract': f'{G}`omega`: it fails\nfn c::f: proved\nfn c::g: not proved\n',
        'agree': '/x/proofs/Law.antt:1:1: error: `x`: `omega`: it fails\nfn c::f: proved\nfn c::g: proved\n',
        'agree_not': '/x/proofs/Law.antt:1:1: error: `x`: `omega`: it fails\nfn c::f: proved\nfn c::g: not proved\n',
        'agree_no_law': '/x/proofs/f/Proof.antt:1:1: error: `x`: `omega`: it fails\nfn c::f: proved\nfn c::g: proved\n',
        'proof': '/p: error: `x`: `omega`: it fails\nfn c::f: not proved\n',
        'lost': None,
    }
    with tempfile.TemporaryDirectory() as work:
        crates, logs = pathlib.Path(work, 'crates'), pathlib.Path(work, 'logs')
        (crates / 'c/must-fail').mkdir(parents=True)
        (crates / 'c/src').mkdir()
        (crates / 'c/src/lib.rt').write_text('fn f()\n    ensures one\n{\n    return 1;\n}\n\n#[no_mangle]\npub extern "C" fn g() {\n    return 2;\n}\n')
        for folder, file, text in (
            ('specs', 'Promises.antt', 'abbrev pub One : Type 0\nOne = first\n\nabbrev pub Two : Type 0\nTwo = second\n\npub record Three : Type 0 where\n  pub of : third\n'),
            ('proofs', 'Laws.antt', 'pub one : One\none = x\n\nlemma : Two\nlemma = x\n\npub two : Two\ntwo = x\n'),
        ):
            (crates / 'c' / folder).mkdir()
            (crates / 'c' / folder / file).write_text(text)
        for name, log in samples.items():
            two = 'file: src/lib.rt\nold: return 1\nnew: return 3\nfile: src/lib.rt\nold: return 2\nnew: return 3\n'
            contract = 'file: src/lib.rt\nold: one\nnew: three\n' if name == 'with_contract' else ''
            rule = 'file: specs/S.antt\nold: one\nnew: three\n' if name.startswith('agree') else ''
            edited = contract + rule + two if name.split('_')[0] in ('one', 'both', 'second', 'noted', 'with') or rule else ''
            if name.startswith('promises'):
                edited = f'file: specs/Promises.antt\nold: first\nnew: other\nold: {"third" if name == "promises_unproved" else "second"}\nnew: other\n'
            (crates / f'c/must-fail/{name}.edit').write_text('file: proofs/P.antt\nold: one\nnew: three\n' if name == 'proof' else edited)
            if log is not None:
                (logs / 'c' / name).mkdir(parents=True)
                (logs / 'c' / name / '.log').write_text(log)
        named = [line.split(':')[0] for line in bad(read(crates, logs))]
    if named != ['c/agree_no_law', 'c/agree_not', 'c/follows_shape', 'c/goal_renamed', 'c/lost', 'c/no_field', 'c/no_need', 'c/noted_elsewhere', 'c/one_of_two', 'c/only_depends',
                 'c/only_follows', 'c/other', 'c/promises_follow', 'c/promises_other', 'c/promises_shape', 'c/promises_unproved', 'c/proof', 'c/second_follows', 'c/second_other',
                 'c/second_shape', 'c/silent']:
        sys.exit(f'edits.py: of the made-up logs these are refused: {named}')


if __name__ == '__main__':
    can_fail()
    found = list(read(pathlib.Path(__file__).resolve().parent.parent / 'crates', pathlib.Path(sys.argv[1])))
    if '--all' in sys.argv:
        for row in found:
            print(' | '.join(row))
    for name, count in collections.Counter(kind for _, kind, _ in found).most_common():
        print(f'{count} of {len(found)} edits: {name}')
    if not found or bad(found):
        sys.exit('\n'.join(['edits.py: these edits show nothing:', *bad(found)]))
