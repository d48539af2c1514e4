#!/usr/bin/env python3
"""Brings the repository's own definitions, fields, constructors and lemmas to the library's spelling: words in snake case, a dash only
between two names. Run once, right after the kit's port script, at the top of the repository; it prints what it could not rename.
Functions of src/, types, modules, files, exported C names and strings keep their names."""
import collections
import glob
import re
import sys

SKIP = set('use record data mod ruleset unfolding where pub abbrev unfoldable let in elim as open'.split())
RESERVED = set('data record deriving module where use mod pub package open as unfoldable abbrev axiom unfold unfolding ruleset mutual infix infixl '
               'infixr elim let in do type coe fcoe tcoe hcom com ground assumption'.split())
TOKEN = r"[^\s(){}\[\].,;|\"`←:=λ∷+*/<>≤≡→×]+"
# A lemma that would have its definition's name gets `_lem`.
LEMMAS = ('exactly-one only-heads same-zones bytes-of count-of file-said in-slot line-size line-text no-order not-ready offset-of other-address '
          'other-buffer other-counts other-group pairs-in phys-in save-said sheet-most sheet-said size-of start-table stop-text whole-text '
          'zones-named').split()
BY_HAND = {name: snake_name + '_lem' for name, snake_name in ((n, n.replace('-', '_')) for n in LEMMAS)}
BY_HAND.update({'setP': 'set_P', 'P-set': 'P-set', 'bytes-setP': 'bytes-set_P', 'length-setP': 'length-set_P'})
# The same for lemmas that are in snake case already, in the crates that have the definition too.
IN_CRATE = {('console', 'all_read'): 'all_read_lem', ('console', 'sent_back'): 'sent_back_lem', ('files', 'block_in'): 'block_in_lem',
            ('shelf', 'both_ways'): 'both_ways_lem', ('zonefile_text', 'load_said'): 'load_said_lem', ('learned', 'one_more'): 'one_more_lem',
            ('permit', 'rows_end'): 'rows_end_lem', ('batches', 'rows_end'): 'rows_end_lem', ('shelf', 'turned_down'): 'turned_down_lem', ('files', 'version_of'): 'version_of_lem'}
LIBRARY = set('length get_or set take drop append tab replicate paste sum map add mul sub mod div'.split())


def snake(word):
    if word == 'getD':
        return 'get_or'
    word = re.sub(r'([a-z0-9])([A-Z]+)(?=[^A-Za-z]|$)', lambda m: m[1] + '_' + m[2].lower(), word)
    word = re.sub(r'([a-z0-9])([A-Z])(?=[a-z0-9])', lambda m: m[1] + '_' + m[2].lower(), word)
    return re.sub(r'([a-z0-9])([A-Z])', lambda m: m[1] + '_' + m[2].lower(), word)


def files():
    return sorted(glob.glob('crates/*/specs/*.antt') + glob.glob('crates/*/proofs/*.antt'))


def declared():
    """Every name that a file of specs/ or proofs/ gives, and whether it is a definition (what is no lemma)."""
    names, definitions = {}, set()
    for path in files():
        constructors = False
        for text in open(path):
            m = re.match(r'\s*((?:abbrev |unfoldable |pub )*)(%s)\s+:\s' % TOKEN, text)
            if m and m[2] not in SKIP:
                names.setdefault(m[2], set()).add(path)
                if 'abbrev' in m[1] or 'unfoldable' in m[1]:
                    definitions.add(m[2])
            m = re.match(r'\s*(?:pub )?ruleset (%s)' % TOKEN, text)
            if m:
                names.setdefault(m[1], set()).add(path)
            # constructors of a data type, several to a line
            m = re.match(r'\s+(?:pub )?((?:%s )+)(%s)\s+:\s' % (TOKEN, TOKEN), text)
            if m and not m[1].strip().startswith(('let', 'abbrev', 'unfoldable', 'pub')):
                for word in m[1].split() + [m[2]]:
                    if word not in SKIP:
                        names.setdefault(word, set()).add(path)
    return names, definitions


def renamed():
    names, definitions = declared()
    known = {snake(d) for d in definitions} | LIBRARY
    to = {}
    for name in names:
        if name in BY_HAND:
            to[name] = BY_HAND[name]
            continue
        if name[0].isupper() and '-' not in name or not re.match(r'[A-Za-z]', name):
            continue
        parts = [snake(p) for p in name.split('-')]
        new = parts[0]
        for i, part in enumerate(parts[1:], 1):
            left, right = parts[i - 1], part
            joins = (left in known or left[:1].isupper()) and (right in known)
            new += ('-' if joins else '_') + part
        if new != name:
            to[name] = new
    # bound by a lambda or a let, or several to a line
    to.update({old: snake(old) for old in ('lessRoom', 'inBoth', 'requestSize', 'responseSize', 'setSize')})
    return names, to


def spell(text, to, generated, crate=''):
    def word(m):
        if (crate, m[0]) in IN_CRATE:
            return IN_CRATE[crate, m[0]]
        if m[0] not in to:
            return m[0]
        before = text[max(0, m.start() - 12):m.start()]
        if before.endswith('.') and '-' in m[0]:
            # a part of a name that the check makes
            if re.search(r'(^|[\s(])(tie|c|l|w)\.$', before) or generated:
                return m[0]
        return to[m[0]]
    return re.sub(TOKEN, word, text)


def main():
    names, to = renamed()
    backwards = collections.defaultdict(set)
    for old, new in to.items():
        backwards[new].add(old)
    bad = 0
    for new, olds in sorted(backwards.items()):
        others = olds | ({new} & set(names))
        if len(others) > 1:
            where = {o: sorted(names[o]) for o in others}
            print('fall together:', new, where)
            bad += 1
        if new in RESERVED:
            print('reserved:', new)
            bad += 1
    plain = {o: n for o, n in to.items() if '-' not in o}
    changes = {}
    for path in sorted(glob.glob('crates/*/specs/*.antt') + glob.glob('crates/*/proofs/**/*.antt', recursive=True)):
        text = open(path).read()
        inner = bool(re.search(r'/proofs/[^/]+/', path))
        here = set(re.findall(TOKEN, text))
        for old in here & set(to):
            if to[old] in here:
                print('already there:', path, old, '->', to[old])
        changes[path] = (text, spell(text, to, inner, path.split('/')[1]))
    for path in sorted(glob.glob('crates/*/src/*.rt')):
        text = open(path).read()
        here = set(re.findall(r'[A-Za-z_][A-Za-z0-9_]*', text))
        for old in here & set(plain):
            if plain[old] in here:
                role = 'fn' if re.search(r'fn %s\b' % plain[old], text) else 'use' if re.search(r'^(pub )?use .*\b%s\b' % plain[old], text, re.M) else 'other'
                if role == 'other' or re.search(r'\b%s: ' % plain[old], text):
                    print('already there:', path, old, '->', plain[old], role)
        changes[path] = (text, re.sub(r'[A-Za-z_][A-Za-z0-9_]*', lambda m: plain.get(m[0], m[0]), text))
    # The port script leaves edits alone, so they have names that it turned elsewhere.
    turned = dict(to)
    for old in 'getD isGroup atMost orElse rowOf inBoth setSize responseSize requestSize lineOf lessRoom answerOf groupOf bitsOf'.split():
        turned[old] = snake(old)
    for path in sorted(glob.glob('crates/*/must-fail/*.edit')):
        text = open(path).read()
        rows = []
        for row in text.split('\n'):
            m = re.match(r'(old: |new: )(.*)', row)
            rows.append(row if not m else m[1] + spell(m[2], turned, False))
        changes[path] = (text, '\n'.join(rows))
    if '--write' in sys.argv:
        for path, (old, new) in changes.items():
            if old != new:
                open(path, 'w').write(new)
        print(len(to), 'names respelled')
    else:
        print(len(to), 'names to respell;', bad, 'fall together')


main()
