#!/usr/bin/env python3
"""Runs target/bin/orders (after `./build.sh orders`) on sheets that Python's csv writes, and reads with it what comes out. The model is a plain one, the
latest value of each pair: what the program writes must be byte for byte what csv writes for the pairs that are on, ascending, and fed in again it must
give itself back. Then wrong lines of every kind, which must be named by their number and in words, sheets at and over the 88,011 bytes that a sheet may
have, spoilt sheets against a model of the lines, and input that comes in pieces or cannot be read. Last the way by which docs/PROMISES.md compares what the
program writes with a shelf's reports, as it stands there, by target/bin/warden. Fails where a run differs.

orders.py [PROGRAM [SEED]]"""
import csv, io, os, pathlib, random, re, subprocess, sys, tempfile, time

ROOT = pathlib.Path(__file__).resolve().parent.parent
PROGRAM = sys.argv[1] if len(sys.argv) > 1 else ROOT / 'target/bin/orders'
COMMAND = [ROOT / 'second/bench.sh', PROGRAM]
MOST = 88011
LONGEST = 74549
GROUPS = range(2, 128)

FORM = "expected GROUP,GROUP,1 or GROUP,GROUP,0 and the line's end"
GROUP = 'a group is not from 2 to 127'
TOO_LONG = b'a sheet has at most 88,011 bytes\n'
UNREADABLE = b'the input cannot be read\n'
LINE = re.compile(rb'(0|[1-9][0-9]*),(0|[1-9][0-9]*),([01])\r?\n')

NINES = '9' * 30
WRONG = [
    ('an empty line', b'\n', FORM),
    ('an empty line with a CR', b'\r\n', FORM),
    ('a header', b'group,group,value\r\n', FORM),
    ('quotes', b'"8","9","1"\r\n', FORM),
    ('one field in quotes', b'8,"9",1\n', FORM),
    ('a space before', b' 8,9,1\n', FORM),
    ('a space between', b'8, 9,1\n', FORM),
    ('a space behind', b'8,9,1 \n', FORM),
    ('a leading zero', b'08,9,1\n', FORM),
    ('a leading zero in the second field', b'8,09,1\n', FORM),
    ('two zeros', b'00,9,1\n', FORM),
    ('264', b'264,9,1\n', GROUP),
    ('1000', b'9,1000,1\r\n', GROUP),
    ('thirty nines', f'{NINES},{NINES},0\n'.encode(), GROUP),
    ('group 0', b'0,9,1\n', GROUP),
    ('group 1', b'9,1,0\r\n', GROUP),
    ('group 128', b'128,9,1\n', GROUP),
    ('a wrong group and a wrong value', b'128,9,2\n', FORM),
    ('2 for the value', b'8,9,2\n', FORM),
    ('two figures for the value', b'8,9,11\n', FORM),
    ('no value', b'8,9,\n', FORM),
    ('two fields', b'8,9\n', FORM),
    ('four fields', b'8,9,1,1\n', FORM),
    ('no end', b'8,9,1', FORM),
    ('a CR for the end', b'8,9,1\r', FORM),
    ('a lone CR', b'8,9,1\r8,9,1\r\n', FORM),
    ('two CRs', b'8,9,1\r\r\n', FORM),
    ('a sign', b'+8,9,1\n', FORM),
    ('semicolons', b'8;9;1\n', FORM),
    ('a byte order mark', b'\xef\xbb\xbf8,9,1\n', FORM),
    ('a byte 0', b'8,9,1\0\n', FORM),
]


def sheet(orders, **how):
    text = io.StringIO(newline='')
    csv.writer(text, **how).writerows(orders)
    return text.getvalue().encode()


def latest(orders):
    """The pairs that are on when all is given, ascending."""
    table = {}
    for a, b, v in orders:
        table[min(a, b), max(a, b)] = v
    return sorted(pair for pair, v in table.items() if v)


def exported(pairs):
    return sheet((a, b, 1) for a, b in pairs)


def stopped(number, words):
    return f'line {number}: {words}\n'.encode()


def answer(data):
    """By the model of the lines: of any bytes."""
    if len(data) > MOST:
        return TOO_LONG
    orders = []
    for line in re.findall(rb'[^\n]*\n|[^\n]+', data):
        parts = LINE.fullmatch(line)
        if not parts:
            return stopped(len(orders) + 1, FORM)
        a, b, v = map(int, parts.groups())
        if a not in GROUPS or b not in GROUPS:
            return stopped(len(orders) + 1, GROUP)
        orders.append((a, b, v))
    return exported(latest(orders))


class Runs:
    def __init__(self):
        self.runs = self.wrong = self.bytes_in = self.bytes_out = 0

    def run(self, name, data, want, pieces=0, stdin=subprocess.PIPE):
        program = subprocess.Popen(COMMAND, stdin=stdin, stdout=subprocess.PIPE, stderr=subprocess.PIPE)
        given = data
        if pieces:
            for i in range(0, len(data), pieces):
                program.stdin.write(data[i:i + pieces])
                program.stdin.flush()
                time.sleep(0.001)
            given = None
        out, errors = program.communicate(given)
        self.runs += 1
        self.bytes_in += len(data)
        self.bytes_out += len(out)
        if out != want or errors or program.returncode != 0:
            self.wrong += 1
            print(f'WRONG: {name}: {len(data)} bytes in, {len(out)} out, status {program.returncode} {errors[:200]}')
            for a, b in zip(out.split(b'\n'), want.split(b'\n')):
                if a != b:
                    print(f'  the program: {a[:200]}\n  expected:    {b[:200]}')
                    break
        return out

    def check(self, name, holds):
        if not holds:
            self.wrong += 1
            print(f'WRONG: {name}')

    def taken(self, name, orders, data, **how):
        """Orders that a sheet has: what comes out, as csv reads it, is the model's; and in again, it stays."""
        pairs = latest(orders)
        out = self.run(name, data, exported(pairs), **how)
        rows = list(csv.reader(io.StringIO(out.decode('ascii', 'replace'), newline='')))
        self.check(f'{name}, as csv reads it', rows == [[str(a), str(b), '1'] for a, b in pairs])
        self.run(f'{name}, in again', out, out)


def report(pairs, first, count):
    """A shelf's response to a report of these rows, as a line for `warden`: the table has the pairs on, both ways, and every group reaches group 1."""
    rows = {a: 2 for a in range(first, first + count)}
    for a, b in [*pairs, *((b, a) for a, b in pairs)]:
        if a in rows:
            rows[a] |= 1 << b
    data = bytes([0x41, 0x51, 0, 2 + 4 * count, 0, 0, first, count, 0, 0, 0, 0]) + b''.join(row.to_bytes(16, 'big') for row in rows.values())
    return 'response ' + data.hex(' ') + '\n'


def compared(pairs, permitted):
    """Whether the comparison that docs/PROMISES.md gives finds the same pairs in a shelf's reports as in a sheet that `orders` wrote."""
    line = re.search(r'^ *(awk .* rows\.txt \| cmp - permitted\.csv)$', (ROOT / 'docs/PROMISES.md').read_text(), re.M)[1]
    rows = subprocess.run([ROOT / 'second/bench.sh', ROOT / 'target/bin/warden'], input=(report(pairs, 2, 63) + report(pairs, 65, 63)).encode(), capture_output=True, check=True).stdout
    with tempfile.TemporaryDirectory() as folder:
        pathlib.Path(folder, 'rows.txt').write_bytes(rows)
        pathlib.Path(folder, 'permitted.csv').write_bytes(permitted)
        return subprocess.run(['sh', '-c', line], cwd=folder, capture_output=True).returncode == 0


def made_up(r, count, groups):
    return [(r.choice(groups), r.choice(groups), r.randrange(2)) for _ in range(count)]


def spoilt(r, data):
    data = bytearray(data)
    for _ in range(r.choice([1, 1, 2])):
        i = r.randrange(len(data))
        data[i:i + r.randrange(3)] = r.choice([b'', b'0', b'1', b'7', b',', b'\r', b'\n', b'\r\n', b' ', b'"', b'\xff'])
    return bytes(data)


def main():
    began = time.time()
    r = random.Random(int(sys.argv[2]) if len(sys.argv) > 2 else 7)
    t = Runs()

    few, some, many = made_up(r, 40, range(2, 6)), made_up(r, 3000, range(2, 60)), made_up(r, 8001, GROUPS)
    mixed = b''.join(sheet([order], lineterminator=r.choice(['\r\n', '\n'])) for order in some)
    every = [(a, b, 1) for a in GROUPS for b in GROUPS if a <= b]
    t.check('the longest export', len(every) == 8001 and len(exported(latest(every))) == LONGEST)
    t.run('an empty sheet', b'', b'')
    t.taken('a few groups', few, sheet(few))
    t.taken('the same, ended by LF', few, sheet(few, lineterminator='\n'))
    t.taken('some groups, ended by either', some, mixed)
    t.taken('all groups', many, sheet(many))
    t.taken('all pairs, from the last and the other way round', every, sheet((b, a, v) for a, b, v in reversed(every)))
    t.run('the same, off again', exported(latest(every)) + b'2,2,0\n', exported(latest(every)[1:]))
    t.run('in pieces of 7 bytes', sheet(few), exported(latest(few)), pieces=7)
    t.run('in pieces of 5000 bytes', mixed, exported(latest(some)), pieces=5000)

    full = b'100,101,1\r\n' * 8001
    t.check('a full sheet', len(full) == MOST)
    t.run('88,011 bytes', full, b'100,101,1\r\n')
    t.run('88,011 bytes, in pieces', full, b'100,101,1\r\n', pieces=30000)
    t.run('88,011 bytes, the last line wrong', b'8,9,1\n' * 14668 + b'8,\n', stopped(14669, FORM))
    t.run('88,012 bytes', b'100,101,1\r\n' * 8000 + b'100,101,1\r\n\n', TOO_LONG)
    t.run('88,012 bytes, the first line wrong', b'\n' + full, TOO_LONG)
    t.run('88,012 bytes, in pieces', full + b'8', TOO_LONG, pieces=30000)
    t.run('a sheet of many lines too many', full * 3, TOO_LONG)

    before = sheet(few)
    for name, line, words in WRONG:
        first = r.random() < 0.3
        data = (b'' if first else before) + line
        t.run(name, data + (b'8,9,0\n0,8,1\n' if line.endswith(b'\n') else b''), stopped(1 if first else len(few) + 1, words))
    t.run('csv with a header', sheet([('group', 'group', 'value')] + few), stopped(1, FORM))
    t.run('csv with all fields quoted', sheet(few, quoting=csv.QUOTE_ALL), stopped(1, FORM))
    t.run('csv with tabs', sheet(few, delimiter='\t'), stopped(1, FORM))
    for i in range(10):
        data = spoilt(r, sheet(few) + sheet(few[:20], lineterminator='\n'))
        t.run(f'a spoilt sheet, {data}', data, answer(data))
    folder = os.open(ROOT, os.O_RDONLY)
    t.run('an input that cannot be read', b'', UNREADABLE, stdin=folder)
    os.close(folder)

    pairs = latest(many)
    t.check('a comparison with reports', compared(pairs, exported(pairs)))
    t.check('a comparison with reports, one pair less on the shelf', not compared(pairs[1:], exported(pairs)))
    t.check('a comparison with reports, one pair more on the shelf', not compared(pairs, exported(pairs[:-1])))

    print(f'{"WRONG" if t.wrong else "ok"}: orders: {t.runs} runs, {len(WRONG)} kinds of wrong lines, {t.bytes_in} bytes in, {t.bytes_out} out, {t.wrong} wrong, {time.time() - began:.1f} s')
    return 1 if t.wrong else 0


if __name__ == '__main__':
    sys.exit(main())
