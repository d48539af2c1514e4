#!/usr/bin/env python3
"""Runs target/bin/zonefile (after `./build.sh zonefile`) both ways. The model is a plain one, written from document 02, request 08: the pairs that are on,
two bytes each, ascending, and twelve bytes behind them. Sheets must give the file byte for byte, files the sheet, and each way and back must give what was
there before, from no pair to all 8,001. Then what is refused, which must be said in its words on standard error, with nothing on standard output: wrong lines,
every damage of a single bit of a small file, files cut short and made longer, spoilt files, version 2, other words than `save` and `load`, and input that
cannot be read. A run is mostly the program's start, so every damage of a single byte, 4,080 runs, is made where `every` is asked
for. Fails where a run differs.

zonefile.py [PROGRAM [SEED [every]]]"""
import os, pathlib, random, struct, subprocess, sys, threading, time

ROOT = pathlib.Path(__file__).resolve().parent.parent
PROGRAM = sys.argv[1] if len(sys.argv) > 1 else ROOT / 'target/bin/zonefile'
COMMAND = [ROOT / 'second/bench.sh', PROGRAM]
GROUPS = range(2, 128)
EVERY = [(a, b) for a in GROUPS for b in GROUPS if a <= b]

USAGE = 'usage: zonefile save <sheet >file, or zonefile load <file >sheet'
UNREADABLE = 'the input cannot be read'
LONG_SHEET = 'a sheet has at most 88,011 bytes'
FORM = "expected GROUP,GROUP,1 or GROUP,GROUP,0 and the line's end"
GROUP = 'a group is not from 2 to 127'
LONG = 'a file has at most 16,400 bytes, and one of version 1 at most 16,014'
SHORT = 'a file has at least 12 bytes'
VERSION_2 = 'this is a file of version 2, and only one of version 1 can be a sheet'
VERSION = 'the file is of a version that is neither 1 nor 2'
LENGTHS = "the file's trailer says another length, or another number of pairs, than the file has"
OFFSET = "the file's trailer says another offset of the first pair than 0"
PAIR = 'a pair in the file is not of groups from 2 to 127, the lower first, or not behind the pair before it'


def file_of(pairs, version=1, count=None, offset=0, length=None):
    """The pairs as they are given, and a trailer that says the truth where nothing else is asked."""
    records = b''.join(map(bytes, pairs))
    count = len(pairs) if count is None else count
    length = len(records) + 12 if length is None else length
    return records + struct.pack('>HHII', version, count, offset, length)


def sheet_of(pairs, end='\r\n'):
    return ''.join(f'{a},{b},1{end}' for a, b in pairs).encode()


def refusal(data):
    """Why the bytes are no file of version 1, by the order of checking; None where they are one."""
    if len(data) > 16400:
        return LONG
    if len(data) < 12:
        return SHORT
    version, count, offset, length = struct.unpack('>HHII', data[-12:])
    if version == 2:
        return VERSION_2
    if version != 1:
        return VERSION
    if length != len(data) or 2 * count + 12 != len(data):
        return LENGTHS
    if offset != 0:
        return OFFSET
    pairs = pairs_of(data)
    if not all(2 <= a <= b <= 127 for a, b in pairs) or any(p >= q for p, q in zip(pairs, pairs[1:])):
        return PAIR
    return None


def pairs_of(data):
    return list(zip(data[:-12:2], data[1:-12:2]))


def latest(orders):
    table = {}
    for a, b, v in orders:
        table[min(a, b), max(a, b)] = v
    return sorted(pair for pair, v in table.items() if v)


class Runs:
    """Runs are gathered, and then done by as many threads as there are processors for them."""

    def __init__(self):
        self.runs = self.wrong = self.bytes_in = self.bytes_out = 0
        self.todo, self.lock = [], threading.Lock()

    def one(self, name, words, data, want, pieces, stdin):
        program = subprocess.Popen([*COMMAND, *words], stdin=stdin, stdout=subprocess.PIPE, stderr=subprocess.PIPE)
        given = data
        for i in range(0, len(data) if pieces else 0, pieces or 1):
            program.stdin.write(data[i:i + pieces])
            program.stdin.flush()
            time.sleep(0.001)
            given = None
        # A program that waits where it should not, as for an input that does not end, is ended.
        stop = threading.Timer(20, program.kill)
        stop.start()
        out, errors = program.communicate(given)
        stop.cancel()
        should = (want, b'') if isinstance(want, bytes) else (b'', (want + '\n').encode())
        with self.lock:
            self.runs += 1
            self.bytes_in += len(data)
            self.bytes_out += len(out)
            if (out, errors) != should or program.returncode != 0:
                self.wrong += 1
                print(f'WRONG: {name}: {len(data)} bytes in, status {program.returncode}')
                print(f'  the program: {out[:100]} ({len(out)} bytes), {errors[:200]}\n  expected:    {should[0][:100]} ({len(should[0])} bytes), {should[1]}')

    def run(self, name, words, data, want, pieces=0, stdin=subprocess.PIPE):
        """`want` is what standard output must have, or else, as a str, the words on standard error."""
        self.todo.append((name, words, data, want, pieces, stdin))

    def check(self, name, holds):
        if not holds:
            self.wrong += 1
            print(f'WRONG: {name}')

    def save(self, name, data, want, **how):
        self.run(f'save: {name}', ['save'], data, want, **how)

    def load(self, name, data, **how):
        """A file, or what is none: the model says which."""
        why = refusal(data)
        self.run(f'load: {name}', ['load'], data, why or sheet_of(pairs_of(data)), **how)
        return why

    def both(self, name, pairs):
        """The sheet gives the file, the file the sheet: so each way and back gives what was there before."""
        self.save(name, sheet_of(pairs), file_of(pairs))
        self.check(f'{name}: a file', self.load(name, file_of(pairs)) is None)

    def finish(self):
        left = iter(self.todo)

        def work():
            while True:
                with self.lock:
                    job = next(left, None)
                if job is None:
                    return
                self.one(*job)

        threads = [threading.Thread(target=work) for _ in os.sched_getaffinity(0)]
        for thread in threads:
            thread.start()
        for thread in threads:
            thread.join()
        self.check('every run was done', self.runs == len(self.todo))


def sheets(t, r):
    t.both('no pair', [])
    t.both('the first pair', [(2, 2)])
    t.both('the last pair', [(127, 127)])
    t.both('all pairs', EVERY)
    for count in [3, 100, 4000, 8000]:
        t.both(f'{count} pairs', sorted(r.sample(EVERY, count)))
    t.check('the shortest and the longest file', (len(file_of([])), len(file_of(EVERY))) == (12, 16014))

    orders = [(r.choice(range(2, 40)), r.choice(range(2, 40)), r.randrange(2)) for _ in range(3000)]
    lines = [f'{a},{b},{v}' + r.choice(['\n', '\r\n']) for a, b, v in orders]
    t.save('orders on and off, in any order', ''.join(lines).encode(), file_of(latest(orders)))
    t.save('the same, in pieces', ''.join(lines).encode(), file_of(latest(orders)), pieces=5000)
    t.save('88,011 bytes', b'100,101,1\r\n' * 8001, file_of([(100, 101)]))
    t.save('88,012 bytes', b'100,101,1\r\n' * 8001 + b'\n', LONG_SHEET)
    t.save('many bytes', b'100,101,1\r\n' * 30000, LONG_SHEET)
    t.save('a file', file_of([(8, 9)]), f'line 1: {FORM}')
    for line, words in [('8,9,2', FORM), ('08,9,1', FORM), ('', FORM), ('8,9', FORM), ('1,9,1', GROUP), ('8,128,1', GROUP), ('9,0,0', GROUP)]:
        t.save(f'a wrong line, {line}', f'8,9,1\n9,12,1\r\n{line}\n2,3,1\n'.encode(), f'line 3: {words}')
    t.save('no end of the last line', b'8,9,1\n8,10,1', f'line 2: {FORM}')


def files(t, r):
    small = [(8, 9), (8, 12)]
    good = file_of(small)
    every = [(i, x) for i in range(len(good)) for x in range(256) if x != good[i]]
    # What a damage makes another file of is a pair, and there is none of the file that has no pair.
    t.check('only damaged pairs make another file', all(i < len(good) - 12 for i, x in every if refusal(damaged(good, i, x)) is None))
    t.check('a file without a pair, damaged, is none', all(refusal(damaged(file_of([]), i, x)) for i in range(12) for x in range(256) if x != file_of([])[i]))
    for i, x in every:
        if (good[i] ^ x).bit_count() == 1 or 'every' in sys.argv:
            t.load(f'byte {i} is {x}', damaged(good, i, x))
    for n in range(len(good)):
        t.load(f'cut to {n} bytes', good[:n])
        if n % 3 == 1:
            t.load(f'without the first {n} bytes', good[n:])
    for more in [b'\0', b'\n', b'\2\2', good]:
        t.load('made longer', good + more)
        t.load('made longer in front', more + good)

    for name, data, words in [
        ('no bytes', b'', SHORT),
        ('11 bytes', b'\0' * 11, SHORT),
        ('12 zeros', b'\0' * 12, VERSION),
        ('version 2', file_of(small, version=2), VERSION_2),
        ('version 2 and nothing else right', b'\1' * 5 + file_of([(9, 8)], version=2, count=7, offset=9, length=1), VERSION_2),
        ('version 2 with its count of phys', b''.join(map(bytes, EVERY)) + bytes(x for p in range(128) for x in (p, 0, 1)) + struct.pack('>HHHII', 128, 2, 8001, 0, 16400), VERSION_2),
        ('version 3', file_of(small, version=3), VERSION),
        ('version 256, that is 1 with the lower byte first', file_of(small, version=256), VERSION),
        ('version 0 before lengths', file_of(small, version=0, length=1), VERSION),
        ('another length', file_of(small, length=21), LENGTHS),
        ('the length with the lower byte first', file_of(small, length=16 << 24), LENGTHS),
        ('one pair more', file_of(small, count=3), LENGTHS),
        ('one pair less', file_of(small, count=1), LENGTHS),
        ('lengths before the offset', file_of(small, count=1, offset=2), LENGTHS),
        ('an offset', file_of(small, offset=2), OFFSET),
        ('an offset of 2 ** 24', file_of(small, offset=1 << 24), OFFSET),
        ('an offset before a pair', file_of([(9, 8)], offset=12), OFFSET),
        ('a byte too many before the trailer', b'\2' + file_of([], length=13), LENGTHS),
        ('a group 0', file_of([(0, 8)]), PAIR),
        ('a group 1', file_of([(1, 8)]), PAIR),
        ('a group 128', file_of([(8, 128)]), PAIR),
        ('the higher first', file_of([(9, 8)]), PAIR),
        ('a pair twice', file_of([(8, 9), (8, 9)]), PAIR),
        ('pairs that descend by the second', file_of([(8, 9), (8, 8)]), PAIR),
        ('pairs that descend by the first', file_of([(9, 9), (8, 10)]), PAIR),
        ('only the last pair wrong', file_of(EVERY[:-1] + [(126, 127)]), PAIR),
        ('a pair too many', file_of(EVERY + [(127, 127)]), PAIR),
        ('16,400 bytes', file_of(EVERY + [(127, 127)] * 193), PAIR),
        ('16,401 bytes', b'\2' + file_of(EVERY + [(127, 127)] * 193), LONG),
        ('a sheet, which is no file', sheet_of(small), VERSION),
        ('many bytes', good * 10000, LONG),
    ]:
        t.check(f'the model says of {name}: {refusal(data)}', refusal(data) == words)
        t.load(name, data)
    t.load('in pieces of 3 bytes', good, pieces=3)
    t.load('all pairs, in pieces', file_of(EVERY), pieces=5000)
    for i in range(20):
        pairs = sorted(r.sample(EVERY[:40], r.randrange(4)))
        data = bytearray(file_of(pairs, version=r.choice([1, 1, 1, 1, 2])))
        for _ in range(r.randrange(3)):
            data[r.randrange(len(data))] = r.choice([0, 1, 2, 3, 12, 14, 255])
        t.load(f'a spoilt file, {bytes(data)}', bytes(data))


def damaged(data, i, x):
    return data[:i] + bytes([x]) + data[i + 1:]


def words(t):
    good = file_of([(8, 9)])
    for said in [[], [''], ['sav'], ['saves'], ['Save'], ['load '], ['-h'], ['save', 'load'], ['load', ''], ['load' + 'x' * 30], ['save' * 2000]]:
        t.run(f'started with {said}'[:60], said, good, USAGE)
    # Where no way is told, no input is waited for.
    ours, theirs = os.pipe()
    t.run('usage, with an input that does not end', [], b'', USAGE, stdin=ours)
    folder = os.open(ROOT, os.O_RDONLY)
    t.run('save: an input that cannot be read', ['save'], b'', UNREADABLE, stdin=folder)
    t.run('load: an input that cannot be read', ['load'], b'', UNREADABLE, stdin=folder)
    return [ours, theirs, folder]


def main():
    began = time.time()
    r = random.Random(int(sys.argv[2]) if len(sys.argv) > 2 else 8)
    t = Runs()
    sheets(t, r)
    files(t, r)
    opened = words(t)
    t.finish()
    for fd in opened:
        os.close(fd)
    print(f'{"WRONG" if t.wrong else "ok"}: zonefile: {t.runs} runs, {t.bytes_in} bytes in, {t.bytes_out} out, {t.wrong} wrong, {time.time() - began:.1f} s')
    return 1 if t.wrong else 0


if __name__ == '__main__':
    sys.exit(main())
