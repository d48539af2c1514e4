#!/usr/bin/env python3
"""Runs target/bin/warden (after `./build.sh warden`) on made-up lines, right and wrong, against a model of the grammar and of document 01's layouts
that shares nothing with the program: each form, every refusal, responses of every function, numbers of any length, lines at and over the
65,535 bytes that a line may have, and input that comes in pieces. Fails where a run differs.

warden.py [PROGRAM [SEED]]"""
import os, pathlib, random, re, shutil, subprocess, sys, time

ROOT = pathlib.Path(__file__).resolve().parent.parent
PROGRAM = sys.argv[1] if len(sys.argv) > 1 else ROOT / 'target/bin/warden'
COMMAND = [ROOT / 'second/bench.sh', PROGRAM]
LONGEST = 65535

FORMS = {
    'single': 'single A B on|off [complete]',
    'phys': 'phys FIRST {GROUP [participating] [priority N]}',
    'batch': 'batch FIRST [complete] [: {GROUP} { | {GROUP} }]',
    'report': 'report FIRST COUNT',
    'response': 'response HEX HEX ..',
}
REASONS = {
    22: 'too many: give at most 128 phys in one order, or 63 rows in one batch or report',
    23: 'too high: groups and phys end at 127, priorities at 15',
    24: 'a shelf would fail it: leave groups 0 and 1 out, and let a phy participate only in group 1',
    25: 'no shelf answers so: copy the response whole, from its 41 to its last byte',
}
RIGHT = 'no right to change zoning'
LENGTH = 'invalid request length'
RESULTS = {
    0x93: {0x00: 'done', 0x02: 'no right, or a group that the shelf does not take', 0x03: LENGTH, 0x10: 'no such phy'},
    0xC1: {0x00: 'done', 0x01: RIGHT, 0x02: 'failed: a group that the shelf does not take', 0x03: LENGTH, 0x11: 'no such group'},
    0x51: {0x01: RIGHT, 0x03: LENGTH, 0x11: 'no such group'},
}


class Wrong(Exception):
    """The line is not of its form."""


class Refused(Exception):
    """The console's number."""


def words(line):
    return re.findall(rb'[A-Za-z0-9]+|[^ \t]', line, re.S)


def number(word):
    if not re.fullmatch(rb'[0-9]+', word):
        raise Wrong
    return int(word.lstrip(b'0')[:20] or b'0')


def check(refusal, holds):
    if holds:
        raise Refused(refusal)


def request(function, payload):
    payload += bytes(-len(payload) % 4)
    return bytes([0x40, function, 0, len(payload) // 4]) + payload


def single(rest):
    if len(rest) not in (3, 4) or rest[2] not in (b'on', b'off') or rest[3:] not in ([], [b'complete']):
        raise Wrong
    a, b = number(rest[0]), number(rest[1])
    check(23, a > 127 or b > 127)
    check(24, a < 2 or b < 2)
    return request(0xC1, bytes([0, 0, a, b + 128 * (rest[2] == b'on'), 0, 0x80 + len(rest) - 3, 0, 0]))


def phys(rest):
    if not rest:
        raise Wrong
    start, entries = number(rest[0]), []
    rest = rest[1:]
    while rest:
        entry, rest = {'group': number(rest[0])}, rest[1:]
        while rest and rest[0] in (b'participating', b'priority'):
            word, size = rest[0], 1 + (rest[0] == b'priority')
            if word in entry or len(rest) < size:
                raise Wrong
            entry[word] = number(rest[1]) if size == 2 else 1
            rest = rest[size:]
        entries.append((entry.get(b'participating', 0), entry.get(b'priority', 0), entry['group']))
    check(22, len(entries) > 128)
    check(23, start > 127 or any(p > 15 or g > 127 for _, p, g in entries))
    check(24, start + len(entries) <= 128 and any(z and g != 1 for z, _, g in entries))
    return request(0x93, bytes([0, 0, start, len(entries)]) + b''.join(bytes([16 * z + p, g]) for z, p, g in entries))


def batch(rest):
    if not rest:
        raise Wrong
    start, rest = number(rest[0]), rest[1:]
    complete = rest[:1] == [b'complete']
    rest = rest[complete:]
    rows = []
    if rest:
        if rest[0] != b':':
            raise Wrong
        rows = [[]]
        for word in rest[1:]:
            rows.append([]) if word == b'|' else rows[-1].append(number(word))
    check(22, len(rows) > 63)
    check(23, start > 127 or any(g > 127 for row in rows for g in row))
    check(24, start < 2 and rows)
    sets = b''.join(sum(1 << g for g in set(row)).to_bytes(16, 'big') for row in rows)
    return request(0xC1, bytes([0, 0, 0, 0, 0, 0x90 + complete, start, len(rows)]) + sets)


def report(rest):
    if len(rest) != 2:
        raise Wrong
    start, count = number(rest[0]), number(rest[1])
    check(22, count > 63)
    check(23, start > 127)
    return request(0x51, bytes([0, 0, start, count]))


def response(rest):
    if not rest or not all(re.fullmatch(rb'[0-9A-Fa-f]{2}', word) for word in rest):
        raise Wrong
    b = bytes(int(word, 16) for word in rest)
    check(25, len(b) < 4 or b[0] != 0x41)
    if b[1:3] == b'\x51\x00':
        check(25, len(b) < 12 or b[4:6] != bytes(2) or b[6] > 127 or b[7] > 63 or b[6] + b[7] > 128)
        check(25, b[3] != 2 + 4 * b[7] or len(b) != 12 + 16 * b[7])
        lines = [f'51h: 00h, {b[7]} row{"s" * (b[7] != 1)} from group {b[6]}']
        for i in range(b[7]):
            row = int.from_bytes(b[12 + 16 * i:28 + 16 * i], 'big')
            lines.append(f'{b[6] + i}: ' + (' '.join(str(g) for g in range(128) if row >> g & 1) or 'none'))
        return '\n'.join(lines)
    check(25, b[2] not in RESULTS.get(b[1], {}) or b[3] != 0 or len(b) != 4)
    return f'{b[1]:02x}h: {b[2]:02x}h, {RESULTS[b[1]][b[2]]}'


def answer(n, line):
    if len(line) > LONGEST:
        return f'line {n}: expected at most {LONGEST} bytes before the line\'s end\n'
    rest = words(line[:-1] if line.endswith(b'\r') else line)
    if not rest:
        return ''
    name = rest[0].decode('latin-1')
    if name not in FORMS:
        return f'line {n}: expected single, phys, batch, report or response\n'
    try:
        said = globals()[name](rest[1:])
        return (said if isinstance(said, str) else said.hex(' ')) + '\n'
    except Wrong:
        return f'line {n}: expected {FORMS[name]}\n'
    except Refused as refused:
        return f'line {n}: {refused.args[0]}, {REASONS[refused.args[0]]}\n'


def expected(data):
    lines = data.split(b'\n')
    return ''.join(answer(n, line) for n, line in enumerate(lines, 1)).encode()


class Lines:
    """Made-up lines: of a form for the most part, and then spoilt now and then."""

    def __init__(self, seed):
        self.r = random.Random(seed)

    def number(self, most=127):
        r = self.r
        n = r.choice([r.randint(0, most)] * 12 + [0, 1, 2, most, most + 1, 255, 256, 264, 65544, 10 ** 30 + 8])
        return '0' * r.choice([0] * 9 + [30]) + str(n)

    def single(self):
        return ['single', self.number(), self.number(), self.r.choice(['on', 'off'])] + self.r.choice([[], ['complete']])

    def phys(self):
        r = self.r
        line = ['phys', self.number()]
        for _ in range(r.choice([0, 1, 2, 3, 4, 5, 20, 127, 128, 129, 200])):
            traits = r.choice([[]] * 3 + [['participating']] + [['priority', str(r.choice([0, 3, 15] * 9 + [16, 264]))]])
            if traits and r.random() < 0.3:
                traits = r.choice([['participating', 'priority', '4'], ['priority', '5', 'participating']])
            group = '1' if 'participating' in traits and r.random() < 0.9 else str(r.choice([0, 1, 2, 8, 9, 127] * 40 + [128, 264]))
            line += [group] + traits
        return line

    def batch(self):
        r = self.r
        line = ['batch', self.number()] + r.choice([[], ['complete']])
        rows = r.choice([0, 1, 1, 2, 3, 8, 62, 63, 64, 80])
        for i in range(rows):
            high = [128] if r.random() < 0.01 else []
            line += [':|'[i > 0]] + [str(r.choice(list(range(128)) + high)) for _ in range(r.choice([0, 1, 2, 5, 126]))]
        return line

    def report(self):
        return ['report', self.number(), self.number(63)]

    def response(self):
        r = self.r
        function = r.choice([0x93, 0xC1, 0x51, 0x51, r.randrange(256)])
        result = r.choice([0, 0, 1, 2, 3, 0x10, 0x11, r.randrange(256)])
        b = bytearray([0x41, function, result, 0])
        if b[1:3] == b'\x51\x00':
            count = r.choice([0, 1, 2, 5, 62, 63, 64])
            start = r.choice([r.randrange(128), max(0, 128 - count), 129 - count, 0, 128])
            b[3] = (2 + 4 * count) % 256
            b += bytes([0, 0, start % 256, count]) + r.choice([bytes(4), r.randbytes(4)])
            b += b''.join(r.choice([bytes(16), b'\xff' * 16, r.randbytes(16), bytes(15) + b'\2']) for _ in range(count))
        if r.random() < 0.15:
            b[r.randrange(len(b))] ^= 1 << r.randrange(8)
        if r.random() < 0.1:
            b = b[:r.randrange(len(b))] if r.random() < 0.5 else b + r.randbytes(r.choice([1, 4, 16, 1020]))
        return ['response'] + [r.choice(['%02x', '%02X']) % x for x in b]

    def line(self):
        r = self.r
        line = r.choice([self.single, self.phys, self.batch, self.report, self.response])()
        if r.random() < 0.2:
            i = r.randrange(len(line))
            extra = r.choice(['on', 'complete', 'participating', 'priority', ':', '|', '7', 'x', ',', '-', '8a', '\r', '\xff', 'single', '0x9'])
            line[i:i + r.randrange(2)] = [extra] * r.choice([0, 1, 1, 2])
        gap = lambda: r.choice([' ', ' ', ' ', '  ', '\t', ' \t '])
        text = r.choice(['', '', '', gap()])
        for word in line:
            tight = text == '' or word in ':|' and r.random() < 0.5 or text[-1] in ':|' and r.random() < 0.5
            text += word if tight or text[-1] in ' \t' else gap() + word
        text += r.choice(['', '', '', gap()]) + r.choice(['', '', '', '\r'])
        return text.encode('latin-1')

    def noise(self):
        return bytes(self.r.choice(b' \t\r:|09azAZ\0\xff,') for _ in range(self.r.randrange(12)))


def shown():
    """The lines that README.md shows, and the answers that it says they get."""
    blocks = re.search(r'These lines\n\n(.*?)\n\ngive\n\n(.*?)\n\n', (ROOT / 'README.md').read_text(), re.S)
    return (re.sub('^    ', '', block, flags=re.M).encode() + b'\n' for block in blocks.groups())


def run(name, data, pieces=None, want=None):
    began = time.time()
    program = subprocess.Popen(COMMAND, stdin=subprocess.PIPE, stdout=subprocess.PIPE)
    given = data
    if pieces:
        for i in range(0, len(data), pieces):
            program.stdin.write(data[i:i + pieces])
            program.stdin.flush()
            time.sleep(0.001)
        given = b''
    out, _ = program.communicate(given)
    want = expected(data) if want is None else want
    good = out == want and program.returncode == 0
    print(f'{"ok" if good else "WRONG"}: {name}, {data.count(10)} line ends, {len(data)} bytes in, {len(out)} out, {time.time() - began:.2f} s')
    if not good:
        for a, b in zip(out.split(b'\n'), want.split(b'\n')):
            if a != b:
                print(f'  the program: {a[:300]}\n  expected:    {b[:300]}')
                break
    return good


def main():
    seed = int(sys.argv[2]) if len(sys.argv) > 2 else 6
    made = Lines(seed)
    some = [made.line() for _ in range(6000)] + [made.noise() for _ in range(2000)]
    made.r.shuffle(some)
    short = [line for line in some if len(line) < 200][:300]
    order = b'report 8 2'
    at_most = order + b' ' * (LONGEST - len(order))
    groups = b' '.join(b'%d' % g for g in range(2, 128))
    largest = b'batch 2:' + b'|'.join([groups] * 63)
    report = bytes([0x41, 0x51, 0, 254, 0, 0, 65, 63]) + bytes(4) + b'\xff' * 1008
    lines, answers = shown()
    good = [
        run("README's lines", lines, want=answers),
        run('made-up lines', b'\n'.join(some)),
        run('the same, each ended by CR and LF', b'\r\n'.join(line for line in some if b'\r' not in line) + b'\r\n'),
        run('in pieces of 7 bytes', b'\n'.join(short), 7),
        run('no input', b''),
        run('empty lines and a last one without an end', b'\n\n \n\r\nreport 8 2'),
        run('a last line with a CR', b'report 8 2\r'),
        run('two CRs before the end', b'report 8 2\r\r\n'),
        run('a line of as many bytes as there may be', at_most + b'\n' + order),
        run('the same at the end', order + b'\n' + at_most),
        run('a byte more', at_most + b' \n' + order),
        run('a byte more at the end', order + b'\n' + at_most + b' '),
        run('a byte more, in pieces', order + b'\n' + at_most + b' \n' + order + b'\n', 5000),
        run('a line of many windows', order + b'\n' + b'8 ' * 500000 + b'\n' + order + b'\n'),
        run('lines too long one after the other', (b'x' * 70000 + b'\n') * 5 + (b'x' * 131072 + b'\n') * 5 + order),
        run('the largest batch, often', (largest + b'\n') * 40),
        run('the largest batch, in pieces', (largest + b'\n') * 3, 4096),
        run('a batch of more groups than fit a window', largest + b'|' + b' 9' * 40000 + b'\n' + order),
        run('the largest report', b'response ' + report.hex(' ').encode() + b'\n' + order),
        run('a response of 20,000 bytes', b'response ' + b'41 ' * 20000 + b'\n'),
        run('a number of 60,000 digits', b'report 8 ' + b'0' * 60000 + b'2\nreport 8 1' + b'0' * 60000),
        run('100,000 orders', b'single 8 9 on\n' * 100000),
    ]
    return 0 if all(good) else 1


if __name__ == '__main__':
    sys.exit(main())
