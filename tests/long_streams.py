#!/usr/bin/env python3
"""Runs target/bin/bench (after `./build.sh bench`) on streams that are too long to store, and on input that comes in pieces: payloads of 65,535
bytes, events across the ends of the program's window of 131,072 bytes, an event cut off at each of its bytes, a million events. The expected
lines follow from document 01: an event of another kind prints K, a primitive of phy 0 (group 1, which reaches all groups) tells the 7 others."""
import os, pathlib, shutil, subprocess, sys, time

ROOT = pathlib.Path(__file__).resolve().parent.parent
PROGRAM = sys.argv[1] if len(sys.argv) > 1 else ROOT / 'target/bin/bench'
COMMAND = [ROOT / 'second/bench.sh', PROGRAM]


def event(kind, phy, payload=b''):
    return bytes([kind, phy, 0, *len(payload).to_bytes(2, 'big')]) + payload


def text(lines):
    return ''.join(['rack 1\n'] + [f'{i} {line}\n' for i, line in enumerate(lines, 1)]).encode()


def run(name, data, lines, pieces=None):
    began = time.time()
    program = subprocess.Popen(COMMAND, stdin=subprocess.PIPE, stdout=subprocess.PIPE)
    if pieces:
        for i in range(0, len(data), pieces):
            program.stdin.write(data[i:i + pieces])
            program.stdin.flush()
            time.sleep(0.001)
        data = b''
    out, _ = program.communicate(data)
    good = out == text(lines) and program.returncode == 0
    print(f'{"ok" if good else "WRONG"}: {name}, {time.time() - began:.2f} s')
    return good


most = 65535
primitive, unknown = event(3, 0, b'\0'), event(9, 9, bytes(most))
longest = [
    (event(1, 0, bytes.fromhex('4093') + bytes(most - 2)), 'S 03 4 0'),
    (event(2, 0, bytes(most)), 'X 4'),
    (event(3, 0, bytes(most)), 'K'),
    (event(4, 7, b'\2' + bytes(most - 1)), 'X 4'),
    (event(5, 0, bytes(most)), 'K'),
    (event(6, 0, bytes(most)), 'K'),
    (unknown, 'K'),
    (primitive, 'B 7'),
    (unknown[:-1], 'T'),
]
growing = [bytes([9, 9, 9]) + n.to_bytes(2, 'big') + bytes(n) for n in range(2500)]
small = [(primitive, 'B 7'), (event(6, 3), 'L'), (event(7, 7, bytes(3)), 'K'), (primitive, 'B 6')]
results = [
    run('payloads of 65,535 bytes', b''.join(e for e, _ in longest), [line for _, line in longest]),
    run('2,500 events of each length from 5', b''.join(growing), ['K'] * 2500),
    run('seven bytes at a time', b''.join(e for e, _ in small), [line for _, line in small], pieces=7),
    run('one byte at a time', b''.join(e for e, _ in small), [line for _, line in small], pieces=1),
]
for cut in range(1, len(primitive)):
    results.append(run(f'cut off after {cut} bytes', primitive + primitive[:cut], ['B 7', 'T']))
results.append(run('1,000,000 primitives', primitive * 1000000, ['B 7'] * 1000000))
reports = event(1, 0, bytes.fromhex('40510001000000FF'))
results.append(run('100,000 reports of 1,020 bytes', reports * 100000, ['S 00 1020 0'] * 100000))
print(f'{sum(results)} passed, {len(results) - sum(results)} failed')
sys.exit(0 if all(results) else 1)
