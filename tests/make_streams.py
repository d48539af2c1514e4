#!/usr/bin/env python3
"""Writes the bench programs' stored streams: crates/bench/stdin and stdout (document 01's cases 1 to 5), and crates/bench_cases/data/*.bin,
args and stdout. Each event stands here with the line that documents 01 and 02 give for it, worked out by hand; a stream starts on a fresh rack.
make_streams.py --check: writes nothing, and fails where a stored file differs."""
import pathlib, sys

ROOT = pathlib.Path(__file__).resolve().parent.parent / 'crates'
SMP, OPEN, PRIMITIVE, FRAME, IDENTIFY, LEAVING = 1, 2, 3, 4, 5, 6


def event(kind, phy, payload=b'', carried=0):
    return bytes([kind, phy, carried, *len(payload).to_bytes(2, 'big')]) + payload


def address(i):
    """A phy's address on the rack: 50h, six zeros, 10h + i."""
    return bytes([0x50, 0, 0, 0, 0, 0, 0, 0x10 + i])


def smp(phy, text, carried=0):
    return event(SMP, phy, bytes.fromhex(text), carried)


def open_to(phy, destination, byte20=0, first=0x01, length=28):
    frame = bytes([first, 0, 0, 0]) + destination + address(phy) + bytes([byte20]) + bytes(8)
    return event(OPEN, phy, frame[:length])


def primitive(phy, number):
    return event(PRIMITIVE, phy, bytes([number]))


def frame(phy, first, group, length=28):
    return event(FRAME, phy, (bytes([first, 0, 0, group]) + bytes(24))[:length])


def identify(phy, to):
    return event(IDENTIFY, phy, to)


def leaving(phy):
    return event(LEAVING, phy)


def phy_zone(start, *descriptors):
    """93h CONFIGURE PHY ZONE; an odd count is filled to a dword."""
    body = b''.join(bytes(d) for d in descriptors) + bytes(2 * (len(descriptors) % 2))
    return (bytes([0x40, 0x93, 0, 1 + len(body) // 4, 0, 0, start, len(descriptors)]) + body).hex()


def single(source, target, byte9=0x81):
    """C1h, one pair; bit 7 of `target` is the new value."""
    return bytes([0x40, 0xC1, 0, 2, 0, 0, source, target, 0, byte9, 0, 0]).hex()


def batch(start, *rows):
    """C1h, a row of sixteen bytes for each group from `start` on, UPDATE COMPLETE."""
    body = b''.join(rows)
    return (bytes([0x40, 0xC1, 0, 2 + len(body) // 4, 0, 0, 0, 0, 0, 0x91, start, len(rows)]) + body).hex()


def row(*groups):
    """Group j is bit j mod 8 of byte 15 - j/8."""
    return bytes(sum(1 << (j % 8) for j in groups if 15 - j // 8 == k) for k in range(16))


def report(start, rows):
    return bytes([0x40, 0x51, 0, 1, 0, 0, start, rows]).hex()


def discover(phy, byte8=0, byte3=2):
    """10h DISCOVER of a phy; bit 0 of byte 8 is IGNORE ZONE GROUP."""
    return bytes([0x40, 0x10, 0, byte3, 0, 0, 0, 0, byte8, phy, 0, 0]).hex()


ON, UNZONED = 0x80, address(0x70)

CASES_1_TO_5 = [
    (smp(0, '40 C1 00 02 00 00 08 89 00 81 00 00'), 'S 00 4 8'),
    (open_to(2, address(4)), 'O FWD 4'),
    (open_to(2, address(1)), 'O ZV'),
    (primitive(2, 0), 'B 4'),
    (smp(2, '40 C1 00 02 00 00 08 89 00 81 00 00'), 'S 01 4 0'),
]

STREAMS = {
    'empty': [],
    # cases 6 to 12, each on a fresh rack
    'case_6': [(smp(0, phy_zone(7, (0, 9))), 'S 00 4 8'), (smp(0, phy_zone(8)), 'S 00 4 8')],
    'case_7': [(smp(0, phy_zone(8, (0, 9))), 'S 10 4 0')],
    'case_8': [(smp(0, batch(127, row())), 'S 00 4 8')],
    'case_9': [(smp(0, batch(128, row())), 'S 11 4 0')],
    'case_10': [(smp(0, batch(8, row(9), row())), 'S 00 4 8'), (open_to(2, address(4)), 'O ZV')],
    'case_11': [(smp(0, report(127, 5)), 'S 00 28 0')],
    'case_12': [(smp(0, single(1, ON + 8)), 'S 02 4 0')],
    'outcomes': [
        (open_to(2, address(8)), 'O ND'),
        (open_to(2, bytes(8)), 'O ND'),
        (open_to(2, address(2)), 'O BD'),
        (open_to(2, address(4)), 'O ZV'),
        (open_to(2, address(3)), 'O ZV'),  # no group but 1 reaches itself at start-up
        (open_to(6, address(6)), 'O BD'),
        (open_to(6, address(7)), 'O FWD 7'),
        (open_to(0, address(4)), 'O FWD 4'),
        (open_to(2, address(0)), 'O FWD 0'),
        (open_to(7, address(4), byte20=0x08), 'O ZV'),  # phy 7's own group would reach it
        (open_to(7, address(4), byte20=0x81), 'O FWD 4'),
        (open_to(2, address(4), byte20=0x01), 'O ZV'),  # what is carried on a phy that is not participating counts for nothing
        (open_to(0, address(6), first=0xF1), 'O FWD 6'),  # the type is the low 4 bits
    ],
    'broadcasts': [
        (primitive(2, 0), 'B 2'),
        (primitive(6, 7), 'B 2'),
        (primitive(0, 7), 'B 7'),
        (primitive(7, 3), 'B 7'),
        (frame(7, 0x02, 8), 'B 1'),
        (frame(7, 0x72, 1), 'B 7'),
        (frame(7, 0x03, 1, length=4), 'B 7'),
        (smp(0, single(8, ON + 9)), 'S 00 4 8'),
        (frame(7, 0x13, 8, length=4), 'B 3'),
        (primitive(2, 0), 'B 4'),
    ],
    'refusals': [
        (smp(8, phy_zone(0)), 'X 2'),
        (open_to(200, address(4)), 'X 2'),
        (primitive(8, 0), 'X 2'),
        (frame(255, 0x02, 1), 'X 2'),
        (identify(8, address(0)), 'X 2'),
        (leaving(8), 'X 2'),
        (smp(9, ''), 'X 2'),
        (identify(3, address(3)), 'X 7'),
        (leaving(3), 'L'),
        (leaving(3), 'X 7'),
        (smp(3, phy_zone(0)), 'X 7'),
        (smp(3, ''), 'X 7'),
        (open_to(3, address(4)), 'X 7'),
        (primitive(3, 8), 'X 7'),
        (frame(3, 0x02, 1), 'X 7'),
        (identify(3, bytes(8)), 'X 5'),
        (identify(3, address(3)), 'L'),
        (smp(0, '40 93 00'), 'X 4'),
        (smp(0, '41'), 'X 4'),
        (smp(0, ''), 'X 4'),
        (open_to(0, address(4), length=27), 'X 4'),
        (open_to(0, address(4), length=0), 'X 4'),
        (event(OPEN, 0, bytes(29)), 'X 4'),
        (frame(7, 0x02, 1, length=0), 'X 4'),
        (frame(7, 0x02, 1, length=27), 'X 4'),
        (frame(7, 0x02, 1, length=4), 'X 4'),
        (frame(7, 0x03, 1), 'X 4'),
        (smp(0, '41 93 00 01 00 00 00 00'), 'X 5'),
        (open_to(0, address(4), first=0x02), 'X 5'),
        (primitive(0, 8), 'X 5'),
        (frame(7, 0x01, 1), 'X 5'),
        (frame(7, 0x04, 1, length=1), 'X 5'),
        (frame(2, 0x14, 1), 'X 5'),
        (frame(2, 0x02, 1), 'X 6'),
        (frame(0, 0x03, 1, length=4), 'X 6'),
        (primitive(0, 0), 'B 7'),  # nothing above changed a table
    ],
    'kinds': [
        (event(0, 0), 'K'),
        (event(7, 0), 'K'),
        (event(255, 255, bytes(300), 255), 'K'),
        (event(PRIMITIVE, 0), 'K'),
        (event(PRIMITIVE, 0, bytes(2)), 'K'),
        (event(PRIMITIVE, 99, bytes(256)), 'K'),  # before any refusal
        (event(IDENTIFY, 0), 'K'),
        (event(IDENTIFY, 0, bytes(7)), 'K'),
        (event(IDENTIFY, 0, bytes(9)), 'K'),
        (event(LEAVING, 2, bytes(1)), 'K'),
        (event(LEAVING, 99, bytes(8)), 'K'),
        (leaving(2), 'L'),  # phy 2 was still ready
    ],
    'phy_zone': [
        (smp(2, phy_zone(0)), 'S 02 4 0'),
        (smp(2, phy_zone(0), carried=1), 'S 02 4 0'),
        (smp(7, phy_zone(0), carried=8), 'S 02 4 0'),
        (smp(7, phy_zone(0), carried=1), 'S 00 4 8'),
        (smp(0, '40 93 00 00'), 'S 03 4 0'),
        (smp(0, '40 93 00 01 00 00 00 00 00 00 00 00'), 'S 03 4 0'),
        (smp(0, '40 93 00 02 00 00 02 01 00 05'), 'S 03 4 0'),
        (smp(0, '40 93 00 02 00 00 02 03 00 05 00 05'), 'S 03 4 0'),
        (smp(0, phy_zone(7, (0, 9), (0, 9))), 'S 10 4 0'),
        (smp(0, phy_zone(0x87, (0x10, 1))), 'S 00 4 8'),  # start: low 7 bits
        (smp(0, phy_zone(2, (0, 0x80))), 'S 02 4 0'),
        (smp(0, phy_zone(2, (0x10, 9))), 'S 02 4 0'),
        (smp(0, single(8, ON + 9)), 'S 00 4 8'),
        (smp(0, phy_zone(2, (0, 5), (0, 0xFF))), 'S 02 4 0'),
        (primitive(2, 0), 'B 4'),  # phy 2 is still of group 8
        (smp(0, phy_zone(2, (0, 5), (0, 9), (0, 9))), 'S 00 4 8'),
        (primitive(2, 0), 'B 2'),  # phy 2 is of group 5
        (primitive(3, 0), 'B 2'),  # phy 3 of group 9, and phy 4
        (smp(0, phy_zone(7, (0, 9))), 'S 00 4 8'),
        (frame(7, 0x02, 1), 'X 6'),
    ],
    'permission': [
        (smp(2, single(8, ON + 9)), 'S 01 4 0'),
        (smp(0, '40 C1 00 01 00 00 08 89'), 'S 03 4 0'),
        (smp(0, '40 C1 00 03 00 00 08 89 00 81 00 00'), 'S 03 4 0'),
        (smp(0, single(8, ON + 9, byte9=0x71)), 'S 02 4 0'),
        (smp(0, single(8, ON + 9, byte9=0xA1)), 'S 02 4 0'),
        (smp(0, '40 C1 00 03 00 00 08 89 00 81 00 00 00 00 00 00'), 'S 03 4 0'),
        (smp(0, single(8, ON + 1)), 'S 02 4 0'),
        (smp(0, single(0, ON + 8)), 'S 02 4 0'),
        (open_to(2, address(4)), 'O ZV'),
        (smp(0, single(8, ON + 9, byte9=0x82)), 'S 00 4 0'),  # no UPDATE COMPLETE
        (open_to(2, address(4)), 'O FWD 4'),
        (open_to(4, address(2)), 'O FWD 2'),  # both ways
        (smp(0, single(9, 8)), 'S 00 4 8'),
        (open_to(2, address(4)), 'O ZV'),
        (smp(0, batch(1, row())), 'S 02 4 0'),
        (smp(0, batch(1)), 'S 00 4 8'),
        (smp(0, batch(128)), 'S 00 4 8'),
        (smp(0, '40 C1 00 06 00 00 00 00 00 91 08 02' + '00' * 16), 'S 03 4 0'),
        (smp(0, batch(8, row(9), row(8))), 'S 00 4 8'),
        (open_to(4, address(2)), 'O FWD 2'),
        (smp(0, batch(8, row(8))), 'S 00 4 8'),
        (open_to(2, address(4)), 'O ZV'),
        (open_to(2, address(3)), 'O FWD 3'),
    ],
    'report': [
        (smp(2, report(0, 1)), 'S 01 4 0'),
        (smp(0, '40 51 00 01 00 00 00 01 00 00 00 00'), 'S 03 4 0'),
        (smp(0, '40 51 00 02 00 00 00 01'), 'S 03 4 0'),
        (smp(0, report(128, 1)), 'S 11 4 0'),
        (smp(0, report(0, 0)), 'S 00 12 0'),
        (smp(0, report(0, 63)), 'S 00 1020 0'),
        (smp(0, report(0, 255)), 'S 00 1020 0'),
        (smp(0, report(100, 64)), 'S 00 460 0'),
        (smp(0, '40 11 00 00'), 'S 01 4 0'),
    ],
    'links': [
        (leaving(4), 'L'),
        (open_to(0, address(4)), 'O ND'),
        (primitive(0, 0), 'B 6'),
        (smp(0, phy_zone(0)), 'S 00 4 7'),
        (identify(4, address(4)), 'L'),
        (smp(0, single(8, ON + 9)), 'S 00 4 8'),
        (open_to(2, address(4)), 'O FWD 4'),  # still of group 9
        (leaving(4), 'L'),
        (identify(4, UNZONED), 'L'),  # another address: group 0
        (open_to(2, address(4)), 'O ND'),
        (open_to(2, UNZONED), 'O ZV'),
        (open_to(0, UNZONED), 'O FWD 4'),
        (leaving(7), 'L'),
        (identify(7, address(7)), 'L'),
        (frame(7, 0x02, 1), 'B 7'),  # phy 7 still participates
        (leaving(7), 'L'),
        (identify(7, UNZONED), 'L'),
        (frame(7, 0x02, 1), 'X 6'),
        (open_to(0, UNZONED), 'O FWD 4'),  # of two phys with one address the lower
    ],
    # from here to the cut ones: phys that share an address are one port
    'sisters_open': [
        (leaving(3), 'L'),
        (identify(3, address(2)), 'L'),  # phys 2 and 3 are one port; phy 3 is of group 0
        (open_to(3, address(2)), 'O BD'),  # phy 2 is found, a sister
        (open_to(2, address(2)), 'O BD'),
        (open_to(0, address(2)), 'O FWD 2'),
        (open_to(0, address(3)), 'O ND'),
        (leaving(2), 'L'),
        (open_to(3, address(2)), 'O BD'),  # phy 3 itself is found
        (open_to(0, address(2)), 'O FWD 3'),
        (identify(2, address(2)), 'L'),
        (open_to(3, address(2)), 'O BD'),
        (leaving(3), 'L'),
        (identify(3, address(3)), 'L'),  # phy 3 has left the port
        (open_to(3, address(2)), 'O ZV'),
    ],
    'sisters_told_once': [
        (primitive(0, 0), 'B 7'),
        (leaving(3), 'L'),
        (identify(3, address(2)), 'L'),  # phys 2 (group 8) and 3 (group 0) are one port
        (primitive(0, 0), 'B 6'),  # 1, 2, 4, 5, 6, 7
        (primitive(2, 0), 'B 2'),  # 0, 7
        (smp(0, phy_zone(3, (0, 1))), 'S 00 4 8'),  # a change notice goes to sisters too
        (primitive(4, 0), 'B 3'),  # 0, 3, 7: phy 2 is lower and ready, but not permitted
        (smp(0, single(9, ON + 8)), 'S 00 4 8'),
        (primitive(4, 0), 'B 3'),  # 0, 2, 7
        (leaving(2), 'L'),
        (primitive(4, 0), 'B 3'),  # 0, 3, 7
        (identify(2, address(2)), 'L'),  # the same address: still of group 8
        (primitive(2, 0), 'B 4'),  # 0, 4, 5, 7: phy 3 is permitted, but a sister of the arriving phy
        (primitive(3, 0), 'B 6'),  # all but the port: 0, 1, 4, 5, 6, 7
        (frame(7, 0x02, 1), 'B 6'),  # 0, 1, 2, 4, 5, 6
        (frame(7, 0x03, 8, length=4), 'B 4'),  # 0, 3, 4, 5: group 8 does not reach itself
        (leaving(5), 'L'),
        (identify(5, address(2)), 'L'),  # three phys in the port
        (primitive(0, 0), 'B 5'),  # 1, 2, 4, 6, 7
        (primitive(5, 0), 'B 2'),  # of group 0: 0, 7
        (smp(0, phy_zone(0)), 'S 00 4 8'),
    ],
    # a byte from outside that is above 127 is no group; phy 7 participates, phys 0 and 2 do not
    'carried_7': [
        (smp(7, phy_zone(0), carried=127), 'S 02 4 0'),  # a group, without the right
        (smp(7, phy_zone(0), carried=128), 'X 5'),
        (smp(7, phy_zone(0), carried=136), 'X 5'),
        (smp(7, phy_zone(0), carried=255), 'X 5'),
        (smp(7, phy_zone(0), carried=0x81), 'X 5'),  # group 1 has the right; with bit 7 it is no group
        (smp(7, single(8, ON + 9), carried=127), 'S 01 4 0'),
        (smp(7, single(8, ON + 9), carried=136), 'X 5'),
        (smp(7, report(0, 1), carried=127), 'S 01 4 0'),
        (smp(7, report(0, 1), carried=255), 'X 5'),
        (smp(7, '40 11 00 00', carried=127), 'S 01 4 0'),
        (smp(7, '40 11 00 00', carried=136), 'X 5'),  # before the function byte
        (smp(7, '41 93 00 01 00 00 00 00', carried=136), 'X 5'),
        (smp(7, '40 93 00', carried=136), 'X 4'),
        (smp(7, '', carried=255), 'X 4'),
        (leaving(7), 'L'),
        (smp(7, phy_zone(0), carried=136), 'X 7'),
        (identify(7, address(7)), 'L'),
        (primitive(2, 0), 'B 2'),  # nothing above switched 8 and 9 on
    ],
    'carried_0': [
        (smp(0, phy_zone(0), carried=127), 'S 00 4 8'),  # phy 0's own group speaks, whatever is carried
        (smp(0, phy_zone(0), carried=128), 'S 00 4 8'),
        (smp(0, phy_zone(0), carried=136), 'S 00 4 8'),
        (smp(0, phy_zone(0), carried=255), 'S 00 4 8'),
        (smp(0, '40 11 00 00', carried=136), 'S 01 4 0'),
        (smp(0, report(127, 5), carried=255), 'S 00 28 0'),
        (smp(2, phy_zone(0), carried=136), 'S 02 4 0'),
        (smp(0, single(8, ON + 9), carried=136), 'S 00 4 8'),
        (primitive(2, 0), 'B 4'),
    ],
    'byte_3': [
        (frame(7, 0x02, 127), 'B 1'),  # phy 0
        (frame(7, 0x02, 128), 'X 5'),
        (frame(7, 0x02, 136), 'X 5'),
        (frame(7, 0x02, 255), 'X 5'),
        (frame(7, 0x03, 136, length=4), 'X 5'),
        (frame(7, 0x01, 136), 'X 5'),
        (frame(7, 0x02, 136, length=27), 'X 4'),
        (frame(0, 0x02, 136), 'X 6'),
        (frame(2, 0x03, 255, length=4), 'X 6'),
        (smp(0, single(8, ON + 9)), 'S 00 4 8'),
        (frame(7, 0x02, 8), 'B 3'),
        (frame(7, 0x02, 136), 'X 5'),
        (open_to(7, address(4), byte20=0x88), 'O FWD 4'),  # byte 20 stays: group 8
        (open_to(7, address(2), byte20=0xFF), 'O ZV'),
    ],
    # DISCOVER: phys 0 and 7 are of group 1, which reaches all and is reached by all; 2 of group 8; 4 of group 9; 6 of group 0
    'discover': [
        (smp(2, discover(4)), 'S 16 4 0'),
        (smp(2, discover(4, byte8=1)), 'S 00 108 0'),
        (smp(2, discover(8)), 'S 10 4 0'),
        (smp(2, discover(8, byte8=1)), 'S 10 4 0'),
        (smp(2, discover(255)), 'S 10 4 0'),
        (smp(2, discover(7)), 'S 00 108 0'),
        (smp(2, discover(2)), 'S 16 4 0'),  # no group but 1 reaches itself at start-up, so not even the asking phy is shown
        (smp(0, discover(4)), 'S 00 108 0'),
        (smp(6, discover(4)), 'S 16 4 0'),
        (smp(0, single(8, ON + 9)), 'S 00 4 8'),
        (smp(2, discover(4)), 'S 00 108 0'),
        (smp(4, discover(2)), 'S 00 108 0'),  # both ways
        (smp(2, discover(8)), 'S 10 4 0'),
        (smp(2, discover(6)), 'S 16 4 0'),
        (primitive(2, 0), 'B 4'),  # nothing but the order changed a table
    ],
    'discover_request': [
        (smp(0, discover(4, byte3=0)), 'S 00 108 0'),  # older tools
        (smp(2, discover(4, byte3=0)), 'S 16 4 0'),
        (smp(0, discover(4, byte3=1)), 'S 03 4 0'),
        (smp(0, discover(4, byte3=3)), 'S 03 4 0'),
        (smp(0, '40 10 00 00'), 'S 03 4 0'),
        (smp(0, '40 10 00 02 00 00 00 00 00 04 00'), 'S 03 4 0'),
        (smp(0, '40 10 00 02 00 00 00 00 00 04 00 00 00'), 'S 03 4 0'),
        (smp(0, '40 10 00 03 00 00 00 00 00 04 00 00 00 00 00 00'), 'S 03 4 0'),
        (smp(2, discover(8, byte3=1)), 'S 03 4 0'),  # before the phy and the groups
        (smp(2, discover(4, byte8=0xFE)), 'S 16 4 0'),  # of byte 8 only bit 0 counts
        (smp(2, discover(4, byte8=0xFF)), 'S 00 108 0'),
        (smp(0, '40 10 FF 02 FF FF FF FF 00 04 FF FF'), 'S 00 108 0'),  # no other byte counts
        (smp(0, '41 10 00 02 00 00 00 00 00 04 00 00'), 'X 5'),
    ],
    'discover_links': [
        (leaving(4), 'L'),
        (smp(0, discover(4)), 'S 00 108 0'),  # what is attached is zero, but the phy is shown
        (smp(2, discover(4)), 'S 16 4 0'),  # still of group 9
        (smp(4, discover(0)), 'X 7'),
        (identify(4, address(4)), 'L'),
        (smp(0, discover(4)), 'S 00 108 0'),
        (smp(2, discover(4)), 'S 16 4 0'),
        (smp(0, single(8, ON + 9)), 'S 00 4 8'),
        (smp(2, discover(4)), 'S 00 108 0'),  # the same address: still of group 9
        (leaving(4), 'L'),
        (smp(2, discover(4)), 'S 00 108 0'),
        (identify(4, UNZONED), 'L'),  # another address: group 0
        (smp(2, discover(4)), 'S 16 4 0'),
        (smp(2, discover(5)), 'S 00 108 0'),
    ],
    'discover_carried': [
        (smp(7, discover(4), carried=1), 'S 00 108 0'),
        (smp(7, discover(4), carried=8), 'S 16 4 0'),  # phy 7's own group would reach it
        (smp(7, discover(4), carried=127), 'S 16 4 0'),
        (smp(7, discover(4, byte8=1), carried=127), 'S 00 108 0'),
        (smp(7, discover(4), carried=128), 'X 5'),
        (smp(7, discover(4, byte8=1), carried=128), 'X 5'),  # no group may not ask at all
        (smp(2, discover(4), carried=1), 'S 16 4 0'),  # what is carried on a phy that is not participating counts for nothing
        (smp(0, discover(4), carried=128), 'S 00 108 0'),
    ],
    # what a member on phy 2 learns of group 9's disk on phy 4, which it may not reach
    'learned': [
        (smp(2, discover(4)), 'S 16 4 0'),
        (leaving(4), 'L'),
        (smp(2, discover(4)), 'S 16 4 0'),
        (identify(4, UNZONED), 'L'),
        (smp(2, discover(4)), 'S 16 4 0'),
        (smp(0, phy_zone(4, (0, 10))), 'S 00 4 8'),
        (smp(2, discover(4)), 'S 16 4 0'),
        (smp(0, single(9, ON + 10)), 'S 00 4 8'),
        (smp(2, discover(4)), 'S 16 4 0'),  # no DISCOVER that heeds groups told any of it
        (smp(2, discover(4, byte8=1)), 'S 00 108 0'),  # but with the ignore bit one any phy is shown,
        (smp(2, discover(8)), 'S 10 4 0'),  # phy 8 is not there, so there are eight,
        (open_to(2, UNZONED), 'O ZV'),  # an address that is on the shelf is told
        (open_to(2, address(4)), 'O ND'),  # from one that is not
    ],
    'cut_header_1': [(bytes([LEAVING]), 'T')],
    'cut_header_4': [(leaving(2), 'L'), (bytes([9, 0, 0, 0]), 'T')],
    'cut_payload': [(primitive(0, 0), 'B 7'), (primitive(0, 0)[:-1], 'T')],
    'cut_last_byte': [(open_to(0, address(4))[:-1], 'T')],
    'cut_unknown_kind': [(event(9, 9, bytes(3))[:-1], 'T')],
}


def text(stream):
    return ''.join(['rack 1\n'] + [f'{i} {line}\n' for i, (_, line) in enumerate(stream, 1)])


def files():
    yield 'bench/stdin', b''.join(e for e, _ in CASES_1_TO_5)
    yield 'bench/stdout', text(CASES_1_TO_5).encode()
    for name, stream in STREAMS.items():
        yield f'bench_cases/data/{name}.bin', b''.join(e for e, _ in stream)
    yield 'bench_cases/args', ''.join(f'{name}.bin\n' for name in STREAMS).encode()
    yield 'bench_cases/stdout', ''.join(f'== {name}.bin\n{text(s)}' for name, s in STREAMS.items()).encode()


bad = 0
for path, data in files():
    file = ROOT / path
    if sys.argv[1:] == ['--check']:
        if not file.exists() or file.read_bytes() != data:
            bad += 1
            print('differs:', file)
    else:
        file.parent.mkdir(parents=True, exist_ok=True)
        file.write_bytes(data)
sys.exit(1 if bad else 0)
