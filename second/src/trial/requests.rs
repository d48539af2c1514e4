//! SMP requests and frames: mostly right, sometimes damaged in one place.

use super::profile::Profile;
use super::random::Random;
use crate::permission::FIRST_NAMED;
use crate::smp::{CONFIGURE_PHY_ZONE, CONFIGURE_ZONE_PERMISSION, DISCOVER, REPORT_ZONE_PERMISSION, REQUEST_TYPE};

/// Groups at the edges, and a few that meet often.
const GROUPS: [u8; 12] = [0, 1, 1, 2, 3, 7, 8, 8, 9, 64, 126, 127];

/// The same for a table of groups 0 to 7. Modulo 8 those from 8 to 10 are groups 0 to 2.
const GROUPS_OF_SMALL: [u8; 16] = [0, 1, 1, 1, 2, 2, 3, 5, 6, 7, 7, 8, 8, 9, 10, 127];

/// Bytes that are no group: at the edges, and such as modulo 128 are groups that meet often.
const NO_GROUPS: [u8; 6] = [128, 128, 129, 130, 136, 255];

/// Numbers that a length, a start or a count may be off to.
const EDGES: [u8; 14] = [0, 1, 2, 7, 62, 63, 64, 65, 126, 127, 128, 129, 254, 255];

pub fn group(random: &mut Random, profile: Profile) -> u8 {
    if random.percent(85) {
        match profile {
            Profile::Large => random.pick(&GROUPS),
            Profile::Small => random.pick(&GROUPS_OF_SMALL),
        }
    } else {
        random.byte() & 0x7f
    }
}

/// A group byte whose highest bit is none of the group's and sometimes on.
pub fn group_byte(random: &mut Random, profile: Profile) -> u8 {
    group(random, profile) | if random.percent(15) { 0x80 } else { 0 }
}

/// A group byte from outside, of which so many in a hundred are no group. The edge, 127 and 128, is met often.
pub fn byte_from_outside(random: &mut Random, profile: Profile, no_group: usize) -> u8 {
    match (random.percent(no_group), random.below(20)) {
        (true, 0..=7) => random.pick(&NO_GROUPS),
        (true, _) => group(random, profile) | 0x80,
        (false, 0) => 127,
        (false, _) => group(random, profile),
    }
}

/// Reserved bits: mostly zero, sometimes anything.
pub fn reserved(random: &mut Random) -> u8 {
    if random.percent(70) {
        0
    } else {
        random.byte()
    }
}

fn header(random: &mut Random, function: u8, length: usize) -> Vec<u8> {
    vec![REQUEST_TYPE, function, reserved(random), length as u8, reserved(random), reserved(random)]
}

/// A request of any function but DISCOVER for a shelf with this many phys.
pub fn request(random: &mut Random, profile: Profile, phys: usize) -> Vec<u8> {
    let mut request = match random.below(20) {
        0..=5 => configure_phy_zone(random, profile, phys),
        6..=10 => single(random, profile),
        11..=14 => batch(random, profile),
        15..=17 => report(random),
        _ => other_function(random),
    };
    if random.percent(25) {
        damage(random, &mut request);
    }
    request
}

pub fn configure_phy_zone(random: &mut Random, profile: Profile, phys: usize) -> Vec<u8> {
    let start = random.between(0, phys.min(127));
    let left = phys - start;
    let k = match random.below(10) {
        0 => left,
        1 => left + 1,
        2 => random.below(256),
        3 => 0,
        _ => random.between(0, left.min(9)),
    };
    let k = k.min(255);
    let mut request = header(random, CONFIGURE_PHY_ZONE, 1 + k.div_ceil(2));
    request.push(start as u8 | reserved(random) & 0x80);
    request.push(k as u8);
    let all_in_table = random.percent(60);
    for _ in 0..k {
        request.extend(descriptor(random, profile, all_in_table));
    }
    if k % 2 == 1 {
        request.extend([reserved(random), reserved(random)]);
    }
    if k > 0 && random.percent(16) {
        let at = 8 + 2 * random.below(k);
        request[at..at + 2].copy_from_slice(&random.pick(&TURNED_DOWN));
    }
    request
}

/// Descriptors that are answered 02h; the last three only on the small shelf.
const TURNED_DOWN: [[u8; 2]; 9] = [
    [0x00, 0x80],
    [0x10, 0x00],
    [0x1f, 0x02],
    [0x00, 0xff],
    [0x10, 0x81],
    [0x10, 0x7f],
    [0x00, 0x08],
    [0x0f, 0x09],
    [0x00, 0x7f],
];

fn descriptor(random: &mut Random, profile: Profile, in_table: bool) -> [u8; 2] {
    let noise = reserved(random) & 0xe0;
    let priority = random.byte() & 0x0f;
    if random.percent(30) {
        return [noise | 0x10 | priority, 1];
    }
    let group = group(random, profile);
    [noise | priority, if in_table { group % profile.groups_of_table() as u8 } else { group }]
}

/// Byte 9: the operation, UPDATE COMPLETE and the bits between.
fn operation(random: &mut Random, operation: u8) -> u8 {
    operation << 4 | random.byte() & 0x01 | reserved(random) & 0x0e
}

pub fn single(random: &mut Random, profile: Profile) -> Vec<u8> {
    let mut request = header(random, CONFIGURE_ZONE_PERMISSION, 2);
    let lowest = |random: &mut Random| if random.percent(80) { FIRST_NAMED as u8 } else { 0 };
    let [source, target] = [0, 1].map(|_| lowest(random).max(group(random, profile)));
    request.push(source | reserved(random) & 0x80);
    request.push(target | random.byte() & 0x80);
    request.push(reserved(random));
    request.push(operation(random, 8));
    request.extend([reserved(random), reserved(random)]);
    request
}

pub fn batch(random: &mut Random, profile: Profile) -> Vec<u8> {
    let (start, k) = match profile {
        Profile::Small if random.percent(85) => rows_of_small(random),
        _ => rows(random),
    };
    let mut request = header(random, CONFIGURE_ZONE_PERMISSION, 2 + 4 * k);
    request.extend([reserved(random), reserved(random), reserved(random), operation(random, 9)]);
    request.extend([start as u8, k as u8]);
    for _ in 0..k {
        request.extend(row(random, profile));
    }
    request
}

/// A start and a count of rows.
fn rows(random: &mut Random) -> (usize, usize) {
    let k = match random.below(12) {
        0 => 0,
        1 => 63,
        2 => random.between(60, 126),
        3 => random.between(0, 63),
        _ => random.between(1, 6),
    };
    let start = match random.below(12) {
        0 => random.below(3),
        1 => 128 - k,
        2 => 129 - k,
        3 => usize::from(random.pick(&EDGES)),
        _ => random.between(2, 128 - k),
    };
    (start, k)
}

/// The same for a table of groups 0 to 7: mostly up to its last row or a little beyond.
fn rows_of_small(random: &mut Random) -> (usize, usize) {
    match random.below(10) {
        0 => (random.pick(&[6, 7, 8, 9, 127, 128, 129, 255]), 0),
        1 => (random.between(8, 131), random.between(1, 3)),
        _ => {
            let last = random.pick(&[4, 6, 7, 7, 7, 7, 8, 8, 9]);
            let k = random.between(1, last.min(8));
            (last + 1 - k, k)
        }
    }
}

fn row(random: &mut Random, profile: Profile) -> [u8; 16] {
    let mut number = match random.below(6) {
        0 => 0,
        1 => u128::MAX,
        2 => u128::from(random.number()) << 64 | u128::from(random.number()),
        _ => 0,
    };
    for _ in 0..random.below(5) {
        number ^= 1 << group(random, profile);
    }
    number.to_be_bytes()
}

pub fn report(random: &mut Random) -> Vec<u8> {
    let mut request = header(random, REPORT_ZONE_PERMISSION, 1);
    request.push(match random.below(10) {
        0..=2 => random.pick(&EDGES),
        3 => random.below(3) as u8,
        _ => random.byte() & 0x7f,
    });
    request.push(if random.percent(40) { random.pick(&EDGES) } else { random.byte() & 0x0f });
    request
}

/// A DISCOVER for a phy of a shelf with this many, or for one beyond. All bytes that no rule reads are zero or anything.
pub fn discover(random: &mut Random, phys: usize) -> Vec<u8> {
    let mut request = if random.percent(40) { vec![0; 12] } else { random.bytes(12) };
    request[..2].copy_from_slice(&[REQUEST_TYPE, DISCOVER]);
    request[3] = match random.below(20) {
        0 => random.pick(&[1, 3, 0x1a, 0xff]),
        1..=6 => 0,
        _ => 2,
    };
    let beside = if random.percent(10) { 0xfe } else { request[8] & 0xfe };
    request[8] = beside | u8::from(random.percent(35));
    request[9] = match random.below(16) {
        0..=1 => phys - 1,
        2 => phys,
        3 => random.pick(&[127, 128, 255]),
        4 => random.below(phys) | 0x80,
        _ => random.below(phys),
    } as u8;
    if random.percent(6) {
        let length = random.pick(&[4, 8, 11, 13, 16, 12 + 1024]);
        request.resize(length, 0);
        if random.percent(50) {
            request[3] = (length / 4 - 1) as u8;
        }
    } else if random.percent(10) {
        damage(random, &mut request);
    }
    request
}

fn other_function(random: &mut Random) -> Vec<u8> {
    let function = random.pick(&[0x00, 0x0f, 0x11, 0x13, 0x50, 0x52, 0x90, 0x91, 0x92, 0x94, 0xc0, 0xc2, 0xff]);
    let function = if random.percent(30) { random.byte() } else { function };
    let length = random.below(24);
    let mut request = header(random, function, length / 4);
    request.truncate(4);
    request.extend(random.bytes(length));
    request
}

/// One place is damaged: the length and its byte, a count, a start, byte 0, or any byte.
fn damage(random: &mut Random, request: &mut Vec<u8>) {
    match random.below(12) {
        0 => request.truncate(random.below(6)),
        1 => request.truncate(request.len().saturating_sub(random.between(1, 4))),
        2 => request.extend(random.bytes(4)),
        3 => {
            let extra = random.between(1, 3);
            request.extend(random.bytes(extra));
        }
        4 => step(random, request, 3),
        5 => step(random, request, 7),
        6 => step(random, request, 11),
        7 => replace(request, 9, random.byte()),
        // 256 dwords more: where a length is cut to a byte, L would agree.
        8 => request.extend(random.bytes(1024)),
        9 => {
            // A whole dword more or less, and the length byte says so.
            let dwords = random.between(1, 5);
            request.resize(4 * dwords, 0);
            replace(request, 3, dwords as u8 - 1);
        }
        10 => replace(request, 0, random.pick(&[0x00, 0x41, 0x44, 0xc0])),
        _ => {
            let at = random.below(request.len().max(1));
            let to = if random.percent(50) { random.pick(&EDGES) } else { random.byte() };
            replace(request, at, to);
        }
    }
}

fn step(random: &mut Random, request: &mut [u8], at: usize) {
    let by = random.pick(&[1, 0xff, 2, 0xfe]);
    if let Some(byte) = request.get_mut(at) {
        *byte = byte.wrapping_add(by);
    }
}

fn replace(request: &mut [u8], at: usize, to: u8) {
    if let Some(byte) = request.get_mut(at) {
        *byte = to;
    }
}

/// An OPEN frame of the right length and type; all but destination and byte 20 is anything.
pub fn open_frame(random: &mut Random, profile: Profile, destination: u64) -> Vec<u8> {
    let mut frame = random.bytes(28);
    frame[0] = frame[0] & 0xf0 | 0x1;
    frame[4..12].copy_from_slice(&destination.to_be_bytes());
    frame[20] = group(random, profile) | random.byte() & 0x80;
    frame
}

/// A broadcast frame of type 2h or 3h with the length for it.
pub fn broadcast_frame(random: &mut Random, profile: Profile) -> Vec<u8> {
    let (kind, length) = random.pick(&[(0x2, 28), (0x3, 4)]);
    let mut frame = random.bytes(length);
    frame[0] = frame[0] & 0xf0 | kind;
    frame[3] = byte_from_outside(random, profile, 15);
    frame
}

/// A frame with its length or its type damaged.
pub fn damage_frame(random: &mut Random, frame: &mut Vec<u8>) {
    if random.percent(50) {
        let length = random.pick(&[0, 1, 3, 4, 5, 20, 21, 27, 28, 29, 32, 56, 260, 284]);
        frame.resize(length, 0);
    } else if let Some(first) = frame.first_mut() {
        *first = *first & 0xf0 | random.byte() & 0x0f;
    }
}
