//! Classes of answers by groups that the small shelf's permission table does not have: those above 7. An answer may be
//! in several of these classes, or in none.

use super::arrival::{is_in, that_apply, Arrival, Classes};
use super::call::{Answer, Call};
use super::ports::found;
use crate::smp::{CONFIGURE_PHY_ZONE, CONFIGURE_ZONE_PERMISSION, DISCOVER, REPORT_ZONE_PERMISSION};
use crate::tables::{Group, Route};

/// All classes that a run on the small shelf must reach beside those of both shelves, by call.
pub const REQUIRED: [(&str, &[&str]); 8] = [
    ("open", &JUDGED),
    ("open", &OPEN),
    ("primitive", &JUDGED),
    ("broadcast_frame", &JUDGED),
    ("smp", &JUDGED),
    ("smp", &PHY_ZONE),
    ("smp", &ZONE_PERMISSION),
    ("smp", &REPORT),
];

/// Of two groups, whether the first reaches the second: an OPEN is forwarded, a phy told, one shown by DISCOVER, or not.
const JUDGED: [&str; 12] = [
    "on: 1 to above 7",
    "on: above 7 to 1",
    "on: 2..7 to 2..7",
    "off: 2..7 to 2..7",
    "off: above 7 to itself",
    "off: above 7 to another above 7",
    "off: above 7 to 2..7",
    "off: 2..7 to above 7",
    "off: above 7 to 0",
    "off: 0 to above 7",
    "on, but off modulo 8",
    "off, but on modulo 8",
];

/// Of an OPEN, where the group that counts is not the phy record's.
const OPEN: [&str; 2] = ["route's group above 7, its phy's not", "carried group above 7, the phy's not"];

const PHY_ZONE: [&str; 9] = [
    "93h 00h group 7",
    "93h 00h fill above 7",
    "93h 02h only by a group above 7",
    "93h 02h only by the last group, above 7",
    "93h 02h a group above 7 and another cause",
    "93h 02h no right, a group above 7",
    "93h 02h source group above 7",
    "93h 03h a group above 7",
    "93h 10h a group above 7",
];

const ZONE_PERMISSION: [&str; 18] = [
    "C1h 01h source group above 7",
    "C1h 01h a group above 7",
    "C1h 00h single, group 7",
    "C1h 02h single, only source above 7",
    "C1h 02h single, only target above 7",
    "C1h 02h single, both above 7",
    "C1h 02h single, one above 7, one below 2",
    "C1h 03h single, a group above 7",
    "C1h 00h batch up to row 7",
    "C1h 00h batch, bits above 7",
    "C1h 00h batch, a row of bits above 7 alone",
    "C1h 00h batch of no rows, start above 7",
    "C1h 02h batch, only the last row above 7",
    "C1h 02h batch, all rows above 7",
    "C1h 02h batch from below 2 to above 7",
    "C1h 03h batch, a row above 7",
    "C1h 11h a row above 7",
    "C1h 11h batch of no rows",
];

const REPORT: [&str; 6] = [
    "51h 00h rows above 7 alone",
    "51h 00h rows 7 and 8",
    "51h 00h row 127",
    "51h 00h row 1, all on",
    "51h 00h row 1, a group of the table off",
    "51h 01h source group above 7",
];

/// The classes of an answer that is no refusal.
pub fn classes(arrival: &Arrival, call: &Call, answer: &Answer) -> Classes {
    match call {
        Call::Open { routes, frame, .. } => opened(arrival, routes.as_chunks().0, frame, answer.fields[1]),
        Call::Primitive { .. } | Call::BroadcastFrame { .. } => told(arrival, &answer.buffers[0]),
        Call::Smp { request, .. } => answered(arrival, request, answer),
        _ => Vec::new(),
    }
}

fn is_above(group: Group) -> bool {
    group.number() > 7
}

fn is_named_in_table(group: Group) -> bool {
    (2..=7).contains(&group.number())
}

fn judged(arrival: &Arrival, destination: Group, on: bool) -> Classes {
    let source = arrival.source;
    let [from_above, to_above] = [source, destination].map(is_above);
    let [from_table, to_table] = [source, destination].map(is_named_in_table);
    let modulo_8 = arrival.permissions[source.index() % 8] >> (destination.index() % 8) & 1 == 1;
    that_apply(&[
        ("on: 1 to above 7", on && source.number() == 1 && to_above),
        ("on: above 7 to 1", on && from_above && destination.number() == 1),
        ("on: 2..7 to 2..7", on && from_table && to_table),
        ("off: 2..7 to 2..7", !on && from_table && to_table),
        ("off: above 7 to itself", !on && from_above && source == destination),
        ("off: above 7 to another above 7", !on && from_above && to_above && source != destination),
        ("off: above 7 to 2..7", !on && from_above && to_table),
        ("off: 2..7 to above 7", !on && from_table && to_above),
        ("off: above 7 to 0", !on && from_above && destination.number() == 0),
        ("off: 0 to above 7", !on && source.number() == 0 && to_above),
        ("on, but off modulo 8", on && !modulo_8),
        ("off, but on modulo 8", !on && modulo_8),
    ])
}

fn opened(arrival: &Arrival, routes: &[Route], frame: &[u8], outcome: u64) -> Classes {
    // The groups of a BAD DESTINATION are not judged.
    let Some(found) = found(arrival.phys, routes, frame).filter(|_| outcome >= 3) else {
        return Vec::new();
    };
    let [own, towards] = [arrival.phy, found.phy].map(|phy| arrival.record(phy).group);
    let mut classes = judged(arrival, found.group, outcome == 4);
    classes.extend(that_apply(&[
        ("route's group above 7, its phy's not", is_above(found.group) && !is_above(towards)),
        ("carried group above 7, the phy's not", is_above(arrival.source) && !is_above(own)),
    ]));
    classes
}

/// Of the ready phys in other ports. One that is permitted but has a lower permitted sister is left out.
fn told(arrival: &Arrival, set: &[u8]) -> Classes {
    let others = (0..arrival.phys.len()).filter(|&phy| !arrival.same_port(phy, arrival.phy));
    let judged_one = |phy| {
        let (group, told) = (arrival.record(phy).group, is_in(set, phy));
        if told || !arrival.reaches(group) {
            judged(arrival, group, told)
        } else {
            Vec::new()
        }
    };
    let mut classes: Classes = others.filter(|&phy| arrival.record(phy).ready).flat_map(judged_one).collect();
    classes.sort_unstable();
    classes.dedup();
    classes
}

fn answered(arrival: &Arrival, request: &[u8], answer: &Answer) -> Classes {
    let result = answer.fields[1];
    match request[1] {
        CONFIGURE_PHY_ZONE => configured_phys(arrival, request, result),
        CONFIGURE_ZONE_PERMISSION => configured_permission(arrival, request, result),
        REPORT_ZONE_PERMISSION if result == 0 => reported(&answer.buffers[2]),
        REPORT_ZONE_PERMISSION => {
            that_apply(&[("51h 01h source group above 7", result == 1 && is_above(arrival.source))])
        }
        // Where the zoning is not ignored, it decides between these two.
        DISCOVER if (result == 0 || result == 0x16) && request[8] & 1 == 0 => {
            judged(arrival, arrival.record(usize::from(request[9])).group, result == 0)
        }
        _ => Vec::new(),
    }
}

/// A descriptor that document 01 would let through.
fn is_good(&[zoning, group]: &[u8; 2]) -> bool {
    group <= 127 && (zoning & 0x10 == 0 || group == 1)
}

fn names_above(&[_, group]: &[u8; 2]) -> bool {
    (8..=127).contains(&group)
}

fn configured_phys(arrival: &Arrival, request: &[u8], result: u64) -> Classes {
    let (k, bytes) = match request {
        [_, _, _, _, _, _, _, k, bytes @ ..] => (usize::from(*k), bytes),
        _ => return Vec::new(),
    };
    let pairs = bytes.as_chunks::<2>().0;
    let (descriptors, fill) = pairs.split_at(k.min(pairs.len()));
    let above = descriptors.iter().filter(|pair| names_above(pair)).count();
    let some_above = above > 0;
    let last_alone = above == 1 && descriptors.last().is_some_and(names_above);
    let (right, good) = (arrival.may_change_zoning(), descriptors.iter().all(is_good));
    let (accepted, failed) = (result == 0, result == 2 && right);
    that_apply(&[
        ("93h 00h group 7", accepted && descriptors.iter().any(|&[_, group]| group == 7)),
        ("93h 00h fill above 7", accepted && fill.iter().any(names_above)),
        ("93h 02h only by a group above 7", failed && good && some_above),
        ("93h 02h only by the last group, above 7", failed && good && last_alone && k > 1),
        ("93h 02h a group above 7 and another cause", failed && !good && some_above),
        ("93h 02h no right, a group above 7", result == 2 && !right && some_above),
        ("93h 02h source group above 7", result == 2 && is_above(arrival.source)),
        ("93h 03h a group above 7", result == 3 && some_above),
        ("93h 10h a group above 7", result == 0x10 && some_above),
    ])
}

fn configured_permission(arrival: &Arrival, request: &[u8], result: u64) -> Classes {
    let mut classes = that_apply(&[("C1h 01h source group above 7", result == 1 && is_above(arrival.source))]);
    // Where the length does not agree, the operation was not looked at.
    if request.len() == 4 + 4 * usize::from(request[3]) && request.len() >= 12 {
        match request[9] >> 4 {
            8 => classes.extend(single(request, result)),
            9 => classes.extend(batch(request, result)),
            _ => {}
        }
    }
    classes
}

fn single(request: &[u8], result: u64) -> Classes {
    let [source, target] = [request[6], request[7]].map(Group::low_7_bits);
    let [source_above, target_above] = [source, target].map(is_above);
    let [source_fits, target_fits] = [source, target].map(is_named_in_table);
    let below_2 = source.number().min(target.number()) < 2;
    let (one, failed) = (source_above || target_above, result == 2);
    that_apply(&[
        ("C1h 01h a group above 7", result == 1 && one),
        ("C1h 00h single, group 7", result == 0 && (source.number() == 7 || target.number() == 7)),
        ("C1h 02h single, only source above 7", failed && source_above && target_fits),
        ("C1h 02h single, only target above 7", failed && source_fits && target_above),
        ("C1h 02h single, both above 7", failed && source_above && target_above),
        ("C1h 02h single, one above 7, one below 2", failed && one && below_2),
        ("C1h 03h single, a group above 7", result == 3 && one),
    ])
}

fn batch(request: &[u8], result: u64) -> Classes {
    let (start, k) = (usize::from(request[10]), usize::from(request[11]));
    let (accepted, failed, no_index) = (result == 0, result == 2, result == 0x11);
    let above = k > 0 && start + k > 8;
    let rows = request[12..].as_chunks::<16>().0;
    let has_bits_above = |row: &[u8; 16]| row[..15] != [0; 15];
    that_apply(&[
        ("C1h 01h a group above 7", result == 1 && above),
        ("C1h 00h batch up to row 7", accepted && k > 0 && start + k == 8),
        ("C1h 00h batch, bits above 7", accepted && rows.iter().any(has_bits_above)),
        (
            "C1h 00h batch, a row of bits above 7 alone",
            accepted && rows.iter().any(|row| has_bits_above(row) && row[15] == 0),
        ),
        ("C1h 00h batch of no rows, start above 7", accepted && k == 0 && start > 7),
        ("C1h 02h batch, only the last row above 7", failed && (2..=7).contains(&start) && start + k == 9),
        ("C1h 02h batch, all rows above 7", failed && start > 7),
        ("C1h 02h batch from below 2 to above 7", failed && start < 2 && above),
        ("C1h 03h batch, a row above 7", result == 3 && above),
        ("C1h 11h a row above 7", no_index && above),
        ("C1h 11h batch of no rows", no_index && k == 0),
    ])
}

fn reported(response: &[u8]) -> Classes {
    let (start, r) = (usize::from(response[6]), usize::from(response[7]));
    let after = start + r;
    let rows = &response[12..].as_chunks::<16>().0[..r];
    let row_1 = (start..after).zip(rows).find(|(a, _)| *a == 1).map(|(_, row)| row);
    that_apply(&[
        ("51h 00h rows above 7 alone", r > 0 && start > 7),
        ("51h 00h rows 7 and 8", start <= 7 && after > 8),
        ("51h 00h row 127", r > 0 && after == 128),
        ("51h 00h row 1, all on", row_1.is_some_and(|row| *row == [0xff; 16])),
        (
            "51h 00h row 1, a group of the table off",
            row_1.is_some_and(|row| row[..15] == [0xff; 15] && row[15] != 0xff),
        ),
    ])
}
