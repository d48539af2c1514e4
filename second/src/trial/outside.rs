//! Classes of answers by bytes from outside that are no group, those above 127, and by the edge between these and the
//! groups. An answer may be in several of these classes, or in none.

use super::arrival::{is_in, that_apply, Classes};
use super::call::{Answer, Call};
use super::discover::counts_fit;
use super::profile::Profile;
use crate::smp::{CONFIGURE_PHY_ZONE, CONFIGURE_ZONE_PERMISSION, DISCOVER, REPORT_ZONE_PERMISSION, REQUEST_TYPE};
use crate::tables::{Group, PhyRecord, Record, Route, RouteRecord};
use std::cmp::Ordering;

/// All classes that a run must reach on either shelf, by call.
pub const REQUIRED: [(&str, &[&str]); 5] =
    [("elect", &ELECT), ("open", &OPEN), ("primitive", &PRIMITIVE), ("broadcast_frame", &FRAME), ("smp", &SMP)];

const ELECT: [&str; 4] = [
    "no group, would have won",
    "no group, would have won, byte 9 is 128",
    "none, but for a route of no group",
    "a route alone, byte 9 is 127",
];

/// Routes that a search passed for their group alone, and bytes whose highest bit is none of a group's.
const OPEN: [&str; 11] = [
    "FORWARD, past a route of no group",
    "BAD DESTINATION, past a route of no group",
    "ZONE VIOLATION, past a route of no group",
    "past a route, its byte 9 is 128",
    "NO DESTINATION, but for a route of no group",
    "NO DESTINATION, but for a route, byte 9 is 128",
    "FORWARD by a route, byte 9 is 127",
    "FORWARD participating, byte 20 above 127",
    "ZONE VIOLATION participating, byte 20 above 127",
    "FORWARD from a phy, byte 1 above 127",
    "FORWARD to a phy, byte 1 above 127",
];

const PRIMITIVE: [&str; 2] = ["from a phy, byte 1 above 127", "told a phy, byte 1 above 127"];

const FRAME: [&str; 11] = [
    "type 2h refused 5, no group",
    "type 3h refused 5, no group",
    "refused 5, byte 3 is 128",
    "refused 5, byte 3 is 136",
    "refused 5, byte 3 is 255",
    "refused 5, type and no group",
    "refused 4, no group",
    "refused 6, no group",
    "refused 7, no group",
    "byte 3 is 127",
    "told a phy, byte 1 above 127",
];

const SMP: [&str; 19] = [
    "93h refused 5, no group",
    "C1h refused 5, no group",
    "51h refused 5, no group",
    "DISCOVER refused 5, no group",
    "other function refused 5, no group",
    "refused 5, no group, a right modulo 128",
    "refused 5, no group, no right modulo 128",
    "refused 5, carried 128",
    "refused 5, carried 136",
    "refused 5, carried 255",
    "refused 5, byte 0 and no group",
    "refused 4, no group",
    "refused 7, no group",
    "carried 127",
    "00h, no group, not participating",
    "another result, no group, not participating",
    "carried 128, not participating",
    "refused 5, no byte, not participating",
    "00h from a phy, byte 1 above 127",
];

/// The classes of an answer. Refusals 1 to 3 say nothing about groups.
pub fn classes(profile: Profile, call: &Call, answer: &Answer) -> Classes {
    match (call, answer.refusal()) {
        (Call::Elect { phys, routes }, 0) => elected(phys.as_chunks().0, routes.as_chunks().0, answer),
        (Call::Open { phys, routes, phy, frame, .. }, 0) => {
            opened(phys.as_chunks().0, routes.as_chunks().0, *phy as usize, frame, answer)
        }
        (Call::Primitive { phys, phy, .. }, 0) => told(phys.as_chunks().0, *phy as usize, answer),
        (Call::BroadcastFrame { phys, phy, frame, .. }, 0 | 4..) => {
            framed(phys.as_chunks().0, *phy as usize, frame, answer)
        }
        // A count that does not fit is another cause of 5: what it goes with is in other classes.
        (Call::Smp { expander_changes, phy_changes, .. }, 5) if !counts_fit(*expander_changes, *phy_changes) => {
            Vec::new()
        }
        (Call::Smp { phys, permissions, phy, carried, request, .. }, 0 | 4..) => {
            let record = &phys.as_chunks().0[*phy as usize];
            let right = |group| profile.may_change_zoning(permissions, group);
            asked(record, *carried, request, right, answer)
        }
        _ => Vec::new(),
    }
}

fn is_no_group(byte: u8) -> bool {
    byte > 127
}

fn is_ready(record: &Record) -> bool {
    PhyRecord::from(record).ready
}

fn is_participating(record: &Record) -> bool {
    PhyRecord::from(record).participating
}

fn elected(phys: &[Record], routes: &[Route], answer: &Answer) -> Classes {
    let best = (answer.fields[1], answer.fields[2]);
    let is_best = |phy: PhyRecord| phy.ready && (u64::from(phy.priority), phy.address) == best;
    let by_phy = phys.iter().map(PhyRecord::from).any(is_best);
    // Byte 9 of each route that is better than the one elected, and of each that is as good.
    let (mut better, mut equal) = (Vec::new(), Vec::new());
    for route in routes {
        let RouteRecord { priority, address, .. } = route.into();
        match (u64::from(priority), address).cmp(&best) {
            Ordering::Greater if priority > 0 && address != 0 => better.push(route[9]),
            Ordering::Equal if priority > 0 && !is_no_group(route[9]) => equal.push(route[9]),
            _ => {}
        }
    }
    that_apply(&[
        ("no group, would have won", !better.is_empty()),
        ("no group, would have won, byte 9 is 128", better.contains(&128)),
        ("none, but for a route of no group", best.0 == 0 && !better.is_empty()),
        ("a route alone, byte 9 is 127", !by_phy && equal.contains(&127) && equal.iter().all(|&byte| byte == 127)),
    ])
}

/// Byte 9 of each route that a search comes to and that fits but for its group, up to the one that ends it.
fn tried(phys: &[Record], routes: &[Route], address: &[u8]) -> Vec<u8> {
    let is_attached = |record: &Record| is_ready(record) && record[4..12] == *address;
    if phys.iter().any(is_attached) {
        return Vec::new();
    }
    let leads_on = |route: &&Route| phys.get(usize::from(route[8])).is_some_and(is_ready);
    let fitting = routes.iter().filter(|route| route[..8] == *address).filter(leads_on).map(|route| route[9]);
    let mut bytes: Vec<u8> = fitting.collect();
    let last = bytes.iter().position(|&byte| !is_no_group(byte));
    bytes.truncate(last.map_or(bytes.len(), |last| last + 1));
    bytes
}

fn opened(phys: &[Record], routes: &[Route], phy: usize, frame: &[u8], answer: &Answer) -> Classes {
    let [no_destination, bad, violation, forward] = [1, 2, 3, 4].map(|outcome| answer.fields[1] == outcome);
    let zero = frame[4..12] == [0; 8];
    let tried = if zero { Vec::new() } else { tried(phys, routes, &frame[4..12]) };
    let (past, past_128) = (tried.iter().any(|&byte| is_no_group(byte)), tried.contains(&128));
    let towards = &phys[answer.fields[2] as usize];
    let carried = is_participating(&phys[phy]) && frame[20] > 127;
    let own = !is_participating(&phys[phy]) && phys[phy][1] > 127;
    that_apply(&[
        ("FORWARD, past a route of no group", forward && past),
        ("BAD DESTINATION, past a route of no group", bad && past),
        ("ZONE VIOLATION, past a route of no group", violation && past),
        ("past a route, its byte 9 is 128", !no_destination && past_128),
        ("NO DESTINATION, but for a route of no group", no_destination && past),
        ("NO DESTINATION, but for a route, byte 9 is 128", no_destination && past_128),
        ("FORWARD by a route, byte 9 is 127", forward && tried.last() == Some(&127)),
        ("FORWARD participating, byte 20 above 127", forward && carried),
        ("ZONE VIOLATION participating, byte 20 above 127", violation && carried),
        ("FORWARD from a phy, byte 1 above 127", forward && own),
        ("FORWARD to a phy, byte 1 above 127", forward && tried.is_empty() && towards[1] > 127),
    ])
}

fn told(phys: &[Record], phy: usize, answer: &Answer) -> Classes {
    that_apply(&[
        ("from a phy, byte 1 above 127", phys[phy][1] > 127),
        ("told a phy, byte 1 above 127", tells_above(phys, answer)),
    ])
}

/// Whether the set of an answer has a phy whose byte 1 is above 127.
fn tells_above(phys: &[Record], answer: &Answer) -> bool {
    phys.iter().enumerate().any(|(phy, record)| record[1] > 127 && is_in(&answer.buffers[0], phy))
}

fn framed(phys: &[Record], phy: usize, frame: &[u8], answer: &Answer) -> Classes {
    // A frame without byte 3 has no byte that could be a group.
    let &[first, _, _, byte, ..] = frame else {
        return Vec::new();
    };
    let (refusal, kind) = (answer.refusal(), first & 0x0f);
    let is_right = kind == 2 || kind == 3;
    let for_group = refusal == 5 && is_right;
    let counts = is_participating(&phys[phy]) && is_no_group(byte);
    that_apply(&[
        ("type 2h refused 5, no group", for_group && kind == 2),
        ("type 3h refused 5, no group", for_group && kind == 3),
        ("refused 5, byte 3 is 128", for_group && byte == 128),
        ("refused 5, byte 3 is 136", for_group && byte == 136),
        ("refused 5, byte 3 is 255", for_group && byte == 255),
        ("refused 5, type and no group", refusal == 5 && !is_right && counts),
        ("refused 4, no group", refusal == 4 && counts),
        ("refused 6, no group", refusal == 6 && is_no_group(byte)),
        ("refused 7, no group", refusal == 7 && counts),
        ("byte 3 is 127", refusal == 0 && byte == 127),
        ("told a phy, byte 1 above 127", refusal == 0 && tells_above(phys, answer)),
    ])
}

fn asked(arriving: &Record, carried: u32, request: &[u8], right: impl Fn(Group) -> bool, answer: &Answer) -> Classes {
    match (answer.refusal(), u8::try_from(carried)) {
        (0, Ok(carried)) => answered(arriving, carried, answer.fields[1]),
        (5, Ok(carried)) if request[0] == REQUEST_TYPE => {
            let mut classes = refused_for_group(carried, right(Group::low_7_bits(carried)));
            classes.push(by_function(request[1]));
            classes
        }
        (refusal, Ok(carried)) => {
            let counts = is_participating(arriving) && is_no_group(carried);
            that_apply(&[
                ("refused 5, byte 0 and no group", refusal == 5 && counts),
                ("refused 4, no group", refusal == 4 && counts),
                ("refused 7, no group", refusal == 7 && counts),
            ])
        }
        (refusal, Err(_)) => {
            let for_it = refusal == 5 && request[0] == REQUEST_TYPE;
            that_apply(&[("refused 5, no byte, not participating", for_it && !is_participating(arriving))])
        }
    }
}

fn answered(arriving: &Record, carried: u8, result: u64) -> Classes {
    let participating = is_participating(arriving);
    let unread = !participating && is_no_group(carried);
    that_apply(&[
        ("carried 127", participating && carried == 127),
        ("00h, no group, not participating", unread && result == 0),
        ("another result, no group, not participating", unread && result != 0),
        ("carried 128, not participating", unread && carried == 128),
        ("00h from a phy, byte 1 above 127", !participating && arriving[1] > 127 && result == 0),
    ])
}

fn refused_for_group(carried: u8, right_modulo_128: bool) -> Classes {
    that_apply(&[
        ("refused 5, no group, a right modulo 128", right_modulo_128),
        ("refused 5, no group, no right modulo 128", !right_modulo_128),
        ("refused 5, carried 128", carried == 128),
        ("refused 5, carried 136", carried == 136),
        ("refused 5, carried 255", carried == 255),
    ])
}

fn by_function(function: u8) -> &'static str {
    match function {
        CONFIGURE_PHY_ZONE => "93h refused 5, no group",
        CONFIGURE_ZONE_PERMISSION => "C1h refused 5, no group",
        REPORT_ZONE_PERMISSION => "51h refused 5, no group",
        DISCOVER => "DISCOVER refused 5, no group",
        _ => "other function refused 5, no group",
    }
}
