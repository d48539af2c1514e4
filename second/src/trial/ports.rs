//! Classes of answers by the ports of the phys in them. An answer may be in several of these classes, or in none.

use super::arrival::{is_in, that_apply, Arrival, Classes};
use super::call::{Answer, Call};
use crate::open::{search, Found};
use crate::smp::{CONFIGURE_PHY_ZONE, CONFIGURE_ZONE_PERMISSION};
use crate::tables::{PhyRecord, Record, Route, RouteRecord};

/// Of a broadcast, whether it arrived as a primitive or as a frame. A wide port is one of several phys.
pub const BROADCAST: [&str; 12] = [
    "one of two permitted sisters told",
    "one of three or more permitted sisters told",
    "permitted sisters in both halves of the set",
    "two wide ports told",
    "told, a lower ready sister not permitted",
    "told, a lower phy with its address not ready",
    "a wide port, no phy of it permitted",
    "arriving phy's lower sister permitted",
    "arriving phy's higher sister permitted",
    "none told, but sisters permitted",
    "two with address zero told",
    "from address zero to address zero",
];

/// Of an OPEN, beside the classes by outcome.
pub const OPEN: [&str; 5] = [
    "BAD DESTINATION, sister not permitted",
    "BAD DESTINATION, a later route leads elsewhere",
    "FORWARD from a wide port",
    "FORWARD to a wide port",
    "FORWARD between zero addresses",
];

/// Of a change notice.
pub const NOTICE: [&str; 2] = ["93h 00h sisters told", "C1h 00h sisters told"];

/// The classes of an answer that is no refusal.
pub fn classes(arrival: &Arrival, call: &Call, answer: &Answer) -> Classes {
    match call {
        Call::Open { routes, frame, .. } => opened(arrival, routes.as_chunks().0, frame, answer),
        Call::Primitive { .. } | Call::BroadcastFrame { .. } => told(arrival, &answer.buffers[0]),
        Call::Smp { request, .. } => noticed(arrival, request[1], &answer.buffers[3]),
        _ => Vec::new(),
    }
}

fn told(arrival: &Arrival, set: &[u8]) -> Classes {
    let all = 0..arrival.phys.len();
    let records: Vec<PhyRecord> = all.clone().map(|phy| arrival.record(phy)).collect();
    let sisters: Vec<Vec<usize>> = all.clone().map(|phy| arrival.sisters(phy)).collect();
    let permitted: Vec<bool> = records.iter().map(|phy| phy.ready && arrival.reaches(phy.group)).collect();
    let permitted_sisters: Vec<Vec<usize>> =
        sisters.iter().map(|sisters| sisters.iter().copied().filter(|&phy| permitted[phy]).collect()).collect();
    let told: Vec<usize> = all.clone().filter(|&phy| is_in(set, phy)).collect();

    let one_of = |many: fn(usize) -> bool| told.iter().any(|&phy| many(1 + permitted_sisters[phy].len()));
    let both_halves = |&phy: &usize| phy < 64 && permitted_sisters[phy].iter().any(|&sister| sister >= 64);
    let wide_told = told.iter().filter(|&&phy| !permitted_sisters[phy].is_empty()).count();
    let past_unpermitted = |&phy: &usize| sisters[phy].iter().any(|&lower| lower < phy && !permitted[lower]);
    let past_unready = |&phy: &usize| {
        let address = records[phy].address;
        address != 0 && records[..phy].iter().any(|lower| !lower.ready && lower.address == address)
    };
    let unreached = |phy: usize| !sisters[phy].is_empty() && !permitted[phy] && permitted_sisters[phy].is_empty();
    let of_arriving = &permitted_sisters[arrival.phy];
    let zero_told = told.iter().filter(|&&phy| records[phy].address == 0).count();
    that_apply(&[
        ("one of two permitted sisters told", one_of(|many| many == 2)),
        ("one of three or more permitted sisters told", one_of(|many| many > 2)),
        ("permitted sisters in both halves of the set", told.iter().any(both_halves)),
        ("two wide ports told", wide_told >= 2),
        ("told, a lower ready sister not permitted", told.iter().any(past_unpermitted)),
        ("told, a lower phy with its address not ready", told.iter().any(past_unready)),
        ("a wide port, no phy of it permitted", all.clone().any(unreached)),
        ("arriving phy's lower sister permitted", of_arriving.iter().any(|&sister| sister < arrival.phy)),
        ("arriving phy's higher sister permitted", of_arriving.iter().any(|&sister| sister > arrival.phy)),
        ("none told, but sisters permitted", told.is_empty() && !of_arriving.is_empty()),
        ("two with address zero told", zero_told >= 2),
        ("from address zero to address zero", zero_told >= 1 && records[arrival.phy].address == 0),
    ])
}

fn opened(arrival: &Arrival, routes: &[Route], frame: &[u8], answer: &Answer) -> Classes {
    let Some(found) = found(arrival.phys, routes, frame) else {
        return Vec::new();
    };
    let (bad, forward) = (answer.fields[1] == 2, answer.fields[1] == 4);
    let [arriving, towards] = [arrival.phy, found.phy].map(|phy| arrival.record(phy));
    let sister_not_permitted = found.phy != arrival.phy && !arrival.reaches(found.group);
    let leads_elsewhere = |route: RouteRecord| {
        let (address, phy) = (route.address.to_be_bytes(), usize::from(route.phy));
        let is_ready = phy < arrival.phys.len() && arrival.record(phy).ready;
        address == frame[4..12] && is_ready && route.group.is_some() && !arrival.same_port(phy, arrival.phy)
    };
    let by_route = towards.address.to_be_bytes() != frame[4..12];
    let is_wide = |phy| !arrival.sisters(phy).is_empty();
    that_apply(&[
        ("BAD DESTINATION, sister not permitted", bad && sister_not_permitted),
        (
            "BAD DESTINATION, a later route leads elsewhere",
            bad && by_route && routes.iter().map(RouteRecord::from).any(leads_elsewhere),
        ),
        ("FORWARD from a wide port", forward && is_wide(arrival.phy)),
        ("FORWARD to a wide port", forward && is_wide(found.phy)),
        ("FORWARD between zero addresses", forward && arriving.address == 0 && towards.address == 0),
    ])
}

/// Where an OPEN frame's search ends.
pub fn found(phys: &[Record], routes: &[Route], frame: &[u8]) -> Option<Found> {
    search(phys, routes, u64::from_be_bytes(frame[4..12].try_into().expect("8 bytes")))
}

fn noticed(arrival: &Arrival, function: u8, set: &[u8]) -> Classes {
    let has_told_sister = |phy: usize| arrival.sisters(phy).iter().any(|&sister| is_in(set, sister));
    let sisters_told = (0..arrival.phys.len()).any(|phy| is_in(set, phy) && has_told_sister(phy));
    that_apply(&[
        ("93h 00h sisters told", function == CONFIGURE_PHY_ZONE && sisters_told),
        ("C1h 00h sisters told", function == CONFIGURE_ZONE_PERMISSION && sisters_told),
    ])
}
