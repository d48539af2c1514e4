//! Classes of answers by request 03: DISCOVER, the records of 16 bytes, and numbers at the edge of what fits. An answer
//! may be in several of these classes, or in none.

use super::arrival::{that_apply, Arrival, Classes};
use super::call::{Answer, Call};
use super::profile::Profile;
use crate::smp::{CONFIGURE_PHY_ZONE, CONFIGURE_ZONE_PERMISSION, DISCOVER, REPORT_ZONE_PERMISSION, REQUEST_TYPE};
use crate::speaking::source_from_outside;
use crate::tables::{PhyRecord, Record};

/// All classes that a run must reach on either shelf, by call.
pub const REQUIRED: [(&str, &[&str]); 8] = [
    ("leaving", &LEAVING),
    ("identify", &IDENTIFY),
    ("smp", &TOO_WIDE),
    ("smp", &COUNTS),
    ("smp", &LENGTH),
    ("smp", &NO_PHY),
    ("smp", &HIDDEN),
    ("smp", &SHOWN),
];

const LEAVING: [&str; 2] = ["left, bytes 12 and 13 not zero", "left, bytes 14 and 15 not zero"];

const IDENTIFY: [&str; 18] = [
    "type 7",
    "type 8",
    "type 255",
    "attached phy 255",
    "another type and attached phy than before",
    "bytes 14 and 15 not zero",
    "reserved bits of byte 12 on before",
    "refused 1, a number too wide",
    "refused 2, a number too wide",
    "refused 7, a number too wide",
    "refused 4, a number too wide",
    "refused 5, address zero and a number too wide",
    "refused 5, both numbers too wide",
    "refused 5, type 256 alone",
    "refused 5, type 2^32 - 1 alone",
    "refused 5, attached phy 256 alone",
    "refused 5, attached phy 2^32 - 1 alone",
    "refused 5, type that would fit cut to a byte",
];

/// Of any function, where a count does not fit.
const TOO_WIDE: [&str; 18] = [
    "refused 1, a count too wide",
    "refused 2, a count too wide",
    "refused 3, a count too wide",
    "refused 7, a count too wide",
    "refused 4, a count too wide",
    "refused 5, byte 0 and a count too wide",
    "refused 5, no byte and a count too wide",
    "refused 5, no group and a count too wide",
    "refused 5, both counts too wide",
    "refused 5, expander count 65,536 alone",
    "refused 5, expander count 2^32 - 1 alone",
    "refused 5, phy count 256 alone",
    "refused 5, phy count 2^32 - 1 alone",
    "93h refused 5, a count too wide alone",
    "C1h refused 5, a count too wide alone",
    "51h refused 5, a count too wide alone",
    "DISCOVER refused 5, a count too wide alone",
    "other function refused 5, a count too wide alone",
];

/// Of a DISCOVER that was accepted.
const COUNTS: [&str; 7] = [
    "DISCOVER 00h expander count 0",
    "DISCOVER 00h expander count 255",
    "DISCOVER 00h expander count 256",
    "DISCOVER 00h expander count 65,535",
    "DISCOVER 00h phy count 0",
    "DISCOVER 00h phy count 255",
    "DISCOVER 00h counts of three different bytes",
];

const LENGTH: [&str; 10] = [
    "DISCOVER 03h length, byte 3 is 2",
    "DISCOVER 03h length, byte 3 is 0",
    "DISCOVER 03h four bytes, byte 3 is 0",
    "DISCOVER 03h another length, byte 3 agrees",
    "DISCOVER 03h length and byte 3",
    "DISCOVER 03h byte 3 alone",
    "DISCOVER 03h ignore bit zero",
    "DISCOVER 03h ignore bit one",
    "DISCOVER 03h byte 3, and no such phy",
    "DISCOVER 03h byte 3, and hidden",
];

const NO_PHY: [&str; 9] = [
    "DISCOVER 10h ignore bit zero",
    "DISCOVER 10h ignore bit one",
    "DISCOVER 10h byte 3 is 2",
    "DISCOVER 10h byte 3 is 0",
    "DISCOVER 10h byte 9 is the number of phys",
    "DISCOVER 10h byte 9 is 127",
    "DISCOVER 10h byte 9 is 128",
    "DISCOVER 10h byte 9 is 255",
    "DISCOVER 10h low 7 bits of byte 9 are a phy",
];

const HIDDEN: [&str; 16] = [
    "DISCOVER 16h byte 3 is 2",
    "DISCOVER 16h byte 3 is 0",
    "DISCOVER 16h ready",
    "DISCOVER 16h not ready",
    "DISCOVER 16h participating",
    "DISCOVER 16h not participating",
    "DISCOVER 16h the last phy",
    "DISCOVER 16h phy 127",
    "DISCOVER 16h of the caller's own group",
    "DISCOVER 16h the arriving phy",
    "DISCOVER 16h P on the other way round",
    "DISCOVER 16h a caller with the right",
    "DISCOVER 16h carried group, the phy's own reaches",
    "DISCOVER 16h anything in all other bytes",
    "DISCOVER 16h all other bits of byte 8 one",
    "DISCOVER 16h byte 1 above 127",
];

const SHOWN: [&str; 31] = [
    "DISCOVER 00h byte 3 is 2",
    "DISCOVER 00h byte 3 is 0",
    "DISCOVER 00h ready",
    "DISCOVER 00h not ready",
    "DISCOVER 00h participating",
    "DISCOVER 00h not participating",
    "DISCOVER 00h not ready, participating",
    "DISCOVER 00h not ready, an address in the record",
    "DISCOVER 00h not ready, a type in the record",
    "DISCOVER 00h not ready, a phy in the record",
    "DISCOVER 00h the last phy",
    "DISCOVER 00h phy 127",
    "DISCOVER 00h of the caller's own group",
    "DISCOVER 00h the arriving phy",
    "DISCOVER 00h P off the other way round",
    "DISCOVER 00h a caller without the right",
    "DISCOVER 00h carried group, the phy's own does not",
    "DISCOVER 00h anything in all other bytes",
    "DISCOVER 00h byte 1 above 127",
    "DISCOVER 00h reserved bits of byte 0",
    "DISCOVER 00h reserved bits of byte 12, ready",
    "DISCOVER 00h bytes 3, 14 and 15 not zero",
    "DISCOVER 00h ignore bit one, P off",
    "DISCOVER 00h ignore bit one, P on",
    "DISCOVER 00h ignore bit one, P off, byte 8 is 1",
    "DISCOVER 00h ignore bit one, P off, not ready",
    "DISCOVER 00h ignore bit one, P off, byte 3 is 0",
    "DISCOVER 00h ignore bit one, P off, own group",
    "DISCOVER 00h ignore bit one, P off, on other way",
    "DISCOVER 00h ignore bit one, without the right",
    "DISCOVER 00h ignore bit one, anything elsewhere",
];

/// The classes of an answer.
pub fn classes(profile: Profile, call: &Call, answer: &Answer) -> Classes {
    match call {
        Call::Leaving { phys, phy } if answer.refusal() == 0 => left(&phys.as_chunks().0[*phy as usize]),
        Call::Identify { phys, phy, address, device_type, attached_phy } => match answer.refusal() {
            0 => identified(&phys.as_chunks().0[*phy as usize], *device_type, *attached_phy),
            refusal => not_identified(refusal, address, *device_type, *attached_phy),
        },
        Call::Smp { request, expander_changes, phy_changes, .. } => match answer.refusal() {
            0 if request[1] == DISCOVER => {
                let arrival = Arrival::of(profile, call);
                let result = answer.fields[1];
                let mut classes = arrival.map_or_else(Vec::new, |arrival| discovered(&arrival, request, result));
                if result == 0 {
                    classes.extend(counted(*expander_changes, *phy_changes));
                }
                classes
            }
            0 => Vec::new(),
            refusal => refused(refusal, call),
        },
        _ => Vec::new(),
    }
}

/// Whether the two counts of an SMP request fit.
pub fn counts_fit(expander_changes: u32, phy_changes: u32) -> bool {
    expander_changes < 65_536 && phy_changes < 256
}

/// Bytes of a record that are reserved.
fn has_rest(record: &Record) -> bool {
    record[14] != 0 && record[15] != 0
}

fn left(record: &Record) -> Classes {
    that_apply(&[
        ("left, bytes 12 and 13 not zero", record[12] != 0 && record[13] != 0),
        ("left, bytes 14 and 15 not zero", has_rest(record)),
    ])
}

fn identified(before: &Record, device_type: u32, attached_phy: u32) -> Classes {
    let was = PhyRecord::from(before);
    let is_other = u32::from(was.device_type) != device_type % 8 && u32::from(was.attached_phy) != attached_phy;
    that_apply(&[
        ("type 7", device_type == 7),
        ("type 8", device_type == 8),
        ("type 255", device_type == 255),
        ("attached phy 255", attached_phy == 255),
        ("another type and attached phy than before", is_other),
        ("bytes 14 and 15 not zero", has_rest(before)),
        ("reserved bits of byte 12 on before", before[12] > 7),
    ])
}

fn not_identified(refusal: u64, address: &[u8], device_type: u32, attached_phy: u32) -> Classes {
    let (wide_type, wide_phy) = (device_type > 255, attached_phy > 255);
    let too_wide = wide_type || wide_phy;
    let zero = address == [0; 8];
    let for_it = refusal == 5 && !zero;
    let (type_alone, phy_alone) = (for_it && !wide_phy, for_it && !wide_type);
    that_apply(&[
        ("refused 1, a number too wide", refusal == 1 && too_wide),
        ("refused 2, a number too wide", refusal == 2 && too_wide),
        ("refused 7, a number too wide", refusal == 7 && too_wide),
        ("refused 4, a number too wide", refusal == 4 && too_wide),
        ("refused 5, address zero and a number too wide", refusal == 5 && zero && too_wide),
        ("refused 5, both numbers too wide", for_it && wide_type && wide_phy),
        ("refused 5, type 256 alone", type_alone && device_type == 256),
        ("refused 5, type 2^32 - 1 alone", type_alone && device_type == u32::MAX),
        ("refused 5, attached phy 256 alone", phy_alone && attached_phy == 256),
        ("refused 5, attached phy 2^32 - 1 alone", phy_alone && attached_phy == u32::MAX),
        ("refused 5, type that would fit cut to a byte", type_alone && (257..65_536).contains(&device_type)),
    ])
}

/// Of an SMP request that was refused.
fn refused(refusal: u64, call: &Call) -> Classes {
    let Call::Smp { phys, phy, carried, expander_changes, phy_changes, request, .. } = call else {
        return Vec::new();
    };
    if counts_fit(*expander_changes, *phy_changes) {
        return Vec::new();
    }
    let mut classes = that_apply(&[
        ("refused 1, a count too wide", refusal == 1),
        ("refused 2, a count too wide", refusal == 2),
        ("refused 3, a count too wide", refusal == 3),
        ("refused 7, a count too wide", refusal == 7),
        ("refused 4, a count too wide", refusal == 4),
    ]);
    if refusal != 5 {
        return classes;
    }
    let arriving = PhyRecord::from(&phys.as_chunks().0[*phy as usize]);
    let (right_type, no_byte) = (request[0] == REQUEST_TYPE, *carried > 255);
    let no_group = !no_byte && source_from_outside(&arriving, *carried as u8).is_err();
    let alone = right_type && !no_byte && !no_group;
    let (wide_expander, wide_phy) = (*expander_changes > 65_535, *phy_changes > 255);
    let (expander_alone, phy_alone) = (alone && !wide_phy, alone && !wide_expander);
    classes.extend(that_apply(&[
        ("refused 5, byte 0 and a count too wide", !right_type),
        ("refused 5, no byte and a count too wide", right_type && no_byte),
        ("refused 5, no group and a count too wide", right_type && no_group),
        ("refused 5, both counts too wide", alone && wide_expander && wide_phy),
        ("refused 5, expander count 65,536 alone", expander_alone && *expander_changes == 65_536),
        ("refused 5, expander count 2^32 - 1 alone", expander_alone && *expander_changes == u32::MAX),
        ("refused 5, phy count 256 alone", phy_alone && *phy_changes == 256),
        ("refused 5, phy count 2^32 - 1 alone", phy_alone && *phy_changes == u32::MAX),
    ]));
    if alone {
        classes.push(match request[1] {
            CONFIGURE_PHY_ZONE => "93h refused 5, a count too wide alone",
            CONFIGURE_ZONE_PERMISSION => "C1h refused 5, a count too wide alone",
            REPORT_ZONE_PERMISSION => "51h refused 5, a count too wide alone",
            DISCOVER => "DISCOVER refused 5, a count too wide alone",
            _ => "other function refused 5, a count too wide alone",
        });
    }
    classes
}

fn counted(expander_changes: u32, phy_changes: u32) -> Classes {
    let (high, low) = (expander_changes >> 8, expander_changes & 0xff);
    that_apply(&[
        ("DISCOVER 00h expander count 0", expander_changes == 0),
        ("DISCOVER 00h expander count 255", expander_changes == 255),
        ("DISCOVER 00h expander count 256", expander_changes == 256),
        ("DISCOVER 00h expander count 65,535", expander_changes == 65_535),
        ("DISCOVER 00h phy count 0", phy_changes == 0),
        ("DISCOVER 00h phy count 255", phy_changes == 255),
        ("DISCOVER 00h counts of three different bytes", high != low && low != phy_changes && high != phy_changes),
    ])
}

/// Of a DISCOVER that was not refused.
fn discovered(arrival: &Arrival, request: &[u8], result: u64) -> Classes {
    match (result, <&[u8; 12]>::try_from(request)) {
        (3, Err(_)) => wrong_length(request),
        (3, Ok(request)) => wrong_byte_3(arrival, request),
        (0x10, Ok(request)) => no_phy(arrival, request),
        (0x16, Ok(request)) => hidden(arrival, request),
        (0, Ok(request)) if ignores(request) => shown_in_any_case(arrival, request),
        (0, Ok(request)) => shown(arrival, request),
        _ => Vec::new(),
    }
}

fn ignores(request: &[u8; 12]) -> bool {
    request[8] & 1 == 1
}

/// The asked phy's place, bytes and record, where there is one.
fn asked<'a>(arrival: &Arrival<'a>, request: &[u8; 12]) -> Option<(usize, &'a Record, PhyRecord)> {
    let place = usize::from(request[9]);
    arrival.phys.get(place).map(|record| (place, record, record.into()))
}

/// Whether none of the bytes that no rule reads is zero, nor are the bits beside the ignore bit.
fn is_anything(request: &[u8; 12]) -> bool {
    [2, 4, 5, 6, 7, 10, 11].iter().all(|&place| request[place] != 0) && request[8] > 1
}

fn wrong_length(request: &[u8]) -> Classes {
    let byte_3 = request[3];
    that_apply(&[
        ("DISCOVER 03h length, byte 3 is 2", byte_3 == 2),
        ("DISCOVER 03h length, byte 3 is 0", byte_3 == 0),
        ("DISCOVER 03h four bytes, byte 3 is 0", request.len() == 4 && byte_3 == 0),
        ("DISCOVER 03h another length, byte 3 agrees", request.len() == 4 + 4 * usize::from(byte_3)),
        ("DISCOVER 03h length and byte 3", byte_3 != 0 && byte_3 != 2),
    ])
}

fn wrong_byte_3(arrival: &Arrival, request: &[u8; 12]) -> Classes {
    let phy = asked(arrival, request);
    let is_hidden = phy.is_some_and(|(_, _, phy)| !ignores(request) && !arrival.reaches(phy.group));
    that_apply(&[
        ("DISCOVER 03h byte 3 alone", phy.is_some() && !is_hidden),
        ("DISCOVER 03h ignore bit zero", !ignores(request)),
        ("DISCOVER 03h ignore bit one", ignores(request)),
        ("DISCOVER 03h byte 3, and no such phy", phy.is_none()),
        ("DISCOVER 03h byte 3, and hidden", is_hidden),
    ])
}

fn no_phy(arrival: &Arrival, request: &[u8; 12]) -> Classes {
    let (byte, phys) = (usize::from(request[9]), arrival.phys.len());
    that_apply(&[
        ("DISCOVER 10h ignore bit zero", !ignores(request)),
        ("DISCOVER 10h ignore bit one", ignores(request)),
        ("DISCOVER 10h byte 3 is 2", request[3] == 2),
        ("DISCOVER 10h byte 3 is 0", request[3] == 0),
        ("DISCOVER 10h byte 9 is the number of phys", byte == phys),
        ("DISCOVER 10h byte 9 is 127", byte == 127),
        ("DISCOVER 10h byte 9 is 128", byte == 128),
        ("DISCOVER 10h byte 9 is 255", byte == 255),
        ("DISCOVER 10h low 7 bits of byte 9 are a phy", byte & 0x7f < phys),
    ])
}

fn hidden(arrival: &Arrival, request: &[u8; 12]) -> Classes {
    let Some((place, record, phy)) = asked(arrival, request) else {
        return Vec::new();
    };
    let arriving = arrival.record(arrival.phy);
    that_apply(&[
        ("DISCOVER 16h byte 3 is 2", request[3] == 2),
        ("DISCOVER 16h byte 3 is 0", request[3] == 0),
        ("DISCOVER 16h ready", phy.ready),
        ("DISCOVER 16h not ready", !phy.ready),
        ("DISCOVER 16h participating", phy.participating),
        ("DISCOVER 16h not participating", !phy.participating),
        ("DISCOVER 16h the last phy", place + 1 == arrival.phys.len()),
        ("DISCOVER 16h phy 127", place == 127),
        ("DISCOVER 16h of the caller's own group", phy.group == arrival.source),
        ("DISCOVER 16h the arriving phy", place == arrival.phy),
        ("DISCOVER 16h P on the other way round", arrival.is_reached_by(phy.group)),
        ("DISCOVER 16h a caller with the right", arrival.may_change_zoning()),
        ("DISCOVER 16h carried group, the phy's own reaches", arrival.would_reach(arriving.group, phy.group)),
        ("DISCOVER 16h anything in all other bytes", is_anything(request)),
        ("DISCOVER 16h all other bits of byte 8 one", request[8] == 0xfe),
        ("DISCOVER 16h byte 1 above 127", record[1] > 127),
    ])
}

/// With the ignore bit zero, so that P is on.
fn shown(arrival: &Arrival, request: &[u8; 12]) -> Classes {
    let Some((place, record, phy)) = asked(arrival, request) else {
        return Vec::new();
    };
    let arriving = arrival.record(arrival.phy);
    let down = !phy.ready;
    that_apply(&[
        ("DISCOVER 00h byte 3 is 2", request[3] == 2),
        ("DISCOVER 00h byte 3 is 0", request[3] == 0),
        ("DISCOVER 00h ready", phy.ready),
        ("DISCOVER 00h not ready", down),
        ("DISCOVER 00h participating", phy.participating),
        ("DISCOVER 00h not participating", !phy.participating),
        ("DISCOVER 00h not ready, participating", down && phy.participating),
        ("DISCOVER 00h not ready, an address in the record", down && phy.address != 0),
        ("DISCOVER 00h not ready, a type in the record", down && phy.device_type != 0),
        ("DISCOVER 00h not ready, a phy in the record", down && phy.attached_phy != 0),
        ("DISCOVER 00h the last phy", place + 1 == arrival.phys.len()),
        ("DISCOVER 00h phy 127", place == 127),
        ("DISCOVER 00h of the caller's own group", phy.group == arrival.source),
        ("DISCOVER 00h the arriving phy", place == arrival.phy),
        ("DISCOVER 00h P off the other way round", !arrival.is_reached_by(phy.group)),
        ("DISCOVER 00h a caller without the right", !arrival.may_change_zoning()),
        ("DISCOVER 00h carried group, the phy's own does not", !arrival.would_reach(arriving.group, phy.group)),
        ("DISCOVER 00h anything in all other bytes", is_anything(request)),
        ("DISCOVER 00h byte 1 above 127", record[1] > 127),
        ("DISCOVER 00h reserved bits of byte 0", record[0] > 0x1f),
        ("DISCOVER 00h reserved bits of byte 12, ready", phy.ready && record[12] > 7),
        ("DISCOVER 00h bytes 3, 14 and 15 not zero", record[3] != 0 && has_rest(record)),
    ])
}

/// With the ignore bit one.
fn shown_in_any_case(arrival: &Arrival, request: &[u8; 12]) -> Classes {
    let Some((_, _, phy)) = asked(arrival, request) else {
        return Vec::new();
    };
    let off = !arrival.reaches(phy.group);
    that_apply(&[
        ("DISCOVER 00h ignore bit one, P off", off),
        ("DISCOVER 00h ignore bit one, P on", !off),
        ("DISCOVER 00h ignore bit one, P off, byte 8 is 1", off && request[8] == 1),
        ("DISCOVER 00h ignore bit one, P off, not ready", off && !phy.ready),
        ("DISCOVER 00h ignore bit one, P off, byte 3 is 0", off && request[3] == 0),
        ("DISCOVER 00h ignore bit one, P off, own group", off && phy.group == arrival.source),
        ("DISCOVER 00h ignore bit one, P off, on other way", off && arrival.is_reached_by(phy.group)),
        ("DISCOVER 00h ignore bit one, without the right", !arrival.may_change_zoning()),
        ("DISCOVER 00h ignore bit one, anything elsewhere", is_anything(request)),
    ])
}
