//! Classes of pairs of which request 04 does not say that both get the same bytes, by the premise that does not hold and
//! whether it counts. A pair may be in several of these classes, or in none.

use super::alike::{both, caller, request, Pair};
use super::arrival::{that_apply, Classes};
use super::profile::Profile;
use crate::alike::Premise;
use crate::smp::DISCOVER;
use crate::tables::PhyRecord;

/// All classes that a run must reach on either shelf, by call.
pub const REQUIRED: [(&str, &[&str]); 2] = [("smp", &TOLD_APART), ("smp", &NOT_TOLD_APART)];

/// Of two of which one premise alone does not hold, or the ignore bit is not zero, and which got different bytes.
const TOLD_APART: [&str; 20] = [
    "told apart by sizes, 10h and 16h",
    "told apart by a wrong size, refused 1 in one alone",
    "told apart by the expander count",
    "told apart by the phy count",
    "told apart by a count too wide in one alone",
    "told apart by a byte of the response that stays",
    "told apart by a byte of the set that stays",
    "told apart by room, refused 3 in one alone",
    "told apart by readiness, refused 7 in one alone",
    "told apart by what is carried, no byte in one",
    "told apart by permission, 00h and 16h",
    "told apart by records, ready in both",
    "told apart by records, ready in one alone",
    "told apart by records, ready in neither",
    "told apart by records, address",
    "told apart by records, device type",
    "told apart by records, attached phy",
    "told apart by records, group",
    "told apart by records, participation",
    "told apart by the ignore bit, a hidden record",
];

/// The same, but both got the same bytes: premises, and parts of one, that the rules do not need where the others hold.
const NOT_TOLD_APART: [&str; 7] = [
    "not told apart by wrong sizes, both refused 1",
    "not told apart by another phy",
    "not told apart by participation",
    "not told apart by another carried byte",
    "not told apart by another source group",
    "not told apart by reserved bits of a record",
    "not told apart by an address, ready in neither",
];

/// The classes of a pair, by the premises that are broken.
pub fn classes(profile: Profile, pair: &Pair, broken: &[Premise]) -> Classes {
    match broken {
        // A table of a wrong size has another size than the right one, and permits nothing.
        [Premise::RightSizes, Premise::EqualSizes, ..] => {
            that_apply(&[("told apart by a wrong size, refused 1 in one alone", pair.are_refused([0, 1]))])
        }
        [Premise::EqualRecords] => by_records(profile, pair),
        [premise] if pair.agrees() => not_told_apart(pair, *premise),
        [premise] => told_apart(pair, *premise),
        _ => Vec::new(),
    }
}

/// With the ignore bit one a hidden phy is shown, and so is what differs in its record.
pub fn with_ignore_bit(profile: Profile, pair: &Pair) -> Classes {
    if request(pair.calls[0]).get(1) != Some(&DISCOVER) || !pair.are_answered([0, 0]) {
        return Vec::new();
    }
    let hidden = both(profile, pair).is_some_and(|both| !both.is_permitted(both.asked()));
    that_apply(&[("told apart by the ignore bit, a hidden record", hidden && !pair.agrees())])
}

/// Where one premise alone does not hold, and the two got different bytes.
fn told_apart(pair: &Pair, premise: Premise) -> Classes {
    match premise {
        Premise::EqualSizes => that_apply(&[("told apart by sizes, 10h and 16h", pair.are_answered([0x10, 0x16]))]),
        Premise::SameCounts => told_by_counts(pair),
        Premise::EqualBuffers => told_by_buffers(pair),
        Premise::ReadyInBoth => {
            that_apply(&[("told apart by readiness, refused 7 in one alone", pair.are_refused([0, 7]))])
        }
        Premise::SameCarriedByte => {
            that_apply(&[("told apart by what is carried, no byte in one", pair.are_refused([0, 5]))])
        }
        Premise::SamePhysPermitted => {
            that_apply(&[("told apart by permission, 00h and 16h", pair.are_answered([0, 0x16]))])
        }
        _ => Vec::new(),
    }
}

fn told_by_counts(pair: &Pair) -> Classes {
    let [one, other] = pair.calls.map(caller);
    let both_shown = pair.are_answered([0, 0]);
    that_apply(&[
        ("told apart by the expander count", both_shown && one.phy_changes == other.phy_changes),
        ("told apart by the phy count", both_shown && one.expander_changes == other.expander_changes),
        ("told apart by a count too wide in one alone", pair.are_refused([0, 5])),
    ])
}

/// A byte that no answer writes is as it was lent.
fn told_by_buffers(pair: &Pair) -> Classes {
    let [one, other] = pair.calls.map(caller);
    let answered = pair.are_refused([0, 0]);
    let (same_response, same_set) = (one.response == other.response, one.set == other.set);
    that_apply(&[
        ("told apart by a byte of the response that stays", answered && same_set),
        ("told apart by a byte of the set that stays", answered && same_response),
        ("told apart by room, refused 3 in one alone", pair.are_refused([0, 3])),
    ])
}

/// Where the records of permitted phys differ and no other premise is broken: the phy that is asked for is one of them.
fn by_records(profile: Profile, pair: &Pair) -> Classes {
    let Some(both) = both(profile, pair).filter(|_| pair.are_answered([0, 0])) else {
        return Vec::new();
    };
    let [one, other] = both.records(both.asked());
    let [bytes, other_bytes] = both.bytes(both.asked());
    let in_neither = !one.ready && !other.ready;
    let reserved_alone = one == other && bytes != other_bytes;
    if pair.agrees() {
        return that_apply(&[
            ("not told apart by reserved bits of a record", reserved_alone),
            ("not told apart by an address, ready in neither", in_neither && one.address != other.address),
        ]);
    }
    that_apply(&[
        ("told apart by records, ready in both", one.ready && other.ready),
        ("told apart by records, ready in one alone", one.ready != other.ready),
        ("told apart by records, ready in neither", in_neither),
        ("told apart by records, address", one == PhyRecord { address: one.address, ..other }),
        ("told apart by records, device type", one == PhyRecord { device_type: one.device_type, ..other }),
        ("told apart by records, attached phy", one == PhyRecord { attached_phy: one.attached_phy, ..other }),
        ("told apart by records, group", one == PhyRecord { group: one.group, ..other }),
        ("told apart by records, participation", one == PhyRecord { participating: one.participating, ..other }),
    ])
}

/// Where one premise alone does not hold, and the two got the same bytes nevertheless.
fn not_told_apart(pair: &Pair, premise: Premise) -> Classes {
    let answered = pair.are_answered([0, 0]) || pair.are_answered([0x16, 0x16]);
    match premise {
        Premise::RightSizes => {
            that_apply(&[("not told apart by wrong sizes, both refused 1", pair.are_refused([1, 1]))])
        }
        Premise::SamePhy => that_apply(&[("not told apart by another phy", answered)]),
        Premise::ParticipatingInBothOrNeither => that_apply(&[("not told apart by participation", answered)]),
        Premise::SameCarriedByte => that_apply(&[("not told apart by another carried byte", answered)]),
        Premise::SameSourceGroup => that_apply(&[("not told apart by another source group", answered)]),
        _ => Vec::new(),
    }
}
