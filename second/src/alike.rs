//! What a member can learn: the premises of request 04, each by the request's own words. Where all of them hold of two
//! SMP calls, every DISCOVER with the ignore bit zero gets the same bytes from both shelves. All else in them may differ.

use crate::permission::permitted;
use crate::smp::DISCOVER;
use crate::tables::{permission_table, phy_table, Group, PhyRecord, Record};

/// An SMP call but for its request: a shelf, and a caller with what it hands in and lends.
#[derive(Clone, Copy)]
pub struct Caller<'a> {
    pub phys: &'a [u8],
    pub permissions: &'a [u8],
    pub phy: u32,
    pub carried: u32,
    pub expander_changes: u32,
    pub phy_changes: u32,
    pub response: &'a [u8],
    pub set: &'a [u8],
}

/// What request 04 takes of two calls.
#[derive(Clone, Copy, Debug, PartialEq, Eq)]
pub enum Premise {
    RightSizes,
    EqualSizes,
    SameCounts,
    EqualBuffers,
    SamePhy,
    ReadyInBoth,
    ParticipatingInBothOrNeither,
    SameCarriedByte,
    SameSourceGroup,
    SamePhysPermitted,
    EqualRecords,
}

/// The premises that do not hold of two calls, in the request's order.
pub fn broken<const WIDTH: usize>(one: &Caller, other: &Caller) -> Vec<Premise> {
    let all = [
        (Premise::RightSizes, right_sizes::<WIDTH>(one) && right_sizes::<WIDTH>(other)),
        (Premise::EqualSizes, equal_sizes(one, other)),
        (Premise::SameCounts, same_counts(one, other)),
        (Premise::EqualBuffers, equal_buffers(one, other)),
        (Premise::SamePhy, same_phy(one, other)),
        (Premise::ReadyInBoth, is_ready(one) && is_ready(other)),
        (Premise::ParticipatingInBothOrNeither, is_participating(one) == is_participating(other)),
        (Premise::SameCarriedByte, same_carried_byte(one, other)),
        (Premise::SameSourceGroup, source(one) == source(other)),
        (Premise::SamePhysPermitted, permitted_phys::<WIDTH>(one) == permitted_phys::<WIDTH>(other)),
        (Premise::EqualRecords, equal_records::<WIDTH>(one, other)),
    ];
    all.into_iter().filter(|(_, holds)| !holds).map(|(premise, _)| premise).collect()
}

/// Whether request 04 speaks of this request: function 10h with the ignore bit zero, of any length. One that ends before
/// byte 8 has no ignore bit that could be one.
pub fn is_spoken_of(request: &[u8]) -> bool {
    let ignore_bit = request.get(8).is_some_and(|byte_8| byte_8 & 1 == 1);
    request.get(1) == Some(&DISCOVER) && !ignore_bit
}

fn right_sizes<const WIDTH: usize>(caller: &Caller) -> bool {
    phy_table(caller.phys).is_ok() && permission_table::<WIDTH>(caller.permissions).is_ok()
}

fn equal_sizes(one: &Caller, other: &Caller) -> bool {
    one.phys.len() == other.phys.len() && one.permissions.len() == other.permissions.len()
}

fn same_counts(one: &Caller, other: &Caller) -> bool {
    (one.expander_changes, one.phy_changes) == (other.expander_changes, other.phy_changes)
}

/// The lent buffers: their sizes, which may be too small, and every byte that stands in them before the call.
fn equal_buffers(one: &Caller, other: &Caller) -> bool {
    (one.response, one.set) == (other.response, other.set)
}

fn same_phy(one: &Caller, other: &Caller) -> bool {
    one.phy == other.phy
}

/// A phy that the table does not have is not ready.
fn is_ready(caller: &Caller) -> bool {
    arriving(caller).is_some_and(|phy| phy.ready)
}

fn is_participating(caller: &Caller) -> bool {
    arriving(caller).is_some_and(|phy| phy.participating)
}

/// As it is handed in, so also where it is no byte.
fn same_carried_byte(one: &Caller, other: &Caller) -> bool {
    one.carried == other.carried
}

/// The group that is speaking: none where a participating phy carries what is no group.
fn source(caller: &Caller) -> Option<Group> {
    let phy = arriving(caller)?;
    if phy.participating {
        u8::try_from(caller.carried).ok().and_then(Group::from_outside)
    } else {
        Some(phy.group)
    }
}

/// The phys that are permitted to the source group, whether they are ready or not. Where no group is speaking, none is.
fn permitted_phys<const WIDTH: usize>(caller: &Caller) -> Vec<usize> {
    let (Some(source), Ok(rows)) = (source(caller), permission_table::<WIDTH>(caller.permissions)) else {
        return Vec::new();
    };
    let groups = records(caller).iter().map(|record| PhyRecord::from(record).group);
    groups.enumerate().filter(|&(_, group)| permitted(rows, source, group)).map(|(phy, _)| phy).collect()
}

/// The records of the phys that are permitted in both, byte for byte, also where such a phy is not ready.
fn equal_records<const WIDTH: usize>(one: &Caller, other: &Caller) -> bool {
    let in_other = permitted_phys::<WIDTH>(other);
    let in_both = permitted_phys::<WIDTH>(one).into_iter().filter(|phy| in_other.contains(phy));
    let (of_one, of_other) = (records(one), records(other));
    in_both.into_iter().all(|phy| of_one[phy] == of_other[phy])
}

/// The whole records, also of a table whose size is not right.
fn records<'a>(caller: &Caller<'a>) -> &'a [Record] {
    caller.phys.as_chunks().0
}

fn arriving(caller: &Caller) -> Option<PhyRecord> {
    let place = usize::try_from(caller.phy).ok()?;
    records(caller).get(place).map(PhyRecord::from)
}
