//! SMP: document 01's three functions and everything around them. DISCOVER is in `discover`.

use crate::broadcast::{phy_set, write_set, SET};
use crate::discover::{discover, Changes};
use crate::permission::{may_change_zoning, show_rows, write_pair, write_row, FIRST_NAMED};
use crate::refusals::{arriving_phy, ready, refuse_if, room, Refusal};
use crate::speaking::source_from_outside;
use crate::tables::{groups_of_table, permission_table_mut, phy_table_mut, Group, Record, Row, GROUPS, LARGE};

pub const REQUEST_TYPE: u8 = 0x40;
pub const RESPONSE_TYPE: u8 = 0x41;
pub const CONFIGURE_PHY_ZONE: u8 = 0x93;
pub const CONFIGURE_ZONE_PERMISSION: u8 = 0xc1;
pub const REPORT_ZONE_PERMISSION: u8 = 0x51;
pub const DISCOVER: u8 = 0x10;

/// The room that a response needs: that of the longest report.
pub const RESPONSE: usize = 1020;

pub(crate) const HEADER: usize = 4;
const REPORT_HEADER: usize = 12;
const LARGEST_REPORT: usize = 63;

/// Refusal 8 never occurs: every other length field is 0, but for DISCOVER's 1Ah.
pub const LONGEST_LENGTH_FIELD: usize = report_length_field(LARGEST_REPORT);
const _: () = assert!(LONGEST_LENGTH_FIELD <= 255);

const fn report_length_field(rows: usize) -> usize {
    2 + 4 * rows
}

/// The results that turn a request down.
#[derive(Clone, Copy, Debug, PartialEq, Eq)]
pub(crate) enum TurnedDown {
    UnknownFunction = 0x01,
    Failed = 0x02,
    InvalidRequestLength = 0x03,
    PhyDoesNotExist = 0x10,
    IndexDoesNotExist = 0x11,
    PhyVacant = 0x16,
}

/// What an accepted request leads to, beside the tables it changed.
pub(crate) struct Accepted {
    pub length: usize,
    pub told: u128,
}

#[derive(Clone, Copy, Debug, Default, PartialEq, Eq)]
pub struct Answered {
    pub refusal: u32,
    pub result: u32,
    pub length: u32,
    pub count: u32,
}

/// An SMP request arrives; `carried` is the group that the caller took from the connection's OPEN, and the two counts
/// of changes, the expander's and the asked phy's, are the caller's own.
#[allow(clippy::too_many_arguments, reason = "they are the header's")]
pub fn smp<const WIDTH: usize>(
    phys: &mut [u8],
    permissions: &mut [u8],
    phy: u32,
    carried: u32,
    expander_changes: u32,
    phy_changes: u32,
    request: &[u8],
    response: &mut [u8],
    set: &mut [u8],
) -> Answered {
    try_smp::<WIDTH>(phys, permissions, phy, carried, expander_changes, phy_changes, request, response, set)
        .unwrap_or_else(|refusal| Answered { refusal: refusal.number(), ..Answered::default() })
}

#[allow(clippy::too_many_arguments, reason = "they are the header's")]
fn try_smp<const WIDTH: usize>(
    phys: &mut [u8],
    permissions: &mut [u8],
    phy: u32,
    carried: u32,
    expander_changes: u32,
    phy_changes: u32,
    request: &[u8],
    response: &mut [u8],
    set: &mut [u8],
) -> Result<Answered, Refusal> {
    let (phys, rows) = (phy_table_mut(phys)?, permission_table_mut::<WIDTH>(permissions)?);
    let place = arriving_phy(phys, phy)?;
    room(response, RESPONSE)?;
    room(set, SET)?;
    let arriving = ready(&phys[place])?;
    refuse_if(request.len() < HEADER, Refusal::Length)?;
    refuse_if(request[0] != REQUEST_TYPE, Refusal::Kind)?;
    let carried = u8::try_from(carried).map_err(|_| Refusal::Kind)?;
    let source = source_from_outside(&arriving, carried)?;
    let expander = u16::try_from(expander_changes).map_err(|_| Refusal::Kind)?;
    let changes = Changes { expander, phy: u8::try_from(phy_changes).map_err(|_| Refusal::Kind)? };

    let right = may_change_zoning(rows, source);
    let answer = match request[1] {
        CONFIGURE_PHY_ZONE => configure_phy_zone::<WIDTH>(phys, right, request),
        CONFIGURE_ZONE_PERMISSION => configure_zone_permission(phys, rows, right, request),
        REPORT_ZONE_PERMISSION => report_zone_permission(rows, right, request, response),
        DISCOVER => discover(phys, rows, source, changes, request, response),
        _ => Err(TurnedDown::UnknownFunction),
    };
    Ok(respond(request[1], answer, response, set))
}

/// Writes the four bytes that every response starts with, and the set.
fn respond(function: u8, answer: Result<Accepted, TurnedDown>, response: &mut [u8], set: &mut [u8]) -> Answered {
    let (result, accepted) = match answer {
        Ok(accepted) => (0, accepted),
        Err(result) => (result as u8, Accepted { length: HEADER, told: 0 }),
    };
    let length_field = (accepted.length - HEADER) / 4;
    response[..HEADER].copy_from_slice(&[RESPONSE_TYPE, function, result, length_field as u8]);
    write_set(accepted.told, set);
    Answered {
        refusal: 0,
        result: u32::from(result),
        length: accepted.length as u32,
        count: accepted.told.count_ones(),
    }
}

pub(crate) fn turn_down_if(cause: bool, result: TurnedDown) -> Result<(), TurnedDown> {
    if cause {
        Err(result)
    } else {
        Ok(())
    }
}

/// M is 4 + 4L.
fn length_agrees(request: &[u8]) -> bool {
    request.len() == HEADER + 4 * usize::from(request[3])
}

fn all_ready(phys: &[Record]) -> u128 {
    phy_set(phys, |_| true)
}

fn configure_phy_zone<const WIDTH: usize>(
    phys: &mut [Record],
    right: bool,
    request: &[u8],
) -> Result<Accepted, TurnedDown> {
    turn_down_if(!right, TurnedDown::Failed)?;
    turn_down_if(request.len() < 8 || !length_agrees(request), TurnedDown::InvalidRequestLength)?;
    let k = usize::from(request[7]);
    let fill = 2 * (k % 2);
    turn_down_if(request.len() != 8 + 2 * k + fill, TurnedDown::InvalidRequestLength)?;
    let start = usize::from(request[6] & 0x7f);
    // All descriptors are judged before the first record is changed. The fill is no descriptor.
    let records = phys.get_mut(start..start + k).ok_or(TurnedDown::PhyDoesNotExist)?;
    let descriptors = &request[8..][..2 * k].as_chunks::<2>().0;
    turn_down_if(!descriptors.iter().all(may_be_written::<WIDTH>), TurnedDown::Failed)?;
    for (record, &[zoning, group]) in records.iter_mut().zip(descriptors.iter()) {
        record[0] = zoning & 0x1f;
        record[1] = group;
    }
    Ok(Accepted { length: HEADER, told: all_ready(phys) })
}

/// That a group is not in the table comes after all other causes. But the last of those is 02h as well, so one look at
/// each descriptor is enough. A byte above 127 is in no table.
pub(crate) fn may_be_written<const WIDTH: usize>(&[zoning, group]: &[u8; 2]) -> bool {
    let participating = zoning & 0x10 != 0;
    usize::from(group) < groups_of_table(WIDTH) && (!participating || group == 1)
}

fn configure_zone_permission<const WIDTH: usize>(
    phys: &[Record],
    rows: &mut [Row<WIDTH>],
    right: bool,
    request: &[u8],
) -> Result<Accepted, TurnedDown> {
    turn_down_if(!right, TurnedDown::UnknownFunction)?;
    turn_down_if(!length_agrees(request) || request.len() < 12, TurnedDown::InvalidRequestLength)?;
    match request[9] >> 4 {
        8 => single(rows, request)?,
        9 => batch(rows, request)?,
        _ => return Err(TurnedDown::Failed),
    }
    let update_complete = request[9] & 1 != 0;
    let told = if update_complete { all_ready(phys) } else { 0 };
    Ok(Accepted { length: HEADER, told })
}

fn single<const WIDTH: usize>(rows: &mut [Row<WIDTH>], request: &[u8]) -> Result<(), TurnedDown> {
    turn_down_if(request.len() != 12, TurnedDown::InvalidRequestLength)?;
    let [source, target] = [request[6], request[7]].map(Group::low_7_bits);
    turn_down_if(source.index() < FIRST_NAMED || target.index() < FIRST_NAMED, TurnedDown::Failed)?;
    turn_down_if(!source.is_in_table(WIDTH) || !target.is_in_table(WIDTH), TurnedDown::Failed)?;
    let new_value = request[7] & 0x80 != 0;
    write_pair(rows, source, target, new_value);
    Ok(())
}

fn batch<const WIDTH: usize>(rows: &mut [Row<WIDTH>], request: &[u8]) -> Result<(), TurnedDown> {
    let (start, k) = (usize::from(request[10]), usize::from(request[11]));
    turn_down_if(request.len() != 12 + LARGE * k, TurnedDown::InvalidRequestLength)?;
    turn_down_if(start + k > GROUPS, TurnedDown::IndexDoesNotExist)?;
    turn_down_if(start < FIRST_NAMED && k > 0, TurnedDown::Failed)?;
    turn_down_if(start + k > groups_of_table(WIDTH) && k > 0, TurnedDown::Failed)?;
    for (r, new) in (start..).zip(request[12..].as_chunks().0) {
        write_row(rows, r, new);
    }
    Ok(())
}

fn report_zone_permission<const WIDTH: usize>(
    rows: &[Row<WIDTH>],
    right: bool,
    request: &[u8],
    response: &mut [u8],
) -> Result<Accepted, TurnedDown> {
    turn_down_if(!right, TurnedDown::UnknownFunction)?;
    turn_down_if(request.len() != 8 || request[3] != 1, TurnedDown::InvalidRequestLength)?;
    let start = usize::from(request[6]);
    turn_down_if(start >= GROUPS, TurnedDown::IndexDoesNotExist)?;
    let r = usize::from(request[7]).min(LARGEST_REPORT).min(GROUPS - start);
    response[HEADER..REPORT_HEADER].copy_from_slice(&[0, 0, start as u8, r as u8, 0, 0, 0, 0]);
    let length = HEADER + 4 * report_length_field(r);
    show_rows(rows, start, response[REPORT_HEADER..length].as_chunks_mut().0);
    Ok(Accepted { length, told: 0 })
}
