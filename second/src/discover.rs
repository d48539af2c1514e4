//! DISCOVER, function 10h: what a phy is and who is attached to it. It asks for no right, but shows a phy only to those
//! who reach it, unless they say that they do not mind.
//!
//! The places are those of source document 002's tables 1 and 2. All fields that are not written here are zero.

use crate::permission::permitted;
use crate::smp::{turn_down_if, Accepted, TurnedDown, HEADER};
use crate::tables::{Group, PhyRecord, Record, Row};

const REQUEST: usize = 12;
const RESPONSE: usize = 108;

/// What byte 3 of a request may say of its length. Zero is what earlier versions of the standard wrote there: the
/// request has the same 12 bytes.
const REQUEST_LENGTHS: [u8; 2] = [0x02, 0x00];

const IGNORE_ZONE_GROUP: u8 = 1 << 0;
const INSIDE_ZPSDS: u8 = 1 << 1;
const ZONING_ENABLED: u8 = 1 << 0;

/// How often the expander and the asked phy have changed, by the caller's count.
#[derive(Clone, Copy)]
pub(crate) struct Changes {
    pub expander: u16,
    pub phy: u8,
}

pub(crate) fn discover<const WIDTH: usize>(
    phys: &[Record],
    rows: &[Row<WIDTH>],
    source: Group,
    changes: Changes,
    request: &[u8],
    response: &mut [u8],
) -> Result<Accepted, TurnedDown> {
    let request: &[u8; REQUEST] = request.try_into().map_err(|_| TurnedDown::InvalidRequestLength)?;
    turn_down_if(!REQUEST_LENGTHS.contains(&request[3]), TurnedDown::InvalidRequestLength)?;
    let asked = request[9];
    let record = phys.get(usize::from(asked)).ok_or(TurnedDown::PhyDoesNotExist)?;
    let phy = PhyRecord::from(record);
    let ignore_zone_group = request[8] & IGNORE_ZONE_GROUP != 0;
    turn_down_if(!ignore_zone_group && !permitted(rows, source, phy.group), TurnedDown::PhyVacant)?;

    let shown: &mut [u8; RESPONSE] = response.first_chunk_mut().expect("there is room for the longest report");
    shown[HEADER..].fill(0);
    shown[4..6].copy_from_slice(&changes.expander.to_be_bytes());
    shown[9] = asked;
    if phy.ready {
        shown[12] = phy.device_type << 4;
        shown[24..32].copy_from_slice(&phy.address.to_be_bytes());
        shown[32] = phy.attached_phy;
    }
    shown[42] = changes.phy;
    shown[60] = ZONING_ENABLED | if phy.participating { INSIDE_ZPSDS } else { 0 };
    shown[63] = phy.group.number();
    Ok(Accepted { length: RESPONSE, told: 0 })
}
