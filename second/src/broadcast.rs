//! Broadcasts.

use crate::open::FRAME;
use crate::permission::permitted;
use crate::ports::same_port;
use crate::refusals::{arriving_phy, ready, refuse_if, room, Refusal};
use crate::speaking::source_from_outside;
use crate::tables::{permission_table, phy_table, Group, PhyRecord, Record, Row};

/// The bytes of a phy set. Phy i is at bit i mod 8 of byte i/8: bit i of a little-endian number.
pub const SET: usize = 16;

const LONG_TYPE: u8 = 0x2;
const SHORT_TYPE: u8 = 0x3;
const SHORT_FRAME: usize = 4;
const GROUP_BYTE: usize = 3;
const HIGHEST_NUMBER: u32 = 7;

#[derive(Clone, Copy, Debug, Default, PartialEq, Eq)]
pub struct Told {
    pub refusal: u32,
    pub count: u32,
}

impl From<Result<u32, Refusal>> for Told {
    fn from(count: Result<u32, Refusal>) -> Told {
        match count {
            Ok(count) => Told { refusal: 0, count },
            Err(refusal) => Told { refusal: refusal.number(), count: 0 },
        }
    }
}

/// A broadcast primitive arrives.
pub fn primitive<const WIDTH: usize>(
    phys: &[u8],
    permissions: &[u8],
    phy: u32,
    number: u32,
    set: &mut [u8],
    out: &mut [u8],
) -> Told {
    try_primitive(phys, permissions, phy, number, set, out, one_of_each_other_port::<WIDTH>).into()
}

/// `told` says who is told: the rule as it is read, or, where the time counts, another way to the same phys.
pub(crate) fn try_primitive<const WIDTH: usize>(
    phys: &[u8],
    permissions: &[u8],
    phy: u32,
    number: u32,
    set: &mut [u8],
    out: &mut [u8],
    told: impl Fn(&[Record], &[Row<WIDTH>], usize, Group) -> u128,
) -> Result<u32, Refusal> {
    let (phys, rows) = (phy_table(phys)?, permission_table(permissions)?);
    let place = arriving_phy(phys, phy)?;
    room(set, SET)?;
    room(out, FRAME)?;
    let arriving = ready(&phys[place])?;
    refuse_if(number > HIGHEST_NUMBER, Refusal::Kind)?;
    Ok(tell(told(phys, rows, place, arriving.group), arriving.group, number as u8, set, out))
}

/// A broadcast frame arrives.
pub fn broadcast_frame<const WIDTH: usize>(
    phys: &[u8],
    permissions: &[u8],
    phy: u32,
    frame: &[u8],
    set: &mut [u8],
    out: &mut [u8],
) -> Told {
    try_broadcast_frame(phys, permissions, phy, frame, set, out, one_of_each_other_port::<WIDTH>).into()
}

/// `told` is that of `try_primitive`.
pub(crate) fn try_broadcast_frame<const WIDTH: usize>(
    phys: &[u8],
    permissions: &[u8],
    phy: u32,
    frame: &[u8],
    set: &mut [u8],
    out: &mut [u8],
    told: impl Fn(&[Record], &[Row<WIDTH>], usize, Group) -> u128,
) -> Result<u32, Refusal> {
    let (phys, rows) = (phy_table(phys)?, permission_table(permissions)?);
    let place = arriving_phy(phys, phy)?;
    room(set, SET)?;
    room(out, FRAME)?;
    let arriving = ready(&phys[place])?;
    let expected = match frame.first().ok_or(Refusal::Length)? & 0x0f {
        LONG_TYPE => FRAME,
        SHORT_TYPE => SHORT_FRAME,
        _ => return Err(Refusal::Kind),
    };
    refuse_if(frame.len() != expected, Refusal::Length)?;
    // 6 comes after 5, but on a phy that is not participating byte 3 gives no cause for 5.
    refuse_if(!arriving.participating, Refusal::NotParticipating)?;
    let number = frame[0] >> 4 & 0x7;
    let source = source_from_outside(&arriving, frame[GROUP_BYTE])?;
    Ok(tell(told(phys, rows, place, source), source, number, set, out))
}

/// Writes the set and the frame for participating phys; answers how many phys are told.
fn tell(told: u128, source: Group, number: u8, set: &mut [u8], out: &mut [u8]) -> u32 {
    write_set(told, set);
    write_frame(number, source, out);
    told.count_ones()
}

/// The lowest permitted phy of each port but the arriving phy's.
fn one_of_each_other_port<const WIDTH: usize>(
    phys: &[Record],
    rows: &[Row<WIDTH>],
    arriving: usize,
    source: Group,
) -> u128 {
    let reached = phy_set(phys, |record| permitted(rows, source, record.group));
    let is_permitted = |phy: &usize| reached >> phy & 1 == 1;
    let has_lower = |phy: usize| (0..phy).filter(is_permitted).any(|lower| same_port(phys, lower, phy));
    (0..phys.len())
        .filter(is_permitted)
        .filter(|&phy| !same_port(phys, arriving, phy))
        .filter(|&phy| !has_lower(phy))
        .fold(0, |set, phy| set | 1 << phy)
}

/// The ready phys that fit, phy i at bit i.
pub fn phy_set(phys: &[Record], fits: impl Fn(&PhyRecord) -> bool) -> u128 {
    let is_in = |record: &Record| {
        let record = PhyRecord::from(record);
        record.ready && fits(&record)
    };
    let mut set = [0; SET];
    for (byte, eight) in set.iter_mut().zip(phys.chunks(8)) {
        *byte = eight.iter().rev().fold(0, |byte, record| byte << 1 | u8::from(is_in(record)));
    }
    u128::from_le_bytes(set)
}

pub fn write_set(told: u128, set: &mut [u8]) {
    set[..SET].copy_from_slice(&told.to_le_bytes());
}

fn write_frame(number: u8, source: Group, out: &mut [u8]) {
    out[..FRAME].fill(0);
    out[0] = number << 4 | LONG_TYPE;
    out[GROUP_BYTE] = source.number();
}
