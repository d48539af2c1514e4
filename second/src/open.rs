//! OPEN.

use crate::permission::permitted;
use crate::ports::same_port;
use crate::refusals::{arriving_phy, ready, refuse_if, room, Refusal};
use crate::speaking::source_of_open;
use crate::tables::{permission_table, phy_table, route_table, Group, PhyRecord, Record, Route, RouteRecord};

/// An OPEN frame without its CRC.
pub const FRAME: usize = 28;

const TYPE: u8 = 0x1;
const ZONE_BYTE: usize = 20;
const ACCESS_ZONE_MANAGEMENT: u8 = 0x80;

#[derive(Clone, Copy, Debug, PartialEq, Eq)]
pub enum Outcome {
    NoDestination,
    BadDestination,
    ZoneViolation,
    Forward(usize),
}

#[derive(Clone, Copy, Debug, Default, PartialEq, Eq)]
pub struct Opened {
    pub refusal: u32,
    pub outcome: u32,
    pub phy: u32,
}

impl From<Outcome> for Opened {
    fn from(outcome: Outcome) -> Opened {
        let (outcome, phy) = match outcome {
            Outcome::NoDestination => (1, 0),
            Outcome::BadDestination => (2, 0),
            Outcome::ZoneViolation => (3, 0),
            Outcome::Forward(phy) => (4, phy as u32),
        };
        Opened { refusal: 0, outcome, phy }
    }
}

/// An OPEN frame arrives.
pub fn open<const WIDTH: usize>(
    phys: &[u8],
    routes: &[u8],
    permissions: &[u8],
    phy: u32,
    frame: &[u8],
    out: &mut [u8],
) -> Opened {
    match try_open::<WIDTH>(phys, routes, permissions, phy, frame, out) {
        Ok(outcome) => outcome.into(),
        Err(refusal) => Opened { refusal: refusal.number(), ..Opened::default() },
    }
}

fn try_open<const WIDTH: usize>(
    phys: &[u8],
    routes: &[u8],
    permissions: &[u8],
    phy: u32,
    frame: &[u8],
    out: &mut [u8],
) -> Result<Outcome, Refusal> {
    let (phys, routes, rows) = (phy_table(phys)?, route_table(routes)?, permission_table::<WIDTH>(permissions)?);
    let place = arriving_phy(phys, phy)?;
    room(out, FRAME)?;
    let arriving = ready(&phys[place])?;
    let frame: &[u8; FRAME] = frame.try_into().map_err(|_| Refusal::Length)?;
    refuse_if(frame[0] & 0x0f != TYPE, Refusal::Kind)?;

    let Some(found) = search(phys, routes, destination(frame)) else {
        return Ok(Outcome::NoDestination);
    };
    if same_port(phys, place, found.phy) {
        return Ok(Outcome::BadDestination);
    }
    let source = source_of_open(&arriving, frame[ZONE_BYTE]);
    if !permitted(rows, source, found.group) {
        return Ok(Outcome::ZoneViolation);
    }
    out[..FRAME].copy_from_slice(frame);
    out[ZONE_BYTE] = forwarded_zone_byte(&arriving, &PhyRecord::from(&phys[found.phy]), source, frame[ZONE_BYTE]);
    Ok(Outcome::Forward(found.phy))
}

fn destination(frame: &[u8; FRAME]) -> u64 {
    let [_, _, _, _, a, b, c, d, e, f, g, h, ..] = *frame;
    u64::from_be_bytes([a, b, c, d, e, f, g, h])
}

/// Where an address was found: the phy that leads to it and the group that it belongs to.
pub struct Found {
    pub phy: usize,
    pub group: Group,
}

/// The phy table first, then the route table; an address of zero matches nothing.
pub fn search(phys: &[Record], routes: &[Route], address: u64) -> Option<Found> {
    if address == 0 {
        return None;
    }
    search_phys(phys, address).or_else(|| search_routes(phys, routes, address))
}

fn search_phys(phys: &[Record], address: u64) -> Option<Found> {
    phys.iter()
        .map(PhyRecord::from)
        .enumerate()
        .find(|(_, record)| record.address == address && record.ready)
        .map(|(phy, record)| Found { phy, group: record.group })
}

/// A route counts only if its phy exists and is ready, and if it has a group: the search goes on past any other.
fn search_routes(phys: &[Record], routes: &[Route], address: u64) -> Option<Found> {
    let is_ready = |phy: u8| phys.get(usize::from(phy)).is_some_and(|record| PhyRecord::from(record).ready);
    routes
        .iter()
        .map(RouteRecord::from)
        .filter(|route| route.address == address && is_ready(route.phy))
        .find_map(|route| Some(Found { phy: usize::from(route.phy), group: route.group? }))
}

fn forwarded_zone_byte(arriving: &PhyRecord, towards: &PhyRecord, source: Group, carried: u8) -> u8 {
    if !towards.participating {
        return 0;
    }
    let access = if arriving.participating { carried & ACCESS_ZONE_MANAGEMENT != 0 } else { arriving.priority > 0 };
    source.number() | if access { ACCESS_ZONE_MANAGEMENT } else { 0 }
}
