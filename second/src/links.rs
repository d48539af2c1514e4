//! Links and supervisor.

use crate::refusals::{arriving_phy, number, ready, refuse_if, Refusal};
use crate::tables::{phy_table, phy_table_mut, route_table, PhyRecord, RouteRecord, DEVICE_TYPE};

const READY: u8 = 0b01;
const ADDRESS_KNOWN: u8 = 0b10;

/// A phy leaves the ready state.
pub fn leaving(phys: &mut [u8], phy: u32) -> u32 {
    number(try_leaving(phys, phy))
}

fn try_leaving(phys: &mut [u8], phy: u32) -> Result<(), Refusal> {
    let phys = phy_table_mut(phys)?;
    let place = arriving_phy(phys, phy)?;
    let record = &mut phys[place];
    ready(record)?;
    record[2] &= ADDRESS_KNOWN;
    Ok(())
}

/// IDENTIFY arrives with the attached device's address and type, and with the phy of its own by which it is attached.
pub fn identify(phys: &mut [u8], phy: u32, address: &[u8], device_type: u32, attached_phy: u32) -> u32 {
    number(try_identify(phys, phy, address, device_type, attached_phy))
}

fn try_identify(phys: &mut [u8], phy: u32, address: &[u8], device_type: u32, attached_phy: u32) -> Result<(), Refusal> {
    let phys = phy_table_mut(phys)?;
    let place = arriving_phy(phys, phy)?;
    let record = &mut phys[place];
    let before = PhyRecord::from(&*record);
    refuse_if(before.ready, Refusal::Readiness)?;
    let address: [u8; 8] = address.try_into().map_err(|_| Refusal::Length)?;
    refuse_if(address == [0; 8], Refusal::Kind)?;
    let device_type = u8::try_from(device_type).map_err(|_| Refusal::Kind)?;
    let attached_phy = u8::try_from(attached_phy).map_err(|_| Refusal::Kind)?;
    // Another device is attached than before: it does not inherit the zoning.
    if before.address_known && before.address != u64::from_be_bytes(address) {
        record[..2].fill(0);
    }
    record[2] = READY | ADDRESS_KNOWN;
    record[4..12].copy_from_slice(&address);
    record[12] = device_type & DEVICE_TYPE;
    record[13] = attached_phy;
    Ok(())
}

#[derive(Clone, Copy, Debug, Default, PartialEq, Eq)]
pub struct Elected {
    pub refusal: u32,
    pub priority: u32,
    pub address: u64,
}

/// The elected supervisor.
pub fn elect(phys: &[u8], routes: &[u8]) -> Elected {
    match try_elect(phys, routes) {
        Ok((priority, address)) => Elected { refusal: 0, priority: u32::from(priority), address },
        Err(refusal) => Elected { refusal: refusal.number(), ..Elected::default() },
    }
}

fn try_elect(phys: &[u8], routes: &[u8]) -> Result<(u8, u64), Refusal> {
    let (phys, routes) = (phy_table(phys)?, route_table(routes)?);
    let attached = phys.iter().map(PhyRecord::from).filter(|record| record.ready);
    let attached = attached.map(|record| (record.priority, record.address));
    let routed = routes.iter().map(RouteRecord::from).filter(|record| record.group.is_some());
    let routed = routed.map(|record| (record.priority, record.address));
    // Tuples compare as the rule asks: higher priority wins, then the greater address.
    let best = attached.chain(routed).filter(|&(priority, address)| priority > 0 && address != 0).max();
    Ok(best.unwrap_or((0, 0)))
}
