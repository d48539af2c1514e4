//! Tables of the right sizes with any contents: a shelf on which calls follow one another.

use super::profile::Profile;
use super::random::Random;
use super::requests::{byte_from_outside, discover, group, group_byte, request, reserved};
use crate::bench::Rack;
use crate::speaking::source_from_outside;
use crate::tables::{Group, PhyRecord, Route, DEVICE_TYPE, RECORD, ROUTE};
use std::iter::repeat_n;

pub struct Shelf {
    pub profile: Profile,
    pub phys: Vec<u8>,
    pub routes: Vec<u8>,
    pub permissions: Vec<u8>,
    /// The addresses that occur on this shelf, so that searches hit.
    addresses: Vec<u64>,
}

impl Shelf {
    pub fn random(random: &mut Random, profile: Profile) -> Shelf {
        let addresses = addresses(random);
        let phys = if random.percent(10) { Rack::default().phys } else { phys(random, profile, &addresses) };
        let routes = routes(random, profile, &addresses, phys.len() / RECORD);
        Shelf { profile, phys, routes, permissions: permissions(random, profile), addresses }
    }

    /// The bench rack, without routes.
    pub fn bench(random: &mut Random) -> Shelf {
        let Rack { phys, permissions } = Rack::default();
        Shelf { profile: Profile::Large, phys, routes: Vec::new(), permissions, addresses: addresses(random) }
    }

    pub fn count(&self) -> usize {
        self.phys.len() / RECORD
    }

    pub fn record(&self, phy: usize) -> PhyRecord {
        PhyRecord::from(&self.phys.as_chunks().0[phy])
    }

    /// An address that is likely to be found.
    pub fn address(&self, random: &mut Random) -> u64 {
        match random.below(10) {
            0 => random.pick(&self.addresses),
            1 => random.number(),
            2..=5 if !self.routes.is_empty() => {
                let record: &Route = &self.routes.as_chunks().0[random.below(self.routes.len() / ROUTE)];
                u64::from_be_bytes(record[..8].try_into().expect("8 bytes"))
            }
            _ => self.record(random.below(self.count())).address,
        }
    }

    /// A phy that fits, where a few attempts find one; else any.
    pub fn phy(&self, random: &mut Random, fits: impl Fn(&PhyRecord) -> bool) -> usize {
        let attempts = 12;
        let mut phy = random.below(self.count());
        for _ in 0..attempts {
            if fits(&self.record(phy)) {
                break;
            }
            phy = random.below(self.count());
        }
        phy
    }

    /// An SMP request, the phy on which it arrives and the byte that is carried with it. DISCOVER asks for no right, and
    /// those who have it mostly reach all groups: so it mostly comes from others.
    pub fn asks(&self, random: &mut Random) -> (usize, u8, Vec<u8>) {
        if random.percent(25) {
            return self.discovers(random);
        }
        let request = request(random, self.profile, self.count());
        let (phy, carried) = self.speaker(random, 85);
        (phy, carried, request)
    }

    /// The same for DISCOVER alone.
    pub fn discovers(&self, random: &mut Random) -> (usize, u8, Vec<u8>) {
        let request = discover(random, self.count());
        let (phy, carried) = self.speaker(random, 25);
        (phy, carried, request)
    }

    /// A ready phy and a carried byte; so many in a hundred should have the right to change zoning. On a participating
    /// phy that byte is at times no group, mostly one that would have the right if it were taken modulo 128.
    pub fn speaker(&self, random: &mut Random, right: usize) -> (usize, u8) {
        let want_right = random.percent(right);
        let mut speaker = (0, 0);
        for _ in 0..12 {
            let carried = byte_from_outside(random, self.profile, 15);
            let phy = self.phy(random, |record| record.ready);
            speaker = (phy, carried);
            let has_right = |source| self.profile.may_change_zoning(&self.permissions, source);
            if !want_right || source_from_outside(&self.record(phy), carried).is_ok_and(has_right) {
                break;
            }
        }
        let (phy, carried) = speaker;
        (phy, if random.percent(6) { carried | 0x80 } else { carried })
    }
}

/// Phy i of a shelf without wide ports has this address and i more, as on the bench rack.
pub const BASE: u64 = 0x5000_0000_0000_0010;

/// A handful of addresses: equal ones, zero, some that differ in one byte only, and some that differ in two bytes alike
/// or have the same bytes in another order.
fn addresses(random: &mut Random) -> Vec<u64> {
    let mut addresses = vec![0, u64::MAX, 1, 1 << 63];
    addresses.extend((0..random.between(2, 24)).map(|i| BASE + i as u64));
    for _ in 0..4 {
        let place = 8 * random.below(8);
        addresses.push(BASE ^ u64::from(random.byte()) << place);
    }
    for _ in 0..2 {
        let (byte, places) = (u64::from(random.byte()), [0, 1].map(|_| 8 * random.below(8)));
        addresses.push(BASE ^ byte << places[0] ^ byte << places[1]);
        addresses.push(BASE.rotate_left(8 * random.between(1, 7) as u32));
    }
    addresses
}

fn phys(random: &mut Random, profile: Profile, addresses: &[u64]) -> Vec<u8> {
    let count = match random.below(10) {
        0 => 1,
        1 => 2,
        2 => random.pick(&[7, 9, 63, 64, 65, 126, 127, 128]),
        3 => 128,
        4 => random.between(1, 128),
        _ => random.between(3, 24),
    };
    let ready = random.pick(&[30, 70, 85, 95, 100]);
    let participating = random.pick(&[0, 10, 40, 90]);
    let alike = random.pick(&[0, 50, 95]);
    let attached = attached(random, addresses, count);
    let mut table = Vec::with_capacity(count * RECORD);
    for (phy, &address) in attached.iter().enumerate() {
        match attached[..phy].iter().rposition(|&other| other == address) {
            Some(before) if random.percent(alike) => table.extend_from_within(RECORD * before..RECORD * before + 2),
            _ => table.extend(zoning(random, profile, participating)),
        }
        table.push(u8::from(random.percent(ready)) | u8::from(random.percent(80)) << 1 | reserved(random) & 0xfc);
        table.push(reserved(random));
        table.extend(address.to_be_bytes());
        table.push(random.byte() & DEVICE_TYPE | reserved(random) & !DEVICE_TYPE);
        table.push(if random.percent(20) { 0 } else { random.byte() });
        table.extend([reserved(random), reserved(random)]);
    }
    table
}

/// The address of each phy: mostly those of wide ports, else each phy's own with a few others among them, or any.
fn attached(random: &mut Random, addresses: &[u64], count: usize) -> Vec<u64> {
    match random.below(10) {
        0..=2 => {
            let own = |phy| if random.percent(90) { BASE + phy as u64 } else { random.pick(addresses) };
            (0..count).map(own).collect()
        }
        3..=4 => (0..count).map(|_| random.pick(addresses)).collect(),
        _ => wide_ports(random, addresses, count),
    }
}

/// Up to eight phys have one address, or now and then all; they are neighbours or lie anywhere.
fn wide_ports(random: &mut Random, addresses: &[u64], count: usize) -> Vec<u64> {
    let widest = random.pick(&[2, 4, 8]);
    let zero = random.pick(&[0, 10, 40]);
    let mut attached = Vec::new();
    while attached.len() < count {
        let address = match random.below(100) {
            percent if percent < zero => 0,
            percent if percent < 70 => BASE + attached.len() as u64,
            _ => random.pick(addresses),
        };
        let width = if random.percent(4) { count } else { random.between(1, widest) };
        attached.extend(repeat_n(address, width));
    }
    attached.truncate(count);
    if random.percent(60) {
        random.shuffle(&mut attached);
    }
    attached
}

/// Bytes 0 and 1 of a phy record.
fn zoning(random: &mut Random, profile: Profile, participating: usize) -> [u8; 2] {
    let bit = u8::from(random.percent(participating)) << 4;
    let priority = if random.percent(50) { 0 } else { random.byte() & 0x0f };
    [bit | priority | reserved(random) & 0xe0, group_byte(random, profile)]
}

fn routes(random: &mut Random, profile: Profile, addresses: &[u64], phys: usize) -> Vec<u8> {
    let count = match random.below(40) {
        0 => 1024,
        1 => random.between(1000, 1024),
        2..=11 => 0,
        12..=15 => random.between(20, 200),
        _ => random.between(1, 12),
    };
    let no_group = random.pick(&[0, 10, 10, 50]);
    let mut table = Vec::with_capacity(count * ROUTE);
    for _ in 0..count {
        let phy = match random.below(10) {
            0 => phys.min(255) as u8,
            1 => random.pick(&[0, 127, 128, 254, 255]),
            _ => random.below(phys) as u8,
        };
        // Routes to one address follow one another, so that a search has more than one to choose from.
        match (table.len().checked_sub(ROUTE), random.below(10)) {
            (Some(last), 0..=2) => table.extend_from_within(last..last + 8),
            (_, 3) => table.extend(random.number().to_be_bytes()),
            _ => table.extend(random.pick(addresses).to_be_bytes()),
        }
        table.push(phy);
        table.push(byte_from_outside(random, profile, no_group));
        table.push(random.byte() & 0x0f | reserved(random) & 0xf0);
        table.push(if random.percent(90) { 0 } else { random.byte() });
    }
    table
}

/// Permissions: as at start-up, with more pairs switched on, or any bytes.
fn permissions(random: &mut Random, profile: Profile) -> Vec<u8> {
    let mut table = profile.fresh_table();
    match random.below(10) {
        0..=3 => {}
        4..=6 => {
            let groups = profile.groups_of_table() as u8;
            for _ in 0..random.between(1, 200) {
                let [a, b] = [0, 1].map(|_| Group::low_7_bits(group(random, profile) % groups));
                profile.write(&mut table, a, b, true);
            }
        }
        7 => table.fill(random.pick(&[0x00, 0xff])),
        _ => table = random.bytes(table.len()),
    }
    table
}
