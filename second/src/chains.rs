//! The same rule on broadcasts by chains, for timing only. The model that judges is the quadratic one.
//!
//! The permitted phys of other ports whose addresses go to one slot are a chain: the slot has the last of them so far,
//! and each the one before it. So a phy is compared with those of its slot alone.

use crate::broadcast::{try_broadcast_frame, try_primitive, Told, SET};
use crate::permission::permitted;
use crate::tables::{Group, PhyRecord, Record, Row};

const SLOTS: usize = 256;
const PHYS: usize = 128;

/// A broadcast primitive arrives.
pub fn primitive<const WIDTH: usize>(
    phys: &[u8],
    permissions: &[u8],
    phy: u32,
    number: u32,
    set: &mut [u8],
    out: &mut [u8],
) -> Told {
    try_primitive(phys, permissions, phy, number, set, out, told::<WIDTH>).into()
}

/// A broadcast frame arrives.
pub fn broadcast_frame<const WIDTH: usize>(
    phys: &[u8],
    permissions: &[u8],
    phy: u32,
    frame: &[u8],
    set: &mut [u8],
    out: &mut [u8],
) -> Told {
    try_broadcast_frame(phys, permissions, phy, frame, set, out, told::<WIDTH>).into()
}

/// A slot and a link hold one more than a phy's number, or 0 where there is none.
struct Chains {
    slots: [u8; SLOTS],
    links: [u8; PHYS],
}

impl Chains {
    /// Whether no phy with this address came before; from now on phy i has.
    #[inline]
    fn is_first(&mut self, phys: &[Record], i: usize, address: u64) -> bool {
        let slot = slot_of(address);
        let mut earlier = usize::from(self.slots[slot]);
        self.links[i] = self.slots[slot];
        self.slots[slot] = i as u8 + 1;
        while earlier != 0 {
            if PhyRecord::from(&phys[earlier - 1]).address == address {
                return false;
            }
            earlier = usize::from(self.links[earlier - 1]);
        }
        true
    }
}

pub fn slot_of(address: u64) -> usize {
    (u64::from(address as u32) * 2_654_435_761 >> 24) as usize % SLOTS
}

fn told<const WIDTH: usize>(phys: &[Record], rows: &[Row<WIDTH>], arriving: usize, source: Group) -> u128 {
    let own = PhyRecord::from(&phys[arriving]).address;
    let mut chains = Chains { slots: [0; SLOTS], links: [0; PHYS] };
    let mut set = [0u8; SET];
    for (i, record) in phys.iter().map(PhyRecord::from).enumerate() {
        let is_permitted = record.ready & (i != arriving) & permitted(rows, source, record.group);
        let alone = record.address == 0;
        if is_permitted && (alone || record.address != own && chains.is_first(phys, i, record.address)) {
            set[i / 8] |= 1 << (i % 8);
        }
    }
    u128::from_le_bytes(set)
}

#[cfg(test)]
mod tests {
    use super::*;
    use crate::tables::{LARGE, SMALL};
    use crate::trial::call::{Answer, Call};
    use crate::trial::generate::Generator;
    use crate::trial::profile::Profile;

    /// Where the call is a broadcast.
    fn by_chains<const WIDTH: usize>(call: Call) -> Option<(Told, Vec<Vec<u8>>)> {
        match call {
            Call::Primitive { phys, permissions, phy, number, mut set, mut out } => {
                let told = primitive::<WIDTH>(&phys, &permissions, phy, number, &mut set, &mut out);
                Some((told, vec![set, out]))
            }
            Call::BroadcastFrame { phys, permissions, phy, frame, mut set, mut out } => {
                let told = broadcast_frame::<WIDTH>(&phys, &permissions, phy, &frame, &mut set, &mut out);
                Some((told, vec![set, out]))
            }
            _ => None,
        }
    }

    fn says_what_the_model_says<const WIDTH: usize>(profile: Profile) {
        let mut generator = Generator::new(profile, 1);
        let mut count = 0;
        for _ in 0..60_000 {
            let call = generator.call();
            let answer = call.model(profile);
            generator.keep(&call, &answer);
            if let Some((told, buffers)) = by_chains::<WIDTH>(call) {
                let fields = [told.refusal.into(), told.count.into(), 0, 0, 0];
                assert_eq!(Answer { fields, buffers }, answer);
                count += told.count;
            }
        }
        assert!(count > 10_000, "{count} told");
    }

    #[test]
    fn says_what_the_model_says_on_both_shelves() {
        says_what_the_model_says::<LARGE>(Profile::Large);
        says_what_the_model_says::<SMALL>(Profile::Small);
    }

    /// The addresses that timing makes up to meet in one slot are what they are said to be.
    #[test]
    fn a_slot_is_one_of_256() {
        assert!((0..1000).all(|address| slot_of(address << 20) < SLOTS));
        assert_eq!(slot_of(0x5000_c500_0000_0001), slot_of(0x1000_0000_0000_0001), "the lower half alone counts");
    }
}
