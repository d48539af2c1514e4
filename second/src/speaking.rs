//! Who is speaking. A primitive carries no group: its source group is the phy record's. A carried group counts only on a
//! participating phy.

use crate::refusals::Refusal;
use crate::tables::{Group, PhyRecord};

/// The source group of an OPEN. The highest bit of its byte 20 is ACCESS ZONE MANAGEMENT and no part of the group.
pub fn source_of_open(arriving: &PhyRecord, zone_byte: u8) -> Group {
    if arriving.participating {
        Group::low_7_bits(zone_byte)
    } else {
        arriving.group
    }
}

/// The source group of a broadcast frame or an SMP request. 5: a byte from outside that is no group, where it counts.
pub fn source_from_outside(arriving: &PhyRecord, carried: u8) -> Result<Group, Refusal> {
    if arriving.participating {
        Group::from_outside(carried).ok_or(Refusal::Kind)
    } else {
        Ok(arriving.group)
    }
}
