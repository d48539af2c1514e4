//! Where a call arrives and who is speaking, for classes of answers.

use super::call::Call;
use super::profile::Profile;
use crate::ports::same_port;
use crate::speaking::{source_from_outside, source_of_open};
use crate::tables::{Group, PhyRecord, Record};

/// The tables of a call that was not refused, so that they have the right sizes.
pub struct Arrival<'a> {
    pub profile: Profile,
    pub phys: &'a [Record],
    pub permissions: &'a [u8],
    pub phy: usize,
    pub source: Group,
}

impl Arrival<'_> {
    /// Nothing for a call on which no group speaks.
    pub fn of(profile: Profile, call: &Call) -> Option<Arrival<'_>> {
        let (phys, permissions, phy) = match call {
            Call::Open { phys, permissions, phy, .. }
            | Call::Primitive { phys, permissions, phy, .. }
            | Call::BroadcastFrame { phys, permissions, phy, .. }
            | Call::Smp { phys, permissions, phy, .. }
            | Call::Import { phys, permissions, phy, .. } => (phys, permissions, *phy as usize),
            _ => return None,
        };
        let phys: &[Record] = phys.as_chunks().0;
        let arriving = PhyRecord::from(&phys[phy]);
        let source = match call {
            Call::Open { frame, .. } => source_of_open(&arriving, frame[20]),
            Call::BroadcastFrame { frame, .. } => source_from_outside(&arriving, frame[3]).ok()?,
            Call::Smp { carried, .. } | Call::Import { carried, .. } => {
                source_from_outside(&arriving, *carried as u8).ok()?
            }
            _ => arriving.group,
        };
        Some(Arrival { profile, phys, permissions, phy, source })
    }

    pub fn record(&self, phy: usize) -> PhyRecord {
        PhyRecord::from(&self.phys[phy])
    }

    /// Whether the source group reaches this one.
    pub fn reaches(&self, destination: Group) -> bool {
        self.profile.permitted(self.permissions, self.source, destination)
    }

    /// Whether this group reaches the source group.
    pub fn is_reached_by(&self, group: Group) -> bool {
        self.would_reach(group, self.source)
    }

    /// P of two groups, whoever is speaking.
    pub fn would_reach(&self, a: Group, b: Group) -> bool {
        self.profile.permitted(self.permissions, a, b)
    }

    pub fn may_change_zoning(&self) -> bool {
        self.profile.may_change_zoning(self.permissions, self.source)
    }

    pub fn same_port(&self, a: usize, b: usize) -> bool {
        same_port(self.phys, a, b)
    }

    /// The other phys of a phy's port.
    pub fn sisters(&self, phy: usize) -> Vec<usize> {
        (0..self.phys.len()).filter(|&other| other != phy && self.same_port(other, phy)).collect()
    }
}

pub fn is_in(set: &[u8], phy: usize) -> bool {
    set[phy / 8] >> (phy % 8) & 1 == 1
}

pub type Classes = Vec<&'static str>;

/// Those classes of which it is said that they apply.
pub fn that_apply(said: &[(&'static str, bool)]) -> Classes {
    said.iter().filter(|(_, applies)| *applies).map(|(class, _)| *class).collect()
}
