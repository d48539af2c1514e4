//! Which shelf calls are made up for: document 01's, or the small one of document 02's request 09.

use crate::permission::{permitted, start_up};
use crate::tables::{groups_of_table, permission_table, Group, LARGE, SMALL};
use std::fmt;

#[derive(Clone, Copy, Debug, PartialEq, Eq)]
pub enum Profile {
    Large,
    Small,
}

impl fmt::Display for Profile {
    fn fmt(&self, f: &mut fmt::Formatter) -> fmt::Result {
        f.write_str(match self {
            Profile::Large => "large",
            Profile::Small => "small",
        })
    }
}

impl Profile {
    pub const ALL: [Profile; 2] = [Profile::Large, Profile::Small];

    pub fn named(name: &str) -> Option<Profile> {
        Profile::ALL.into_iter().find(|profile| profile.to_string() == name)
    }

    pub fn other(self) -> Profile {
        match self {
            Profile::Large => Profile::Small,
            Profile::Small => Profile::Large,
        }
    }

    /// The bytes of a row.
    pub fn width(self) -> usize {
        match self {
            Profile::Large => LARGE,
            Profile::Small => SMALL,
        }
    }

    pub fn groups_of_table(self) -> usize {
        groups_of_table(self.width())
    }

    pub fn table_size(self) -> usize {
        self.groups_of_table() * self.width()
    }

    /// The permission table at start-up.
    pub fn fresh_table(self) -> Vec<u8> {
        let mut permissions = vec![0; self.table_size()];
        match self {
            Profile::Large => start_up::<LARGE>(&mut permissions),
            Profile::Small => start_up::<SMALL>(&mut permissions),
        };
        permissions
    }

    /// P(a, b), in a table of the right size.
    pub fn permitted(self, permissions: &[u8], a: Group, b: Group) -> bool {
        match self {
            Profile::Large => reaches::<LARGE>(permissions, a, b),
            Profile::Small => reaches::<SMALL>(permissions, a, b),
        }
    }

    /// Writes P(a, b) where the table has both groups. P of others is no matter of the table.
    pub fn write(self, permissions: &mut [u8], a: Group, b: Group, on: bool) {
        let width = self.width();
        if a.is_in_table(width) && b.is_in_table(width) {
            let byte = &mut permissions[width * a.index() + width - 1 - b.index() / 8];
            let bit = b.index() % 8;
            *byte = *byte & !(1 << bit) | u8::from(on) << bit;
        }
    }

    /// Whether a caller of this group may change zoning.
    pub fn may_change_zoning(self, permissions: &[u8], source: Group) -> bool {
        self.permitted(permissions, source, Group::low_7_bits(2))
    }
}

fn reaches<const WIDTH: usize>(permissions: &[u8], a: Group, b: Group) -> bool {
    permission_table::<WIDTH>(permissions).is_ok_and(|rows| permitted(rows, a, b))
}
