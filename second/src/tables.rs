//! Lent tables.

use crate::refusals::Refusal;
use std::ops::RangeInclusive;

/// The bytes of a record of the phy table.
pub const RECORD: usize = 16;

/// A record of the phy table.
pub type Record = [u8; RECORD];

/// The bytes of a record of the route table.
pub const ROUTE: usize = 12;

/// A record of the route table.
pub type Route = [u8; ROUTE];

/// How many groups there are.
pub const GROUPS: usize = 128;

/// A row of the permission table. Its width in bytes is the profile: a bit for each group that the table has.
pub type Row<const WIDTH: usize> = [u8; WIDTH];

/// Document 01's permission table has all groups.
pub const LARGE: usize = 16;

/// The small shelf's has groups 0 to 7.
pub const SMALL: usize = 1;

/// A row in a request or in a report: that of document 01, whatever the table's width is.
pub type WireRow = Row<LARGE>;

/// How many groups a table with rows of this width has, from group 0 on; each has a row.
pub const fn groups_of_table(width: usize) -> usize {
    8 * width
}

/// The bits of a device type, in byte 12 of a phy record and in what IDENTIFY hands in.
pub const DEVICE_TYPE: u8 = 0x07;

const PHYS: RangeInclusive<usize> = 1..=128;
const ROUTES: RangeInclusive<usize> = 0..=1024;

/// A zone group, below 128.
#[derive(Clone, Copy, Debug, PartialEq, Eq)]
pub struct Group(u8);

impl Group {
    /// The group that a byte from outside names. Newer shelves number theirs to 255, and one above 127 is none of ours.
    pub fn from_outside(byte: u8) -> Option<Group> {
        (byte <= 127).then_some(Group(byte))
    }

    /// The group that the low 7 bits of a byte name, where its highest bit is another field or reserved.
    pub fn low_7_bits(byte: u8) -> Group {
        Group(byte & 0x7f)
    }

    pub fn number(self) -> u8 {
        self.0
    }

    pub fn index(self) -> usize {
        usize::from(self.0)
    }

    /// Whether a permission table with rows of this width has the group.
    pub fn is_in_table(self, width: usize) -> bool {
        self.index() < groups_of_table(width)
    }
}

/// What a record of the phy table says.
#[derive(Clone, Copy, Debug, PartialEq, Eq)]
pub struct PhyRecord {
    pub participating: bool,
    pub priority: u8,
    pub group: Group,
    pub ready: bool,
    pub address_known: bool,
    pub address: u64,
    /// What kind of device is attached, and by which of its own phys.
    pub device_type: u8,
    pub attached_phy: u8,
}

impl From<&Record> for PhyRecord {
    #[inline]
    fn from(record: &Record) -> PhyRecord {
        let [zoning, group, state, _, a, b, c, d, e, f, g, h, device_type, attached_phy, _, _] = *record;
        PhyRecord {
            participating: zoning & 0x10 != 0,
            priority: zoning & 0x0f,
            group: Group::low_7_bits(group),
            ready: state & 1 != 0,
            address_known: state & 2 != 0,
            address: u64::from_be_bytes([a, b, c, d, e, f, g, h]),
            device_type: device_type & DEVICE_TYPE,
            attached_phy,
        }
    }
}

/// What a record of the route table says. One without a group counts nowhere.
#[derive(Clone, Copy, Debug, PartialEq, Eq)]
pub struct RouteRecord {
    pub address: u64,
    pub phy: u8,
    pub group: Option<Group>,
    pub priority: u8,
}

impl From<&Route> for RouteRecord {
    #[inline]
    fn from(record: &Route) -> RouteRecord {
        let [address @ .., phy, group, priority, _] = *record;
        RouteRecord {
            address: u64::from_be_bytes(address),
            phy,
            group: Group::from_outside(group),
            priority: priority & 0x0f,
        }
    }
}

pub fn phy_table(phys: &[u8]) -> Result<&[Record], Refusal> {
    records(phys, PHYS)
}

pub fn phy_table_mut(phys: &mut [u8]) -> Result<&mut [Record], Refusal> {
    match phys.as_chunks_mut() {
        (records, []) if PHYS.contains(&records.len()) => Ok(records),
        _ => Err(Refusal::TableSize),
    }
}

pub fn route_table(routes: &[u8]) -> Result<&[Route], Refusal> {
    records(routes, ROUTES)
}

pub fn permission_table<const WIDTH: usize>(permissions: &[u8]) -> Result<&[Row<WIDTH>], Refusal> {
    match permissions.as_chunks() {
        (rows, []) if is_table(rows) => Ok(rows),
        _ => Err(Refusal::TableSize),
    }
}

pub fn permission_table_mut<const WIDTH: usize>(permissions: &mut [u8]) -> Result<&mut [Row<WIDTH>], Refusal> {
    match permissions.as_chunks_mut() {
        (rows, []) if is_table(rows) => Ok(rows),
        _ => Err(Refusal::TableSize),
    }
}

fn is_table<const WIDTH: usize>(rows: &[Row<WIDTH>]) -> bool {
    rows.len() == groups_of_table(WIDTH)
}

fn records<const BYTES: usize>(table: &[u8], sizes: RangeInclusive<usize>) -> Result<&[[u8; BYTES]], Refusal> {
    match table.as_chunks() {
        (records, []) if sizes.contains(&records.len()) => Ok(records),
        _ => Err(Refusal::TableSize),
    }
}

#[cfg(test)]
mod tests {
    use super::*;

    #[test]
    fn sizes_named_above_and_no_others() {
        for (bytes, phys, routes) in [
            (0, false, true),
            (11, false, false),
            (12, false, true),
            (13, false, false),
            (15, false, false),
            (16, true, false),
            (17, false, false),
            (1536, true, true),
            (2047, false, false),
            (2048, true, false),
            (2049, false, false),
            (2064, false, true),
            (12288, false, true),
            (12300, false, false),
        ] {
            let table = vec![0; bytes];
            assert_eq!(phy_table(&table).is_ok(), phys, "{bytes} bytes of phys");
            assert_eq!(route_table(&table).is_ok(), routes, "{bytes} bytes of routes");
        }
        for bytes in [0, 7, 8, 9, 16, 128, 256, 2032, 2047, 2048, 2049, 2064] {
            let table = vec![0; bytes];
            assert_eq!(permission_table::<LARGE>(&table).is_ok(), bytes == 2048, "{bytes} bytes of permissions");
            assert_eq!(permission_table::<SMALL>(&table).is_ok(), bytes == 8, "{bytes} bytes on the small shelf");
        }
    }

    #[test]
    fn reserved_bits_are_ignored_when_read() {
        let noisy = [0xff, 0x88, 0xfd, 0xff, 0x50, 0, 0, 0, 0, 0, 0, 0x10, 0xfa, 0x83, 0xff, 0xff];
        let record = PhyRecord::from(&noisy);
        assert!(record.participating && record.ready && !record.address_known);
        assert_eq!((record.priority, record.group.number()), (15, 8));
        assert_eq!(record.address, 0x5000_0000_0000_0010);
        assert_eq!((record.device_type, record.attached_phy), (2, 0x83));
        let route = RouteRecord::from(&[0x50, 0, 0, 0, 0, 0, 0, 0x10, 0x81, 0x08, 0xf3, 0xff]);
        assert_eq!((route.phy, route.group, route.priority), (0x81, Some(Group(8)), 3));
    }

    #[test]
    fn a_byte_from_outside_above_127_is_no_group() {
        let numbers = |byte| Group::from_outside(byte).map(Group::number);
        assert!((0..=127).all(|byte| numbers(byte) == Some(byte)));
        assert!((128..=255).all(|byte| numbers(byte).is_none()));
        let group_of_route = |byte| RouteRecord::from(&[0, 0, 0, 0, 0, 0, 0, 1, 0, byte, 0, 0]).group;
        assert_eq!(group_of_route(127), Some(Group(127)));
        assert_eq!([128, 136, 255].map(group_of_route), [None; 3]);
    }
}
