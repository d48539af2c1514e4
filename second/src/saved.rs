//! Saved zoning, request 08 of document 02: the permitted pairs, and in version 2 the phys' zones, as a file of which there is
//! exactly one for each table.
//!
//! A file is read from its end: its last twelve bytes say how it is cut.

use crate::permission::{permitted, start_up, write_pair, FIRST_NAMED};
use crate::refusals::{refuse_if, room, Refusal};
use crate::smp::may_be_written;
use crate::tables::{
    groups_of_table, permission_table, permission_table_mut, phy_table, phy_table_mut, Group, Record, Row,
};

/// The room that both saves ask for: the longest file of version 2 on the large shelf.
pub const ROOM: usize = 16_400;

/// Two groups, the lower one first.
pub type Pair = [u8; 2];

/// A phy's number, and bytes 0 and 1 of its record.
pub type Zone = [u8; 3];

const VERSION_1: u16 = 1;
const VERSION_2: u16 = 2;

/// The last bytes of a file in either version. In version 2 the count of the phys stands before them.
const TRAILER: usize = 12;
const PHY_COUNT: usize = 2;

/// Bits 7 to 5 of byte 0 and bit 7 of byte 1.
const RESERVED: [u8; 2] = [0xe0, 0x80];

#[derive(Clone, Copy, Debug, Default, PartialEq, Eq)]
pub struct Saved {
    pub refusal: u32,
    pub length: u32,
}

#[derive(Clone, Copy, Debug, Default, PartialEq, Eq)]
pub struct Loaded {
    pub refusal: u32,
    pub version: u32,
}

/// The permission table becomes a file.
pub fn save_version_1<const WIDTH: usize>(permissions: &[u8], file: &mut [u8]) -> Saved {
    saved(try_save_version_1::<WIDTH>(permissions, file))
}

/// Both tables become a file.
pub fn save_version_2<const WIDTH: usize>(phys: &[u8], permissions: &[u8], file: &mut [u8]) -> Saved {
    saved(try_save_version_2::<WIDTH>(phys, permissions, file))
}

/// The reader of version 1.
pub fn load_version_1<const WIDTH: usize>(permissions: &mut [u8], file: &[u8]) -> Loaded {
    loaded(try_load_version_1::<WIDTH>(permissions, file))
}

/// The reader of version 2, which takes files of version 1 too and then leaves the phys as they are.
pub fn load_version_2<const WIDTH: usize>(phys: &mut [u8], permissions: &mut [u8], file: &[u8]) -> Loaded {
    loaded(try_load_version_2::<WIDTH>(phys, permissions, file))
}

pub(crate) fn saved(answer: Result<usize, Refusal>) -> Saved {
    match answer {
        Ok(length) => Saved { refusal: 0, length: length as u32 },
        Err(refusal) => Saved { refusal: refusal.number(), length: 0 },
    }
}

pub(crate) fn loaded(answer: Result<u16, Refusal>) -> Loaded {
    match answer {
        Ok(version) => Loaded { refusal: 0, version: version.into() },
        Err(refusal) => Loaded { refusal: refusal.number(), version: 0 },
    }
}

fn try_save_version_1<const WIDTH: usize>(permissions: &[u8], file: &mut [u8]) -> Result<usize, Refusal> {
    let rows = permission_table::<WIDTH>(permissions)?;
    room(file, ROOM)?;
    refuse_if(!is_as_described(rows), Refusal::TablePermissions)?;
    let pairs = pairs_of(rows);
    Ok(write(file, [pairs.as_flattened(), &trailer(VERSION_1, pairs.len(), TRAILER + 2 * pairs.len())]))
}

fn try_save_version_2<const WIDTH: usize>(phys: &[u8], permissions: &[u8], file: &mut [u8]) -> Result<usize, Refusal> {
    let (phys, rows) = (phy_table(phys)?, permission_table::<WIDTH>(permissions)?);
    room(file, ROOM)?;
    refuse_if(!is_as_described(rows), Refusal::TablePermissions)?;
    let zones = zones_of(phys);
    refuse_if(!zones.iter().all(could_be_written::<WIDTH>), Refusal::TablePhys)?;
    let pairs = pairs_of(rows);
    let length = 2 * pairs.len() + 3 * zones.len() + PHY_COUNT + TRAILER;
    let phy_count = (zones.len() as u16).to_be_bytes();
    Ok(write(file, [pairs.as_flattened(), zones.as_flattened(), &phy_count, &trailer(VERSION_2, pairs.len(), length)]))
}

/// A mutual table, with the rows of groups 0 and 1 as at start-up.
fn is_as_described<const WIDTH: usize>(rows: &[Row<WIDTH>]) -> bool {
    let groups = || (0..groups_of_table(WIDTH)).map(group);
    let is_mutual = groups().all(|a| groups().all(|b| permitted(rows, a, b) == permitted(rows, b, a)));
    let mut fresh = rows.to_vec();
    start_up::<WIDTH>(fresh.as_flattened_mut());
    is_mutual && rows[..FIRST_NAMED] == fresh[..FIRST_NAMED]
}

fn group(number: usize) -> Group {
    Group::low_7_bits(number as u8)
}

/// Ascending by the lower group and then by the higher one.
fn pairs_of<const WIDTH: usize>(rows: &[Row<WIDTH>]) -> Vec<Pair> {
    let groups = groups_of_table(WIDTH);
    let all = (FIRST_NAMED..groups).flat_map(|a| (a..groups).map(move |b| (a, b)));
    all.filter(|&(a, b)| permitted(rows, group(a), group(b))).map(|(a, b)| [a as u8, b as u8]).collect()
}

fn zones_of(phys: &[Record]) -> Vec<Zone> {
    phys.iter().enumerate().map(|(phy, record)| [phy as u8, record[0], record[1]]).collect()
}

/// Whether 93h could have left these bytes behind: it writes reserved bits as zero.
fn could_be_written<const WIDTH: usize>(&[_, zoning, group]: &Zone) -> bool {
    let reserved = [zoning & RESERVED[0], group & RESERVED[1]];
    reserved == [0, 0] && may_be_written::<WIDTH>(&[zoning, group])
}

fn trailer(version: u16, pairs: usize, length: usize) -> [u8; TRAILER] {
    let [v, w] = version.to_be_bytes();
    let [p, q] = (pairs as u16).to_be_bytes();
    let [l, m, n, o] = (length as u32).to_be_bytes();
    [v, w, p, q, 0, 0, 0, 0, l, m, n, o]
}

/// One part after the other; answers how many bytes they are.
fn write<const PARTS: usize>(file: &mut [u8], parts: [&[u8]; PARTS]) -> usize {
    let bytes = parts.concat();
    file[..bytes.len()].copy_from_slice(&bytes);
    bytes.len()
}

fn try_load_version_1<const WIDTH: usize>(permissions: &mut [u8], file: &[u8]) -> Result<u16, Refusal> {
    permission_table::<WIDTH>(permissions)?;
    let said = Said::of(file)?;
    match said.version {
        VERSION_1 => {}
        VERSION_2 => return Err(Refusal::FileVersion2),
        _ => return Err(Refusal::FileVersionUnknown),
    }
    let pairs = read_version_1::<WIDTH>(file, &said)?;
    write_pairs::<WIDTH>(permissions, pairs)?;
    Ok(VERSION_1)
}

fn try_load_version_2<const WIDTH: usize>(
    phys: &mut [u8],
    permissions: &mut [u8],
    file: &[u8],
) -> Result<u16, Refusal> {
    let phys = phy_table_mut(phys)?;
    permission_table::<WIDTH>(permissions)?;
    let said = Said::of(file)?;
    let (pairs, zones) = match said.version {
        VERSION_1 => (read_version_1::<WIDTH>(file, &said)?, &[][..]),
        VERSION_2 => read_version_2::<WIDTH>(file, &said, phys.len())?,
        _ => return Err(Refusal::FileVersionUnknown),
    };
    write_pairs::<WIDTH>(permissions, pairs)?;
    for &[phy, zoning, group] in zones {
        phys[usize::from(phy)][..2].copy_from_slice(&[zoning, group]);
    }
    Ok(said.version)
}

/// What the last twelve bytes say.
struct Said {
    version: u16,
    pairs: usize,
    offset: u32,
    length: u32,
}

impl Said {
    fn of(file: &[u8]) -> Result<Said, Refusal> {
        let &[v, w, p, q, a, b, c, d, l, m, n, o] = file.last_chunk::<TRAILER>().ok_or(Refusal::FileTooShort)?;
        Ok(Said {
            version: u16::from_be_bytes([v, w]),
            pairs: u16::from_be_bytes([p, q]).into(),
            offset: u32::from_be_bytes([a, b, c, d]),
            length: u32::from_be_bytes([l, m, n, o]),
        })
    }

    /// The length that is said, and the one that the counts add up to, are the file's. There is nothing before the records.
    fn check(&self, file: &[u8], counted: usize) -> Result<(), Refusal> {
        refuse_if(self.length as usize != file.len() || counted != file.len(), Refusal::FileLengths)?;
        refuse_if(self.offset != 0, Refusal::FileOffset)
    }
}

fn read_version_1<'a, const WIDTH: usize>(file: &'a [u8], said: &Said) -> Result<&'a [Pair], Refusal> {
    said.check(file, 2 * said.pairs + TRAILER)?;
    let pairs = file[..2 * said.pairs].as_chunks().0;
    check_pairs::<WIDTH>(pairs)?;
    Ok(pairs)
}

fn read_version_2<'a, const WIDTH: usize>(
    file: &'a [u8],
    said: &Said,
    phys: usize,
) -> Result<(&'a [Pair], &'a [Zone]), Refusal> {
    let before = &file[..file.len() - TRAILER];
    let (records, phy_count) = before.split_last_chunk::<PHY_COUNT>().ok_or(Refusal::FileLengths)?;
    let phy_count = usize::from(u16::from_be_bytes(*phy_count));
    said.check(file, 2 * said.pairs + 3 * phy_count + PHY_COUNT + TRAILER)?;
    refuse_if(phy_count != phys, Refusal::FilePhyCount)?;
    let (pairs, zones) = records.split_at(2 * said.pairs);
    let (pairs, zones) = (pairs.as_chunks().0, zones.as_chunks().0);
    check_pairs::<WIDTH>(pairs)?;
    check_zones::<WIDTH>(zones, phys)?;
    Ok((pairs, zones))
}

/// In range, and each above the one before it: by its first group, and then by its second.
fn check_pairs<const WIDTH: usize>(pairs: &[Pair]) -> Result<(), Refusal> {
    let named = FIRST_NAMED..groups_of_table(WIDTH);
    let is_in_range = |&[a, b]: &Pair| a <= b && [a, b].iter().all(|&group| named.contains(&group.into()));
    let is_ascending = pairs.is_sorted_by(|one, next| one < next);
    refuse_if(!pairs.iter().all(is_in_range) || !is_ascending, Refusal::FilePair)
}

/// Every number before any zone.
fn check_zones<const WIDTH: usize>(zones: &[Zone], phys: usize) -> Result<(), Refusal> {
    let is_in_range = zones.iter().all(|zone| usize::from(zone[0]) < phys);
    let is_ascending = zones.is_sorted_by(|one, next| one[0] < next[0]);
    refuse_if(!is_in_range || !is_ascending, Refusal::FilePhy)?;
    refuse_if(!zones.iter().all(could_be_written::<WIDTH>), Refusal::FileZone)
}

/// Start-up, and then a switch-on of each pair.
fn write_pairs<const WIDTH: usize>(permissions: &mut [u8], pairs: &[Pair]) -> Result<(), Refusal> {
    start_up::<WIDTH>(permissions);
    let rows = permission_table_mut::<WIDTH>(permissions)?;
    for &[a, b] in pairs {
        write_pair(rows, Group::low_7_bits(a), Group::low_7_bits(b), true);
    }
    Ok(())
}
