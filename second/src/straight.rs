//! The same rules on files without lists on the way, for timing only: the ones of each row are gone through byte by byte. The
//! model that judges is the one in `saved`.

use crate::permission::{place, row_of, start_up, FIRST_NAMED, GROUP_1_ALONE};
use crate::refusals::{refuse_if, room, Refusal};
use crate::saved::{loaded, saved, Loaded, Pair, Saved, Zone, ROOM};
use crate::smp::may_be_written;
use crate::tables::{groups_of_table, permission_table, permission_table_mut, phy_table, phy_table_mut, Record, Row};

/// The permission table becomes a file.
pub fn save_version_1<const WIDTH: usize>(permissions: &[u8], file: &mut [u8]) -> Saved {
    saved(permission_table(permissions).and_then(|rows| save::<WIDTH>(None, rows, file)))
}

/// Both tables become a file.
pub fn save_version_2<const WIDTH: usize>(phys: &[u8], permissions: &[u8], file: &mut [u8]) -> Saved {
    let tables = phy_table(phys).and_then(|phys| Ok((phys, permission_table(permissions)?)));
    saved(tables.and_then(|(phys, rows)| save::<WIDTH>(Some(phys), rows, file)))
}

/// The reader of version 1.
pub fn load_version_1<const WIDTH: usize>(permissions: &mut [u8], file: &[u8]) -> Loaded {
    loaded(permission_table_mut(permissions).and_then(|rows| load::<WIDTH>(None, rows, file)))
}

/// The reader of both versions.
pub fn load_version_2<const WIDTH: usize>(phys: &mut [u8], permissions: &mut [u8], file: &[u8]) -> Loaded {
    let tables = phy_table_mut(phys).and_then(|phys| Ok((phys, permission_table_mut(permissions)?)));
    loaded(tables.and_then(|(phys, rows)| load::<WIDTH>(Some(phys), rows, file)))
}

fn save<const WIDTH: usize>(phys: Option<&[Record]>, rows: &[Row<WIDTH>], file: &mut [u8]) -> Result<usize, Refusal> {
    room(file, ROOM)?;
    refuse_if(!is_as_described(rows), Refusal::TablePermissions)?;
    let phy_records = phys.unwrap_or_default();
    let are_zones = phy_records.iter().all(|record| is_zone::<WIDTH>(record[0], record[1]));
    refuse_if(!are_zones, Refusal::TablePhys)?;
    let mut at = 0;
    for (a, row) in rows.iter().enumerate().skip(FIRST_NAMED) {
        for_each_one(row, a, |b| {
            file[at..at + 2].copy_from_slice(&[a as u8, b as u8]);
            at += 2;
        });
    }
    let pairs = at / 2;
    for (phy, record) in phy_records.iter().enumerate() {
        file[at..at + 3].copy_from_slice(&[phy as u8, record[0], record[1]]);
        at += 3;
    }
    let mut version = 1u16;
    if phys.is_some() {
        file[at..at + 2].copy_from_slice(&(phy_records.len() as u16).to_be_bytes());
        at += 2;
        version = 2;
    }
    let length = at + 12;
    let trailer = &mut file[at..length];
    trailer[..2].copy_from_slice(&version.to_be_bytes());
    trailer[2..4].copy_from_slice(&(pairs as u16).to_be_bytes());
    trailer[4..8].fill(0);
    trailer[8..].copy_from_slice(&(length as u32).to_be_bytes());
    Ok(length)
}

/// Every bit is the same as its mirror, and rows 0 and 1 are as at start-up. Not to stop at the first that is not is faster.
fn is_as_described<const WIDTH: usize>(rows: &[Row<WIDTH>]) -> bool {
    let mut differ = 0;
    for (a, row) in rows.iter().enumerate() {
        let (byte_of_a, bit_of_a) = place::<WIDTH>(a);
        for (b, mirror) in rows[..a].iter().enumerate() {
            let (byte, bit) = place::<WIDTH>(b);
            differ |= row[byte] >> bit ^ mirror[byte_of_a] >> bit_of_a;
        }
    }
    differ & 1 == 0 && rows[0] == row_of(GROUP_1_ALONE) && rows[1] == row_of(u128::MAX)
}

/// The groups that are on in a row from this one on, the lowest first.
#[inline(always)]
fn for_each_one<const WIDTH: usize>(row: &Row<WIDTH>, from: usize, mut act: impl FnMut(usize)) {
    let mut mask = 0xff << (from % 8);
    for (eight, &byte) in row.iter().rev().enumerate().skip(from / 8) {
        let mut left = byte & mask;
        mask = 0xff;
        while left != 0 {
            act(8 * eight + left.trailing_zeros() as usize);
            left &= left - 1;
        }
    }
}

fn is_zone<const WIDTH: usize>(zoning: u8, group: u8) -> bool {
    zoning & 0xe0 == 0 && may_be_written::<WIDTH>(&[zoning, group])
}

fn load<const WIDTH: usize>(phys: Option<&mut [Record]>, rows: &mut [Row<WIDTH>], file: &[u8]) -> Result<u16, Refusal> {
    let (before, trailer) = file.split_last_chunk::<12>().ok_or(Refusal::FileTooShort)?;
    let version = u16::from_be_bytes([trailer[0], trailer[1]]);
    let (records, phy_count) = match (version, &phys) {
        (1, _) => (before, 0),
        (2, None) => return Err(Refusal::FileVersion2),
        (2, Some(_)) => {
            let (records, count) = before.split_last_chunk::<2>().ok_or(Refusal::FileLengths)?;
            (records, usize::from(u16::from_be_bytes(*count)))
        }
        _ => return Err(Refusal::FileVersionUnknown),
    };
    let pairs = 2 * usize::from(u16::from_be_bytes([trailer[2], trailer[3]]));
    let length = u32::from_be_bytes([trailer[8], trailer[9], trailer[10], trailer[11]]) as usize;
    refuse_if(length != file.len() || pairs + 3 * phy_count != records.len(), Refusal::FileLengths)?;
    refuse_if(trailer[4..8] != [0; 4], Refusal::FileOffset)?;
    let phys = if version == 2 { phys.unwrap_or_default() } else { &mut [] };
    refuse_if(phy_count != phys.len(), Refusal::FilePhyCount)?;
    let (pairs, zones) = records.split_at(pairs);
    let (pairs, zones): (&[Pair], &[Zone]) = (pairs.as_chunks().0, zones.as_chunks().0);
    refuse_if(!are_pairs::<WIDTH>(pairs), Refusal::FilePair)?;
    let are_numbered = zones.iter().enumerate().all(|(phy, zone)| usize::from(zone[0]) == phy);
    refuse_if(!are_numbered, Refusal::FilePhy)?;
    refuse_if(!zones.iter().all(|zone| is_zone::<WIDTH>(zone[1], zone[2])), Refusal::FileZone)?;
    start_up::<WIDTH>(rows.as_flattened_mut());
    for &[a, b] in pairs {
        switch_on(rows, a.into(), b.into());
        switch_on(rows, b.into(), a.into());
    }
    for (record, zone) in phys.iter_mut().zip(zones) {
        record[..2].copy_from_slice(&zone[1..]);
    }
    Ok(version)
}

fn switch_on<const WIDTH: usize>(rows: &mut [Row<WIDTH>], a: usize, b: usize) {
    let (byte, bit) = place::<WIDTH>(b);
    rows[a][byte] |= 1 << bit;
}

/// Each is above the one before it as a number of two bytes.
fn are_pairs<const WIDTH: usize>(pairs: &[Pair]) -> bool {
    let (mut last, mut are_good) = (0, true);
    for &[a, b] in pairs {
        let pair = u16::from_be_bytes([a, b]);
        are_good &= usize::from(a) >= FIRST_NAMED && a <= b && usize::from(b) < groups_of_table(WIDTH) && pair > last;
        last = pair;
    }
    are_good
}

#[cfg(test)]
mod tests {
    use super::*;
    use crate::tables::{LARGE, SMALL};
    use crate::trial::call::{Answer, Call};
    use crate::trial::generate::Generator;
    use crate::trial::profile::Profile;

    fn answer([refusal, field]: [u32; 2], buffers: Vec<Vec<u8>>) -> Answer {
        Answer { fields: [refusal.into(), field.into(), 0, 0, 0], buffers }
    }

    /// Where the call is one of a file.
    fn straight<const WIDTH: usize>(call: Call) -> Option<Answer> {
        match call {
            Call::SaveVersion1 { permissions, mut file } => {
                let Saved { refusal, length } = save_version_1::<WIDTH>(&permissions, &mut file);
                Some(answer([refusal, length], vec![file]))
            }
            Call::SaveVersion2 { phys, permissions, mut file } => {
                let Saved { refusal, length } = save_version_2::<WIDTH>(&phys, &permissions, &mut file);
                Some(answer([refusal, length], vec![file]))
            }
            Call::LoadVersion1 { mut permissions, file } => {
                let Loaded { refusal, version } = load_version_1::<WIDTH>(&mut permissions, &file);
                Some(answer([refusal, version], vec![permissions]))
            }
            Call::LoadVersion2 { mut phys, mut permissions, file } => {
                let Loaded { refusal, version } = load_version_2::<WIDTH>(&mut phys, &mut permissions, &file);
                Some(answer([refusal, version], vec![phys, permissions]))
            }
            _ => None,
        }
    }

    fn says_what_the_model_says<const WIDTH: usize>(profile: Profile) {
        let mut generator = Generator::new(profile, 1);
        let mut files = 0;
        while files < 10_000 {
            for (call, model) in generator.tried().calls {
                if let Some(straight) = straight::<WIDTH>(call) {
                    assert_eq!(straight, model);
                    files += 1;
                }
            }
        }
    }

    #[test]
    fn says_what_the_model_says_on_both_shelves() {
        says_what_the_model_says::<LARGE>(Profile::Large);
        says_what_the_model_says::<SMALL>(Profile::Small);
    }
}
