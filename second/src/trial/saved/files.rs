//! The bytes of files: good ones, and such with something wrong in them.

use super::super::profile::Profile;
use super::super::random::Random;
use std::collections::BTreeSet;

/// The bytes that both versions end with.
pub const TRAILER: usize = 12;

/// A file in its parts. One without zones is of version 1.
#[derive(Clone, Debug)]
pub struct Parts {
    pub pairs: Vec<[u8; 2]>,
    pub zones: Option<Vec<[u8; 3]>>,
}

impl Parts {
    /// A good file of version 1, or of version 2 for so many phys.
    pub fn random(random: &mut Random, profile: Profile, phys: Option<usize>) -> Parts {
        let zones = phys.map(|phys| {
            let zone = |phy| [&[phy as u8][..], &zone(random, profile)].concat().try_into().expect("three bytes");
            (0..phys).map(zone).collect()
        });
        Parts { pairs: pairs(random, profile), zones }
    }

    /// With the lengths that these parts have.
    pub fn bytes(&self) -> Vec<u8> {
        let mut bytes = self.pairs.concat();
        let mut version = 1u16;
        if let Some(zones) = &self.zones {
            bytes.extend(zones.as_flattened());
            bytes.extend((zones.len() as u16).to_be_bytes());
            version = 2;
        }
        bytes.extend(version.to_be_bytes());
        bytes.extend((self.pairs.len() as u16).to_be_bytes());
        bytes.extend([0; 4]);
        bytes.extend((bytes.len() as u32 + 4).to_be_bytes());
        bytes
    }
}

/// Every pair that a file may have, ascending.
pub fn all_pairs(profile: Profile) -> Vec<[u8; 2]> {
    let groups = profile.groups_of_table() as u8;
    (2..groups).flat_map(|a| (a..groups).map(move |b| [a, b])).collect()
}

/// None, all or some, ascending.
fn pairs(random: &mut Random, profile: Profile) -> Vec<[u8; 2]> {
    let count = match random.below(40) {
        0..=2 => 0,
        3..=4 => return all_pairs(profile),
        5..=7 => random.between(20, 120),
        _ => random.between(1, 6),
    };
    let last = profile.groups_of_table() - 1;
    let pair = |_| {
        let mut pair = [0, 1].map(|_| random.between(2, last) as u8);
        if random.percent(10) {
            pair = [random.pick(&[2, last as u8]); 2];
        }
        [pair[0].min(pair[1]), pair[0].max(pair[1])]
    };
    (0..count).map(pair).collect::<BTreeSet<_>>().into_iter().collect()
}

/// Bytes 0 and 1 of a phy that 93h could have written.
pub fn zone(random: &mut Random, profile: Profile) -> [u8; 2] {
    let priority = random.byte() & 0x0f;
    match random.below(6) {
        0 => [0x10 | priority, 1],
        1 => [priority, random.pick(&[0, 1, profile.groups_of_table() as u8 - 1])],
        _ => [priority, random.below(profile.groups_of_table()) as u8],
    }
}

/// Bytes 0 and 1 with one thing wrong, though on the large shelf groups above 7 are not.
pub fn damaged_zone(random: &mut Random, profile: Profile, [zoning, group]: [u8; 2]) -> [u8; 2] {
    match random.below(8) {
        0..=1 => [zoning | 0x10, random.pick(&[0, 2, 3, 7, profile.groups_of_table() as u8 - 1])],
        2..=4 => [zoning | random.pick(&[0x20, 0x40, 0x80]), group],
        5 => [zoning, group | 0x80],
        6 => [zoning & !0x10, random.pick(&[8, 9, 127])],
        _ => [random.byte(), random.byte()],
    }
}

/// The first, the last or any.
pub fn place(random: &mut Random, length: usize) -> usize {
    let any = random.below(length);
    random.pick(&[0, length - 1, any])
}

/// Any file: good, with one thing wrong, or with two, which show the order of the refusals.
pub fn file(random: &mut Random, profile: Profile, phys: Option<usize>) -> Vec<u8> {
    let mut parts = Parts::random(random, profile, phys);
    let times = match random.below(100) {
        0..=24 => 0,
        25..=69 => 1,
        70..=97 => 2,
        _ => return tiny(random),
    };
    let in_records = if times == 0 { 0 } else { random.below(times + 1) };
    for _ in 0..in_records {
        damage_records(random, profile, &mut parts);
    }
    let mut bytes = parts.bytes();
    for _ in in_records..times {
        damage_bytes(random, &mut bytes, parts.zones.is_some());
    }
    bytes
}

/// A file of version 2 that has no room for the count of its phys, and says so of its length.
fn tiny(random: &mut Random) -> Vec<u8> {
    let length = random.pick(&[12, 13]);
    let mut bytes = vec![0; length];
    bytes[length - TRAILER + 1] = 2;
    bytes[length - 1] = length as u8;
    bytes
}

fn damage_records(random: &mut Random, profile: Profile, parts: &mut Parts) {
    match &mut parts.zones {
        Some(zones) if random.percent(60) && !zones.is_empty() => damage_zones(random, profile, zones),
        _ => damage_pairs(random, profile, &mut parts.pairs),
    }
}

fn damage_pairs(random: &mut Random, profile: Profile, pairs: &mut Vec<[u8; 2]>) {
    let last = profile.groups_of_table() as u8 - 1;
    if pairs.len() < 2 {
        *pairs = vec![[2, 3], [last - 1, last]];
    }
    let place = place(random, pairs.len());
    let beyond = match profile {
        Profile::Large => random.pick(&[128, 129, 255]),
        Profile::Small => random.pick(&[8, 9, 127, 128, 255]),
    };
    match random.below(13) {
        0..=1 => {
            let next = (place + 1) % pairs.len();
            pairs.swap(place, next);
        }
        2..=3 => pairs.insert(place, pairs[place]),
        4..=5 => pairs[place].reverse(),
        6 => pairs[0][0] = random.pick(&[0, 1]),
        7 => pairs.last_mut().into_iter().for_each(|pair| pair[1] = beyond),
        8 => pairs.push([beyond; 2]),
        9..=10 => pairs.insert(place + 1, [pairs[place][0]; 2]),
        11 => pairs.insert(0, random.pick(&[[0, 0], [0, 1], [1, 1], [1, 2]])),
        _ => pairs[place][random.below(2)] = random.byte(),
    }
}

fn damage_zones(random: &mut Random, profile: Profile, zones: &mut Vec<[u8; 3]>) {
    let count = zones.len();
    let place = place(random, count);
    match random.below(14) {
        0..=1 => zones.swap(place, (place + 1) % count),
        2 => zones[place][0] = zones[(place + 1) % count][0],
        3 => zones[count - 1][0] = random.pick(&[count as u8, 127, 128, 255]),
        4 => zones[place][0] = random.byte(),
        5 => drop(zones.pop()),
        6 => zones.push([count as u8, 0, 0]),
        7 => zones.clear(),
        _ => {
            let [number, zoning, group] = zones[place];
            let [zoning, group] = damaged_zone(random, profile, [zoning, group]);
            zones[place] = [number, zoning, group];
        }
    }
}

/// What the end of a file says, or how long it is. Where it is too short for that already, it stays.
fn damage_bytes(random: &mut Random, bytes: &mut Vec<u8>, has_phys: bool) {
    let Some(trailer) = bytes.len().checked_sub(TRAILER) else {
        return;
    };
    match random.below(20) {
        0..=3 => {
            let version: u16 = random.pick(&[0, 1, 2, 2, 3, 3, 0x0100, 0x0200, 0x0101, 0x0201, 0xffff]);
            bytes[trailer..trailer + 2].copy_from_slice(&version.to_be_bytes());
        }
        4..=6 => damage_count(random, &mut bytes[trailer + 2..trailer + 4]),
        7 if has_phys && trailer >= 2 => damage_count(random, &mut bytes[trailer - 2..trailer]),
        8..=10 => {
            let length = bytes.len() as u32;
            let offset = random.pick(&[1, 1 << 8, 1 << 16, 1 << 24, length, 12, u32::MAX]);
            bytes[trailer + 4..trailer + 8].copy_from_slice(&offset.to_be_bytes());
        }
        11..=12 => damage_length(random, &mut bytes[trailer + 8..]),
        13 => shorten(random, bytes),
        14..=15 => lengthen(random, bytes),
        16 if has_phys && trailer >= 2 => trade(&mut bytes[trailer - 2..]),
        17 => {
            let any = random.below(16);
            let left = random.pick(&[0, 11, any]).min(bytes.len());
            bytes.drain(..bytes.len() - left);
        }
        _ => {
            let place = random.below(bytes.len());
            bytes[place] = random.byte();
        }
    }
}

/// A count of two bytes: one more, one less, from its other end, or what twice it would be the same modulo 65,536.
fn damage_count(random: &mut Random, bytes: &mut [u8]) {
    let count = u16::from_be_bytes([bytes[0], bytes[1]]);
    let other = [count.wrapping_add(1), count.wrapping_sub(1), count.swap_bytes(), count.swap_bytes(), count ^ 0x8000];
    bytes.copy_from_slice(&random.pick(&other).to_be_bytes());
}

fn damage_length(random: &mut Random, bytes: &mut [u8]) {
    let length = u32::from_be_bytes([bytes[0], bytes[1], bytes[2], bytes[3]]);
    let more = [1, 2, 3, 256, 1 << 16, 1 << 24].map(|more| length.wrapping_add(more));
    let other = [random.pick(&more), length.wrapping_sub(1), length.wrapping_sub(12), 0, length.swap_bytes()];
    bytes.copy_from_slice(&random.pick(&other).to_be_bytes());
}

/// From either end.
fn shorten(random: &mut Random, bytes: &mut Vec<u8>) {
    let fewer = random.pick(&[1, 1, 2, 3, 12]).min(bytes.len());
    if random.percent(50) {
        bytes.drain(..fewer);
    } else {
        bytes.truncate(bytes.len() - fewer);
    }
}

/// In front, after the records or at the end. At times the end says so. A few have 65,536 bytes more, so that their length is
/// right where it is cut.
fn lengthen(random: &mut Random, bytes: &mut Vec<u8>) {
    let more = if random.percent(30) { 65_536 } else { random.pick(&[1, 2, 2, 3, 12]) };
    let place = random.pick(&[0, 0, bytes.len() - TRAILER, bytes.len()]);
    bytes.splice(place..place, vec![random.pick(&[0, 2]); more]);
    if random.percent(40) {
        let (length, last) = (bytes.len() as u32, bytes.len() - 4);
        bytes[last..].copy_from_slice(&length.to_be_bytes());
    }
}

/// Three pairs are counted as two phys more, which the lengths allow.
fn trade(counts: &mut [u8]) {
    let [phys, pairs] = [0, 4].map(|place| u16::from_be_bytes([counts[place], counts[place + 1]]));
    if let Some(pairs) = pairs.checked_sub(3) {
        counts[..2].copy_from_slice(&(phys + 2).to_be_bytes());
        counts[4..6].copy_from_slice(&pairs.to_be_bytes());
    }
}
