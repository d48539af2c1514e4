//! Classes of saves and loads. An answer may be in several of these classes.
//!
//! What is wrong with a file is told by each rule for itself, not only by the first that refuses it: so a class can ask for two
//! causes at once, which show the order of the refusals, or for one alone.

use super::super::arrival::{that_apply, Classes};
use super::super::call::{Answer, Call};
use super::super::profile::Profile;
use super::files::{all_pairs, TRAILER};
use super::trips;
use crate::saved::ROOM;
use crate::tables::{phy_table, Group, Record};

/// All classes that a run must reach on either shelf, by call.
pub const REQUIRED: [(&str, &[&str]); 15] = [
    ("save_version_1", &SAVE),
    ("save_version_2", &SAVE),
    ("save_version_2", &SAVE_2),
    ("load_version_1", &LOAD),
    ("load_version_1", &LOAD_1),
    ("load_version_2", &LOAD),
    ("load_version_2", &LOAD_2),
    ("save_version_1", &trips::BACK_1),
    ("save_version_2", &trips::BACK_2),
    ("load_version_1", &trips::SAVED_AGAIN_1),
    ("load_version_2", &trips::SAVED_AGAIN_2),
    ("load_version_1", &trips::SWITCHED),
    ("load_version_2", &trips::SWITCHED),
    ("load_version_1", &trips::ORDERED),
    ("load_version_2", &trips::ORDERED_2),
];

/// Those that a run on the small shelf must reach as well.
pub const REQUIRED_OF_SMALL: [(&str, &[&str]); 3] = [
    ("save_version_2", &["refused 41, a group above 7 alone"]),
    ("load_version_1", &["refused 37, group 8 alone"]),
    ("load_version_2", &["refused 37, group 8 alone", "refused 39, a group above 7 alone"]),
];

/// And on the large one.
pub const REQUIRED_OF_LARGE: [(&str, &[&str]); 2] =
    [("save_version_2", &["saved, a phy's group above 7"]), ("load_version_2", &["version 2, a phy's group above 7"])];

const SAVE: [&str; 20] = [
    "saved, no pairs",
    "saved, some pairs",
    "saved, all pairs",
    "saved, a group and itself",
    "saved, the last group and itself",
    "saved, room for 16,400 bytes",
    "saved, more room",
    "refused 1",
    "refused 1, and 3",
    "refused 3",
    "refused 3, a byte too few",
    "refused 3, room for what there is",
    "refused 3, no room",
    "refused 3, and 40",
    "refused 40",
    "refused 40, one place not mutual alone",
    "refused 40, mutual, row 0",
    "refused 40, mutual, row 1",
    "refused 40, mutual, group 0 and itself alone",
    "refused 40, mutual, group 1 and itself alone",
];

const SAVE_2: [&str; 16] = [
    "saved, over 255 bytes",
    "saved, 1 phy",
    "saved, 128 phys",
    "saved, a participating phy",
    "refused 1, the phys alone",
    "refused 1, and 40",
    "refused 3, and 41",
    "refused 40, and 41",
    "refused 41",
    "refused 41, participating in another group than 1 alone",
    "refused 41, bit 5 of byte 0 alone",
    "refused 41, bit 6 of byte 0 alone",
    "refused 41, bit 7 of byte 0 alone",
    "refused 41, bit 7 of byte 1 alone",
    "refused 41, the first phy alone",
    "refused 41, the last phy alone",
];

/// Of either reader.
const LOAD: [&str; 49] = [
    "version 1, no pairs",
    "version 1, some pairs",
    "version 1, all pairs",
    "loaded, over a table that is not as described",
    "loaded, and pairs were forgotten",
    "loaded, and nothing changed",
    "refused 1",
    "refused 1, and the file too short",
    "refused 1, and the version unknown",
    "refused 1, and a bad pair",
    "refused 31",
    "refused 31, no bytes",
    "refused 31, 11 bytes",
    "refused 33",
    "refused 33, version 0",
    "refused 33, version 3",
    "refused 33, version 1 little-endian",
    "refused 33, version 2 little-endian",
    "refused 33, and the length another",
    "refused 33, a good file but for a byte or two at its end",
    "refused 34",
    "refused 34, version 1",
    "refused 34, the length alone",
    "refused 34, the length little-endian alone",
    "refused 34, the length right modulo 65,536",
    "refused 34, a pair too many counted alone",
    "refused 34, a pair too few counted alone",
    "refused 34, the count little-endian alone",
    "refused 34, the count right modulo 32,768 alone",
    "refused 34, bytes too many, and the length says so",
    "refused 34, bytes missing at the front",
    "refused 34, 65,536 bytes too many",
    "refused 34, and 35",
    "refused 35",
    "refused 35, version 1",
    "refused 35, alone",
    "refused 35, and 37",
    "refused 35, the offset's high byte alone",
    "refused 37",
    "refused 37, version 1",
    "refused 37, group 0 alone",
    "refused 37, group 1 alone",
    "refused 37, a group above all alone",
    "refused 37, a > b alone",
    "refused 37, equal neighbours alone",
    "refused 37, a falls alone",
    "refused 37, b falls alone",
    "refused 37, the first pair alone",
    "refused 37, the last pair alone",
];

const LOAD_1: [&str; 4] =
    ["refused 32", "refused 32, a good file", "refused 32, and other lengths", "refused 32, 12 or 13 bytes"];

const LOAD_2: [&str; 43] = [
    "version 1, the phys stay",
    "version 2, no pairs",
    "version 2, some pairs",
    "version 2, all pairs",
    "version 2, 1 phy",
    "version 2, 128 phys",
    "version 2, all pairs and 128 phys",
    "version 2, a participating phy",
    "version 2, the phys changed",
    "refused 1, the phys alone",
    "refused 34, version 2",
    "refused 34, 12 bytes of version 2",
    "refused 34, 13 bytes of version 2",
    "refused 34, a phy too many counted alone",
    "refused 34, a phy too few counted alone",
    "refused 34, the phys' count little-endian alone",
    "refused 34, and 36",
    "refused 35, version 2",
    "refused 35, and 36",
    "refused 36",
    "refused 36, alone, a phy fewer",
    "refused 36, alone, a phy more",
    "refused 36, no phys",
    "refused 36, pairs counted as phys",
    "refused 36, and 37",
    "refused 36, and 39",
    "refused 37, version 2",
    "refused 37, and 38",
    "refused 37, and 39",
    "refused 38",
    "refused 38, out of range alone",
    "refused 38, equal numbers",
    "refused 38, numbers fall",
    "refused 38, the last phy's number alone",
    "refused 38, and 39",
    "refused 39",
    "refused 39, participating in another group than 1 alone",
    "refused 39, bit 5 of byte 0 alone",
    "refused 39, bit 6 of byte 0 alone",
    "refused 39, bit 7 of byte 0 alone",
    "refused 39, bit 7 of byte 1 alone",
    "refused 39, the first phy alone",
    "refused 39, the last phy alone",
];

/// The classes of an answer beside what it says of all.
pub fn classes(profile: Profile, call: &Call, answer: &Answer) -> Classes {
    let refusal = answer.refusal();
    match call {
        Call::SaveVersion1 { permissions, file } => save(profile, &[], permissions, file.len(), answer),
        Call::SaveVersion2 { phys, permissions, file } => {
            let mut classes = save(profile, phys, permissions, file.len(), answer);
            classes.extend(save_phys(profile, phys, permissions, file.len(), refusal));
            classes
        }
        Call::LoadVersion1 { permissions, file } => Load::new(profile, None, permissions, file, answer).classes(),
        Call::LoadVersion2 { phys, permissions, file } => {
            Load::new(profile, Some(phys), permissions, file, answer).classes()
        }
        _ => Vec::new(),
    }
}

/// What is said of all refusals of a file or of a table.
pub fn refused(refusal: u64) -> &'static str {
    const REFUSED: [&str; 11] = [
        "refused 31",
        "refused 32",
        "refused 33",
        "refused 34",
        "refused 35",
        "refused 36",
        "refused 37",
        "refused 38",
        "refused 39",
        "refused 40",
        "refused 41",
    ];
    REFUSED[refusal as usize - 31]
}

/// What is said of all saves that are no refusal.
pub fn saved(profile: Profile, call: &Call, answer: &Answer) -> &'static str {
    let others = match call {
        Call::SaveVersion2 { phys, .. } => 2 + 3 * phys.as_chunks::<16>().0.len(),
        _ => 0,
    };
    match (answer.fields[1] as usize - TRAILER - others) / 2 {
        0 => "saved, no pairs",
        pairs if pairs == all_pairs(profile).len() => "saved, all pairs",
        _ => "saved, some pairs",
    }
}

/// What is said of all loads that are no refusal.
pub fn loaded(profile: Profile, file: &[u8], answer: &Answer) -> &'static str {
    let pairs = usize::from(word(&file[file.len() - TRAILER + 2..]));
    let is_all = pairs == all_pairs(profile).len();
    match (answer.fields[1], pairs) {
        (1, 0) => "version 1, no pairs",
        (1, _) if is_all => "version 1, all pairs",
        (1, _) => "version 1, some pairs",
        (_, 0) => "version 2, no pairs",
        _ if is_all => "version 2, all pairs",
        _ => "version 2, some pairs",
    }
}

/// Big-endian, of the first two bytes.
fn word(bytes: &[u8]) -> u16 {
    u16::from_be_bytes([bytes[0], bytes[1]])
}

fn reaches(profile: Profile, permissions: &[u8], a: usize, b: usize) -> bool {
    profile.permitted(permissions, Group::low_7_bits(a as u8), Group::low_7_bits(b as u8))
}

/// The places a < b of a table of the right size at which it is not mutual.
fn one_way_places(profile: Profile, permissions: &[u8]) -> Vec<(usize, usize)> {
    let groups = profile.groups_of_table();
    let all = (0..groups).flat_map(|a| (a..groups).map(move |b| (a, b)));
    all.filter(|&(a, b)| reaches(profile, permissions, a, b) != reaches(profile, permissions, b, a)).collect()
}

/// The places of rows 0 and 1 that are not as at start-up.
fn changed_places(profile: Profile, permissions: &[u8]) -> Vec<(usize, usize)> {
    let all = [0, 1].into_iter().flat_map(|a| (0..profile.groups_of_table()).map(move |b| (a, b)));
    all.filter(|&(a, b)| reaches(profile, permissions, a, b) != (a == 1 || b == 1)).collect()
}

fn save(profile: Profile, phys: &[u8], permissions: &[u8], room: usize, answer: &Answer) -> Classes {
    let is = |number| answer.refusal() == number;
    let is_done = is(0);
    let last = profile.groups_of_table() - 1;
    let has_itself = |group: usize| is_done && reaches(profile, permissions, group, group);
    let is_table = permissions.len() == profile.table_size();
    let (one_way, changed) = match is_table {
        true => (one_way_places(profile, permissions), changed_places(profile, permissions)),
        false => Default::default(),
    };
    let is_mutual = one_way.is_empty();
    let wrong = is_table && !(is_mutual && changed.is_empty());
    let pairs = all_pairs(profile).iter().filter(|&&[a, b]| reaches(profile, permissions, a.into(), b.into())).count();
    let needed = if phys.is_empty() { 0 } else { 2 + phys.len() / 16 * 3 } + TRAILER + 2 * pairs;
    let itself = |group| is(40) && is_mutual && changed == [(group, group)];
    that_apply(&[
        ("saved, a group and itself", (2..=last).any(has_itself)),
        ("saved, the last group and itself", has_itself(last)),
        ("saved, over 255 bytes", is_done && answer.fields[1] > 255),
        ("saved, room for 16,400 bytes", is_done && room == ROOM),
        ("saved, more room", is_done && room > ROOM),
        ("refused 1, and 3", is(1) && room < ROOM),
        ("refused 1, and 40", is(1) && is_table && wrong),
        ("refused 3, a byte too few", is(3) && room == ROOM - 1),
        ("refused 3, room for what there is", is(3) && !wrong && room >= needed),
        ("refused 3, no room", is(3) && room == 0),
        ("refused 3, and 40", is(3) && wrong),
        ("refused 40, one place not mutual alone", is(40) && one_way.len() == 1 && changed.is_empty()),
        ("refused 40, mutual, row 0", is(40) && is_mutual && changed.iter().any(|place| place.0 == 0)),
        ("refused 40, mutual, row 1", is(40) && is_mutual && changed.iter().any(|place| place.0 == 1)),
        ("refused 40, mutual, group 0 and itself alone", itself(0)),
        ("refused 40, mutual, group 1 and itself alone", itself(1)),
    ])
}

fn save_phys(profile: Profile, phys: &[u8], permissions: &[u8], room: usize, refusal: u64) -> Classes {
    let is = |number| refusal == number;
    let is_table = permissions.len() == profile.table_size();
    let records = phy_table(phys).unwrap_or_default();
    let zones: Vec<[u8; 2]> = records.iter().map(|record| [record[0], record[1]]).collect();
    let wrongs: Vec<usize> = (0..zones.len()).filter(|&phy| !is_zone(profile, zones[phy])).collect();
    let is_described =
        || one_way_places(profile, permissions).is_empty() && changed_places(profile, permissions).is_empty();
    let mut classes = that_apply(&[
        ("saved, 1 phy", is(0) && records.len() == 1),
        ("saved, 128 phys", is(0) && records.len() == 128),
        ("saved, a participating phy", is(0) && zones.iter().any(|zone| zone[0] & 0x10 != 0)),
        ("saved, a phy's group above 7", is(0) && zones.iter().any(|zone| zone[1] > 7)),
        ("refused 1, the phys alone", is(1) && is_table && room >= ROOM && is_described()),
        ("refused 3, and 41", is(3) && !wrongs.is_empty() && is_described()),
        ("refused 40, and 41", is(40) && !wrongs.is_empty()),
    ]);
    if is(41) {
        let alone = alone(profile, &zones, &wrongs);
        classes.extend(alone.into_iter().map(|class| SAVED_ZONE[class]));
    }
    classes
}

/// Of a zone that is refused, in the same order in both.
const SAVED_ZONE: [&str; 8] = [
    "refused 41, participating in another group than 1 alone",
    "refused 41, bit 5 of byte 0 alone",
    "refused 41, bit 6 of byte 0 alone",
    "refused 41, bit 7 of byte 0 alone",
    "refused 41, bit 7 of byte 1 alone",
    "refused 41, a group above 7 alone",
    "refused 41, the first phy alone",
    "refused 41, the last phy alone",
];
const LOADED_ZONE: [&str; 8] = [
    "refused 39, participating in another group than 1 alone",
    "refused 39, bit 5 of byte 0 alone",
    "refused 39, bit 6 of byte 0 alone",
    "refused 39, bit 7 of byte 0 alone",
    "refused 39, bit 7 of byte 1 alone",
    "refused 39, a group above 7 alone",
    "refused 39, the first phy alone",
    "refused 39, the last phy alone",
];

/// Which of these classes apply, where one phy alone is wrong: it would be right but for this.
fn alone(profile: Profile, zones: &[[u8; 2]], wrongs: &[usize]) -> Vec<usize> {
    let &[wrong] = wrongs else {
        return Vec::new();
    };
    let [zoning, group] = zones[wrong];
    let would_be = |zone| is_zone(profile, zone);
    let applies = [
        zoning & 0x10 != 0 && would_be([zoning & !0x10, group]) && would_be([zoning, 1]),
        zoning & 0x20 != 0 && would_be([zoning & !0x20, group]),
        zoning & 0x40 != 0 && would_be([zoning & !0x40, group]),
        zoning & 0x80 != 0 && would_be([zoning & !0x80, group]),
        group & 0x80 != 0 && would_be([zoning, group & 0x7f]),
        zoning & 0x10 == 0 && (8..128).contains(&group) && would_be([zoning, 7]),
        wrong == 0 && zones.len() > 1,
        wrong > 0 && wrong == zones.len() - 1,
    ];
    (0..applies.len()).filter(|&class| applies[class]).collect()
}

/// Bytes 0 and 1 that 93h could have written.
fn is_zone(profile: Profile, [zoning, group]: [u8; 2]) -> bool {
    match zoning >> 4 {
        0 => usize::from(group) < profile.groups_of_table(),
        1 => group == 1,
        _ => false,
    }
}

/// What a file says, by the bytes at its end, and what is wrong with it.
struct Load<'a> {
    profile: Profile,
    phys: Option<&'a [u8]>,
    permissions: &'a [u8],
    file: &'a [u8],
    answer: &'a Answer,
    /// 0 where the file is too short.
    version: u16,
    pair_count: usize,
    offset: u32,
    length: usize,
    phy_count: usize,
    /// Cut by the counts, where these add up.
    pairs: &'a [[u8; 2]],
    zones: &'a [[u8; 3]],
    /// The refusals that are due, each for itself. Records are looked at only where the lengths agree.
    causes: Vec<u64>,
}

impl<'a> Load<'a> {
    fn new(
        profile: Profile,
        phys: Option<&'a [u8]>,
        permissions: &'a [u8],
        file: &'a [u8],
        answer: &'a Answer,
    ) -> Load<'a> {
        let mut load = Load {
            profile,
            phys,
            permissions,
            file,
            answer,
            version: 0,
            pair_count: 0,
            offset: 0,
            length: 0,
            phy_count: 0,
            pairs: &[],
            zones: &[],
            causes: Vec::new(),
        };
        load.read();
        load
    }

    fn read(&mut self) {
        let file = self.file;
        let Some(end) = file.len().checked_sub(TRAILER) else {
            self.causes.push(31);
            return;
        };
        let [version, count, high, low, length_high, length_low] =
            [0, 2, 4, 6, 8, 10].map(|place| word(&file[end + place..]));
        (self.version, self.pair_count) = (version, count.into());
        self.offset = u32::from(high) << 16 | u32::from(low);
        self.length = usize::from(length_high) << 16 | usize::from(length_low);
        if version == 2 && end >= 2 {
            self.phy_count = word(&file[end - 2..]).into();
        }
        match version {
            1 => {}
            2 if self.phys.is_some() => {}
            2 => self.causes.push(32),
            _ => self.causes.push(33),
        }
        if self.length != file.len() || !self.adds_up() {
            self.causes.push(34);
        }
        if self.offset != 0 {
            self.causes.push(35);
        }
        if version == 2 && self.phy_count != self.lent() {
            self.causes.push(36);
        }
        if self.adds_up() {
            let (pairs, rest) = file.split_at(2 * self.pair_count);
            self.pairs = pairs.as_chunks().0;
            self.zones = rest[..3 * self.phy_count].as_chunks().0;
            self.judge_records();
        }
    }

    fn judge_records(&mut self) {
        let causes = [
            (37, !self.bad_pairs().is_empty() || self.pairs.windows(2).any(|two| two[0] >= two[1])),
            (38, self.zones.iter().enumerate().any(|(place, zone)| usize::from(zone[0]) != place)),
            (39, self.zones.iter().any(|zone| !is_zone(self.profile, [zone[1], zone[2]]))),
        ];
        self.causes.extend(causes.iter().filter(|(_, applies)| *applies).map(|(cause, _)| cause));
    }

    fn lent(&self) -> usize {
        self.phys.map_or(0, |phys| phys.as_chunks::<16>().0.len())
    }

    /// Whether the counts say how long the file is.
    fn adds_up(&self) -> bool {
        let more = if self.version == 2 { 2 } else { 0 };
        matches!(self.version, 1 | 2) && self.file.len() == 2 * self.pair_count + 3 * self.phy_count + more + TRAILER
    }

    /// The places of those that are out of range.
    fn bad_pairs(&self) -> Vec<usize> {
        let groups = 2..self.profile.groups_of_table();
        let is_bad = |&[a, b]: &[u8; 2]| a > b || !groups.contains(&a.into()) || !groups.contains(&b.into());
        (0..self.pairs.len()).filter(|&place| is_bad(&self.pairs[place])).collect()
    }

    /// Refused for the one, though there is another cause as well.
    fn both(&self, refusal: u64, other: u64) -> bool {
        self.answer.refusal() == refusal && self.causes.contains(&other)
    }

    fn alone(&self, refusal: u64) -> bool {
        self.answer.refusal() == refusal && self.causes == [refusal]
    }

    fn classes(&self) -> Classes {
        match self.answer.refusal() {
            0 => self.loaded(),
            1 => self.wrong_size(),
            31 => {
                let length = self.file.len();
                that_apply(&[("refused 31, no bytes", length == 0), ("refused 31, 11 bytes", length == 11)])
            }
            32 => that_apply(&[
                ("refused 32, a good file", self.causes.iter().all(|cause| matches!(cause, 32 | 36))),
                ("refused 32, and other lengths", self.both(32, 34)),
                ("refused 32, 12 or 13 bytes", matches!(self.file.len(), 12 | 13)),
            ]),
            33 => self.unknown(),
            34 => self.other_lengths(),
            35 => that_apply(&[
                ("refused 35, version 1", self.version == 1),
                ("refused 35, version 2", self.version == 2),
                ("refused 35, alone", self.alone(35)),
                ("refused 35, the offset's high byte alone", self.alone(35) && self.offset & 0x00ff_ffff == 0),
                ("refused 35, and 36", self.both(35, 36)),
                ("refused 35, and 37", self.both(35, 37)),
            ]),
            36 => {
                let (count, lent) = (self.phy_count, self.lent());
                that_apply(&[
                    ("refused 36, alone, a phy fewer", self.alone(36) && count + 1 == lent),
                    ("refused 36, alone, a phy more", self.alone(36) && count == lent + 1),
                    ("refused 36, no phys", count == 0),
                    ("refused 36, pairs counted as phys", count == lent + 2),
                    ("refused 36, and 37", self.both(36, 37)),
                    ("refused 36, and 39", self.both(36, 39)),
                ])
            }
            37 => self.bad_pair(),
            38 => self.bad_phy(),
            39 => self.bad_zone(),
            _ => Vec::new(),
        }
    }

    fn loaded(&self) -> Classes {
        let profile = self.profile;
        let after = self.answer.buffers.last().map_or(&[][..], Vec::as_slice);
        let before = self.permissions;
        let is_forgotten =
            |[a, b]: [u8; 2]| [before, after].map(|table| reaches(profile, table, a.into(), b.into())) == [true, false];
        let records: &[Record] = self.phys.unwrap_or_default().as_chunks().0;
        let phys_after = &self.answer.buffers[0];
        let is_2 = self.version == 2;
        let is_all = self.pair_count == all_pairs(profile).len();
        that_apply(&[
            ("over 255 pairs", self.pair_count > 255),
            ("loaded, over a table that is not as described", !one_way_places(profile, before).is_empty()),
            ("loaded, and pairs were forgotten", all_pairs(profile).into_iter().any(is_forgotten)),
            ("loaded, and nothing changed", before == after),
            ("version 1, the phys stay", !is_2 && self.phys == Some(phys_after)),
            ("version 2, 1 phy", is_2 && records.len() == 1),
            ("version 2, 128 phys", is_2 && records.len() == 128),
            ("version 2, all pairs and 128 phys", is_2 && is_all && records.len() == 128),
            ("version 2, a participating phy", self.zones.iter().any(|zone| zone[1] & 0x10 != 0)),
            ("version 2, a phy's group above 7", self.zones.iter().any(|zone| zone[2] > 7)),
            ("version 2, the phys changed", is_2 && self.phys != Some(phys_after)),
        ])
    }

    fn wrong_size(&self) -> Classes {
        let is_table = self.permissions.len() == self.profile.table_size();
        that_apply(&[
            ("refused 1, the phys alone", is_table && self.phys.is_some()),
            ("refused 1, and the file too short", self.causes.contains(&31)),
            ("refused 1, and the version unknown", self.causes.contains(&33)),
            ("refused 1, and a bad pair", self.causes.contains(&37)),
        ])
    }

    fn unknown(&self) -> Classes {
        let end = self.file.len() - TRAILER;
        let rest_is_good = |version: u8| {
            let mut file = self.file.to_vec();
            file[end..end + 2].copy_from_slice(&[0, version]);
            let answer = Answer { fields: [0; 5], buffers: Vec::new() };
            let would_be = Load::new(self.profile, self.phys, self.permissions, &file, &answer);
            would_be.causes.is_empty()
        };
        that_apply(&[
            ("refused 33, version 0", self.version == 0),
            ("refused 33, version 3", self.version == 3),
            ("refused 33, version 1 little-endian", self.version == 0x0100),
            ("refused 33, version 2 little-endian", self.version == 0x0200),
            ("refused 33, and the length another", self.length != self.file.len()),
            ("refused 33, a good file but for a byte or two at its end", rest_is_good(1) || rest_is_good(2)),
        ])
    }

    fn other_lengths(&self) -> Classes {
        let (is, file) = (self.version, self.file.len());
        let more = if is == 2 { 2 } else { 0 };
        // What the file has but for its pairs, and the pairs that would fit.
        let rest = 3 * self.phy_count + more + TRAILER;
        let fits = |pairs: usize| self.length == file && rest + 2 * pairs == file;
        let fit_phys =
            |phys: usize| is == 2 && self.length == file && 2 * self.pair_count + 3 * phys + 2 + TRAILER == file;
        let swapped = |count: usize| usize::from((count as u16).swap_bytes());
        let only_length = self.adds_up();
        let (pairs, phys) = (self.pair_count, self.phy_count);
        that_apply(&[
            ("refused 34, version 1", is == 1),
            ("refused 34, version 2", is == 2),
            ("refused 34, 12 bytes of version 2", is == 2 && file == 12),
            ("refused 34, 13 bytes of version 2", is == 2 && file == 13),
            ("refused 34, the length alone", only_length),
            (
                "refused 34, the length little-endian alone",
                only_length && (self.length as u32).swap_bytes() as usize == file,
            ),
            ("refused 34, the length right modulo 65,536", only_length && self.length % 65_536 == file),
            ("refused 34, a pair too many counted alone", pairs > 0 && fits(pairs - 1)),
            ("refused 34, a pair too few counted alone", fits(pairs + 1)),
            ("refused 34, the count little-endian alone", fits(swapped(pairs))),
            ("refused 34, the count right modulo 32,768 alone", pairs >= 32_768 && fits(pairs - 32_768)),
            ("refused 34, a phy too many counted alone", phys > 0 && fit_phys(phys - 1)),
            ("refused 34, a phy too few counted alone", fit_phys(phys + 1)),
            ("refused 34, the phys' count little-endian alone", fit_phys(swapped(phys))),
            ("refused 34, bytes too many, and the length says so", self.length == file && rest + 2 * pairs < file),
            ("refused 34, bytes missing at the front", self.length == rest + 2 * pairs && file < self.length),
            ("refused 34, 65,536 bytes too many", file == rest + 2 * pairs + 65_536),
            ("refused 34, and 35", self.both(34, 35)),
            ("refused 34, and 36", self.both(34, 36)),
        ])
    }

    fn bad_pair(&self) -> Classes {
        let bad = self.bad_pairs();
        let groups = self.profile.groups_of_table();
        let falls: Vec<&[[u8; 2]]> = self.pairs.windows(2).filter(|two| two[0] >= two[1]).collect();
        // Out of range for one reason, and all in order.
        let only = |is_it: &dyn Fn(&[u8; 2]) -> bool| {
            falls.is_empty() && bad.len() == 1 && bad.iter().all(|&place| is_it(&self.pairs[place]))
        };
        let in_order = |is_it: &dyn Fn(&[[u8; 2]]) -> bool| bad.is_empty() && falls.len() == 1 && is_it(falls[0]);
        that_apply(&[
            ("refused 37, version 1", self.version == 1),
            ("refused 37, version 2", self.version == 2),
            ("refused 37, group 0 alone", only(&|&[a, b]| a == 0 && (2..groups).contains(&b.into()))),
            ("refused 37, group 1 alone", only(&|&[a, b]| a == 1 && (2..groups).contains(&b.into()))),
            ("refused 37, group 8 alone", only(&|&[a, b]| (2..8).contains(&a) && b == 8)),
            ("refused 37, a group above all alone", only(&|&[a, b]| usize::from(b) >= groups && a <= b && a >= 2)),
            ("refused 37, a > b alone", only(&|&[a, b]| a > b && b >= 2 && usize::from(a) < groups)),
            ("refused 37, equal neighbours alone", in_order(&|two| two[0] == two[1])),
            ("refused 37, a falls alone", in_order(&|two| two[0][0] > two[1][0])),
            ("refused 37, b falls alone", in_order(&|two| two[0][0] == two[1][0] && two[0][1] > two[1][1])),
            ("refused 37, the first pair alone", self.pairs.len() > 1 && bad == [0]),
            ("refused 37, the last pair alone", self.pairs.len() > 1 && bad == [self.pairs.len() - 1]),
            ("refused 37, and 38", self.both(37, 38)),
            ("refused 37, and 39", self.both(37, 39)),
        ])
    }

    fn bad_phy(&self) -> Classes {
        let (zones, lent) = (self.zones, self.lent());
        let far = zones.iter().filter(|zone| usize::from(zone[0]) >= lent).count();
        let places = || zones.iter().enumerate().filter(|(place, zone)| usize::from(zone[0]) != *place);
        let is_sorted = zones.is_sorted_by_key(|zone| zone[0]);
        that_apply(&[
            ("refused 38, out of range alone", far == 1 && is_sorted && places().count() == 1),
            ("refused 38, equal numbers", far == 0 && is_sorted),
            ("refused 38, numbers fall", far == 0 && !is_sorted),
            (
                "refused 38, the last phy's number alone",
                zones.len() > 1 && places().map(|(place, _)| place).eq([zones.len() - 1]),
            ),
            ("refused 38, and 39", self.both(38, 39)),
        ])
    }

    fn bad_zone(&self) -> Classes {
        let zones: Vec<[u8; 2]> = self.zones.iter().map(|&[_, zoning, group]| [zoning, group]).collect();
        let wrongs: Vec<usize> = (0..zones.len()).filter(|&phy| !is_zone(self.profile, zones[phy])).collect();
        alone(self.profile, &zones, &wrongs).into_iter().map(|class| LOADED_ZONE[class]).collect()
    }
}
