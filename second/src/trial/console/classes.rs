//! Classes of the console's answers and of round trips. An answer may be in several of these classes.

use super::super::arrival::{that_apply, Classes};
use super::super::call::Answer;
use super::super::profile::Profile;
use super::trips::Way;
use super::Console;
use crate::console::{ENTRY, MOST_PHYS, MOST_ROWS, ROOM, ROWS_ROOM};
use crate::tables::GROUPS;

/// All classes that a run must reach on either shelf, by call.
pub const REQUIRED: [(&str, &[&str]); 10] = [
    ("console_phy_zones", &PHY_ZONES),
    ("console_single", &SINGLE),
    ("console_batch", &BATCH),
    ("console_report", &REPORT),
    ("console_read", &READ),
    ("console_phy_zones", &PHY_ZONES_WENT),
    ("console_single", &SINGLE_WENT),
    ("console_batch", &BATCH_WENT),
    ("console_report", &REPORT_WENT),
    ("console_read", &SOME_REQUEST_GOT),
];

/// Those that a run on one of the two must reach as well.
pub const REQUIRED_OF_LARGE: [(&str, &[&str]); 1] =
    [("console_batch", &["trip, 00h 63 rows", "trip, 00h up to row 127"])];
pub const REQUIRED_OF_SMALL: [(&str, &[&str]); 3] = [
    ("console_phy_zones", &["trip, 02h a group above 7"]),
    ("console_single", &["trip, 02h a group above 7"]),
    ("console_batch", &["trip, 02h a group above 7"]),
];

const PHY_ZONES: [&str; 37] = [
    "built, no phys",
    "built, 1 phy",
    "built, an odd number of phys",
    "built, an even number of phys",
    "built, 127 phys",
    "built, 128 phys",
    "built, first phy 127",
    "built, first phy and entries 128 together",
    "built, beyond 128",
    "built, beyond 128, an unfair entry",
    "built, priority 15",
    "built, priority 15 and participating",
    "built, group 127",
    "built, participating by another byte than 1",
    "refused 21",
    "refused 21, a byte too few",
    "refused 21, room for this one",
    "refused 21, and 22 and 23",
    "refused 21, and 24",
    "refused 22, 129 phys",
    "refused 22, 256 phys more",
    "refused 22, a part of an entry",
    "refused 22, 128 phys and a part of an entry",
    "refused 22, right where the size is cut",
    "refused 22, and 23",
    "refused 22, and an unfair entry",
    "refused 23, first phy 128",
    "refused 23, first phy 128, no phys",
    "refused 23, first phy 256 + 8",
    "refused 23, first phy right where it is cut",
    "refused 23, first phy 4,294,967,295",
    "refused 23, priority 16 alone",
    "refused 23, group 128 alone",
    "refused 23, the last entry alone",
    "refused 23, and an unfair entry",
    "refused 24, the last entry alone",
    "refused 24, first phy and entries 128 together",
];

const SINGLE: [&str; 21] = [
    "built, on",
    "built, off",
    "built, complete",
    "built, not complete",
    "built, on and not complete",
    "built, off and complete",
    "built, on by 256",
    "built, complete by 256",
    "built, group 2",
    "built, group 127",
    "built, a group and itself",
    "refused 21",
    "refused 21, room for this one",
    "refused 21, and 23 or 24",
    "refused 23, a alone",
    "refused 23, b alone",
    "refused 23, 256 + 8",
    "refused 23, 4,294,967,295",
    "refused 23, and a group below 2",
    "refused 24, a alone",
    "refused 24, b alone",
];

const BATCH: [&str; 32] = [
    "built, no rows",
    "built, no rows, first group below 2",
    "built, no rows, first group 127",
    "built, 1 row",
    "built, 62 rows",
    "built, 63 rows",
    "built, up to row 127",
    "built, beyond 128",
    "built, complete",
    "built, not complete",
    "built, complete by 256",
    "built, on by another byte than 1",
    "built, groups 0 and 1 on",
    "built, group 5 on",
    "built, group 127 on",
    "built, first group 2",
    "refused 21",
    "refused 21, room for this one",
    "refused 21, and 22 and 23",
    "refused 22, 64 rows",
    "refused 22, 256 rows more",
    "refused 22, a part of a row",
    "refused 22, right where the size is cut",
    "refused 22, and 23",
    "refused 22, and first group below 2",
    "refused 23, first group 128",
    "refused 23, first group 128, no rows",
    "refused 23, first group 256 + 8",
    "refused 23, first group right where it is cut",
    "refused 23, first group 4,294,967,295",
    "refused 24, first group 0",
    "refused 24, first group 1",
];

const REPORT: [&str; 22] = [
    "built, no rows",
    "built, 1 row",
    "built, 62 rows",
    "built, 63 rows",
    "built, first group 0",
    "built, first group 1",
    "built, first group 127",
    "built, beyond 128",
    "refused 21",
    "refused 21, room for this one",
    "refused 21, and 22 and 23",
    "refused 22, 64 rows",
    "refused 22, 255 rows",
    "refused 22, 256 rows",
    "refused 22, right where it is cut",
    "refused 22, 4,294,967,295",
    "refused 22, and 23",
    "refused 23, first group 128",
    "refused 23, first group 128, no rows",
    "refused 23, first group 256 + 8",
    "refused 23, first group right where it is cut",
    "refused 23, first group 4,294,967,295",
];

const READ: [&str; 65] = [
    "93h 00h",
    "93h 02h",
    "93h 03h",
    "93h 10h",
    "C1h 00h",
    "C1h 01h",
    "C1h 02h",
    "C1h 03h",
    "C1h 11h",
    "51h 01h",
    "51h 03h",
    "51h 11h",
    "51h 00h",
    "51h 00h no rows",
    "51h 00h 1 row",
    "51h 00h 62 rows",
    "51h 00h 63 rows",
    "51h 00h start 0",
    "51h 00h start and rows 128 together",
    "51h 00h start 127, 1 row",
    "51h 00h start 127, no rows",
    "51h 00h bytes 8 to 11 not zero",
    "51h 00h more room than rows",
    "refused 21, and a response that is read",
    "refused 21, a byte too few",
    "refused 21, four bytes of response",
    "refused 21, and 25",
    "refused 25, no byte",
    "refused 25, under 4 bytes",
    "refused 25, byte 0 alone",
    "refused 25, byte 1 alone",
    "refused 25, byte 1 alone of a report",
    "refused 25, byte 1 is 10h",
    "refused 25, byte 2 alone",
    "refused 25, byte 2 alone of a report",
    "refused 25, byte 3 alone",
    "refused 25, byte 3 alone of a report",
    "refused 25, byte 4 alone",
    "refused 25, byte 5 alone",
    "refused 25, byte 6 alone, above 127",
    "refused 25, byte 6 alone, beyond 128 with the rows",
    "refused 25, byte 7 alone",
    "refused 25, 93h 01h",
    "refused 25, 93h 11h",
    "refused 25, 93h 16h",
    "refused 25, C1h 10h",
    "refused 25, C1h 16h",
    "refused 25, 51h 02h",
    "refused 25, 51h 10h",
    "refused 25, 51h 00h in four bytes",
    "refused 25, 51h 00h in eight bytes, byte 3 agrees",
    "refused 25, four bytes and more, byte 3 is 0",
    "refused 25, a byte too many",
    "refused 25, a byte too few of a report",
    "refused 25, a dword too many, byte 3 agrees",
    "refused 25, another result in more bytes, byte 3 agrees",
    "refused 25, a report's rows, byte 3 agrees",
    "refused 25, 256 dwords too many",
    "refused 25, 64 rows",
    "refused 25, start 128, no rows",
    "refused 25, start 128, 1 row",
    "refused 25, start 127, 2 rows",
    "refused 25, start and rows 129 together",
    "refused 25, start and 63 rows beyond 128",
    "refused 25, start above 127",
];

const PHY_ZONES_WENT: [&str; 11] = [
    "trip, 00h",
    "trip, 00h no phys",
    "trip, 00h an odd number of phys",
    "trip, 00h 128 phys",
    "trip, 00h a participating phy",
    "trip, 02h no right",
    "trip, 10h",
    "trip, 10h an unfair entry",
    "packed otherwise, built",
    "packed otherwise, refused 24",
    "trip, 00h up to the last phy",
];

const SINGLE_WENT: [&str; 8] = [
    "trip, 00h on",
    "trip, 00h off",
    "trip, 00h complete",
    "trip, 00h not complete",
    "trip, 01h no right",
    "trip, 00h changed",
    "packed otherwise, built",
    "packed otherwise, refused 24",
];

const BATCH_WENT: [&str; 8] = [
    "trip, 00h",
    "trip, 00h no rows",
    "trip, 00h several rows",
    "trip, 00h groups 0 and 1 on",
    "trip, 01h no right",
    "trip, 11h",
    "packed otherwise, built",
    "packed otherwise, refused 24",
];

const REPORT_WENT: [&str; 10] = [
    "trip, 00h",
    "trip, 00h no rows",
    "trip, 00h 63 rows",
    "trip, 00h fewer rows than asked for",
    "trip, 01h no right",
    "packed otherwise, built",
    "sent back to a mutual table",
    "sent back to a mutual table, several rows",
    "sent back to a table that is not mutual",
    "sent back to a table that is not mutual, and changed it",
];

const SOME_REQUEST_GOT: [&str; 4] = [
    "some request got it, four bytes",
    "some request got it, a report",
    "some request got it, a report of 63 rows",
    "some request got it, start and rows 128 together",
];

/// The classes of an answer.
pub fn classes(call: &Console, answer: &Answer) -> Classes {
    let refusal = answer.refusal();
    let mut classes = match call {
        Console::PhyZones { request, first_phy, entries } => {
            let zones = Zones::new(*first_phy, entries);
            match refusal {
                0 => zones.built(),
                21 => zones.no_room(request.len()),
                22 => zones.too_many(),
                23 => zones.too_great(),
                _ => zones.turned_down(),
            }
        }
        Console::Single { request, a, b, on, complete } => match refusal {
            21 => no_room(request.len(), 12, &[("refused 21, and 23 or 24", *a.max(b) > 127 || *a.min(b) < 2)]),
            _ => single([*a, *b], *on, *complete, refusal),
        },
        Console::Batch { request, first_group, choices, complete } => match refusal {
            0 => rows_built(*first_group, choices, *complete),
            21 => {
                let both = choices.len() > GROUPS * MOST_ROWS && *first_group > 127;
                no_room(request.len(), 12 + choices.len() / 8, &[("refused 21, and 22 and 23", both)])
            }
            _ => rows_refused(*first_group, choices, refusal),
        },
        Console::Report { request, first_group, count } => match refusal {
            21 => no_room(request.len(), 8, &[("refused 21, and 22 and 23", *count > 63 && *first_group > 127)]),
            _ => report(*first_group, *count, refusal),
        },
        Console::Read { response, rows } => match refusal {
            0 => heard(response, rows.len(), answer),
            21 => unread(response, rows.len()),
            _ => not_a_response(response),
        },
    };
    if let 21..=24 = refusal {
        classes.push(["refused 21", "refused 22", "refused 23", "refused 24"][refusal as usize - 21]);
    }
    classes
}

/// Of 21, where what was asked for has this length.
fn no_room(size: usize, needed: usize, others: &[(&'static str, bool)]) -> Classes {
    let mut classes = that_apply(&[
        ("refused 21, a byte too few", size == ROOM - 1),
        ("refused 21, room for this one", size >= needed && needed <= 12),
    ]);
    classes.extend(that_apply(others));
    classes
}

/// A size that is good where it is cut to 16 bits.
fn is_good_where_cut(size: usize, entry: usize, most: usize) -> bool {
    size > 65_535 && size % 65_536 <= entry * most
}

/// The choices for phy zones.
struct Zones<'a> {
    first: u32,
    size: usize,
    entries: &'a [[u8; ENTRY]],
    rest: usize,
}

impl Zones<'_> {
    fn new(first: u32, list: &[u8]) -> Zones<'_> {
        let (entries, rest) = list.as_chunks();
        Zones { first, size: list.len(), entries, rest: rest.len() }
    }

    fn count(&self) -> usize {
        self.entries.len()
    }

    fn end(&self) -> usize {
        self.first as usize + self.count()
    }

    fn has_unfair(&self) -> bool {
        self.entries.iter().any(is_unfair)
    }

    fn is_too_great(&self) -> bool {
        self.first > 127 || self.entries.iter().any(is_too_great)
    }

    fn built(&self) -> Classes {
        let (count, end) = (self.count(), self.end());
        let any = |is: fn(&[u8; ENTRY]) -> bool| self.entries.iter().any(is);
        that_apply(&[
            ("built, no phys", count == 0),
            ("built, 1 phy", count == 1),
            ("built, an odd number of phys", count % 2 == 1),
            ("built, an even number of phys", count % 2 == 0),
            ("built, 127 phys", count == 127),
            ("built, 128 phys", count == 128),
            ("built, first phy 127", self.first == 127),
            ("built, first phy and entries 128 together", end == 128 && count > 0),
            ("built, beyond 128", end > 128),
            ("built, beyond 128, an unfair entry", end > 128 && self.has_unfair()),
            ("built, priority 15", any(|entry| entry[1] == 15)),
            ("built, priority 15 and participating", any(|entry| entry[0] != 0 && entry[1] == 15)),
            ("built, group 127", any(|entry| entry[2] == 127)),
            ("built, participating by another byte than 1", any(|entry| entry[0] > 1)),
        ])
    }

    fn no_room(&self, size: usize) -> Classes {
        let too_many = self.count() > MOST_PHYS || self.rest > 0;
        let unfair = !too_many && !self.is_too_great() && self.has_unfair() && self.end() <= MOST_PHYS;
        let others = [("refused 21, and 22 and 23", too_many && self.is_too_great()), ("refused 21, and 24", unfair)];
        no_room(size, 8 + 4 * self.count().div_ceil(2), &others)
    }

    fn too_many(&self) -> Classes {
        let (count, is_whole) = (self.count(), self.rest == 0);
        let is_good = !self.is_too_great();
        that_apply(&[
            ("refused 22, 129 phys", is_whole && count == 129),
            ("refused 22, 256 phys more", is_whole && (256..256 + 129).contains(&count)),
            ("refused 22, a part of an entry", !is_whole && count < MOST_PHYS),
            ("refused 22, 128 phys and a part of an entry", !is_whole && count == MOST_PHYS),
            ("refused 22, right where the size is cut", is_good_where_cut(self.size, ENTRY, MOST_PHYS)),
            ("refused 22, and 23", !is_good),
            ("refused 22, and an unfair entry", is_good && self.has_unfair()),
        ])
    }

    fn too_great(&self) -> Classes {
        let first = self.first;
        let great: Vec<usize> = (0..self.count()).filter(|&i| is_too_great(&self.entries[i])).collect();
        let (first_alone, entry_alone) = (great.is_empty(), first <= 127 && great.len() == 1);
        let entry = great.first().map_or([0; ENTRY], |&i| self.entries[i]);
        that_apply(&[
            ("refused 23, first phy 128", first_alone && first == 128 && self.count() > 0),
            ("refused 23, first phy 128, no phys", first == 128 && self.count() == 0),
            ("refused 23, first phy 256 + 8", first_alone && first == 256 + 8),
            ("refused 23, first phy right where it is cut", first_alone && is_right_where_cut(first)),
            ("refused 23, first phy 4,294,967,295", first_alone && first == u32::MAX),
            ("refused 23, priority 16 alone", entry_alone && entry[1] == 16),
            ("refused 23, group 128 alone", entry_alone && entry[2] == 128),
            ("refused 23, the last entry alone", entry_alone && great[0] + 1 == self.count() && self.count() > 1),
            ("refused 23, and an unfair entry", self.has_unfair() && (first > 127 || self.end() <= MOST_PHYS)),
        ])
    }

    fn turned_down(&self) -> Classes {
        let unfair = self.entries.iter().filter(|entry| is_unfair(entry)).count();
        let last = self.entries.last().is_some_and(is_unfair);
        that_apply(&[
            ("refused 24, the last entry alone", last && unfair == 1 && self.count() > 1),
            ("refused 24, first phy and entries 128 together", self.end() == MOST_PHYS),
        ])
    }
}

fn is_unfair(&[participating, _, group]: &[u8; ENTRY]) -> bool {
    participating != 0 && group != 1
}

fn is_too_great(&[_, priority, group]: &[u8; ENTRY]) -> bool {
    priority > 15 || group > 127
}

/// A number that would be good if it were cut to a byte.
fn is_right_where_cut(number: u32) -> bool {
    number > 255 && number % 256 < 128
}

fn single([a, b]: [u32; 2], on: u32, complete: u32, refusal: u64) -> Classes {
    let is = |number| refusal == number;
    let [great_a, great_b] = [a, b].map(|group| group > 127);
    let [low_a, low_b] = [a, b].map(|group| group < 2);
    that_apply(&[
        ("built, on", is(0) && on != 0),
        ("built, off", is(0) && on == 0),
        ("built, complete", is(0) && complete != 0),
        ("built, not complete", is(0) && complete == 0),
        ("built, on and not complete", is(0) && on != 0 && complete == 0),
        ("built, off and complete", is(0) && on == 0 && complete != 0),
        ("built, on by 256", is(0) && on == 256),
        ("built, complete by 256", is(0) && complete == 256),
        ("built, group 2", is(0) && a.min(b) == 2),
        ("built, group 127", is(0) && a.max(b) == 127),
        ("built, a group and itself", is(0) && a == b),
        ("refused 23, a alone", is(23) && !great_b && !low_b),
        ("refused 23, b alone", is(23) && !great_a && !low_a),
        ("refused 23, 256 + 8", is(23) && a.max(b) == 256 + 8 && a.min(b) >= 2),
        ("refused 23, 4,294,967,295", is(23) && a.max(b) == u32::MAX),
        ("refused 23, and a group below 2", is(23) && (low_a || low_b)),
        ("refused 24, a alone", is(24) && !low_b),
        ("refused 24, b alone", is(24) && !low_a),
    ])
}

fn rows_built(first: u32, choices: &[u8], complete: u32) -> Classes {
    let rows: &[[u8; GROUPS]] = choices.as_chunks().0;
    let (count, end) = (rows.len(), first as usize + rows.len());
    let any = |is: fn(&[u8; GROUPS]) -> bool| rows.iter().any(is);
    that_apply(&[
        ("built, no rows", count == 0),
        ("built, no rows, first group below 2", count == 0 && first < 2),
        ("built, no rows, first group 127", count == 0 && first == 127),
        ("built, 1 row", count == 1),
        ("built, 62 rows", count == 62),
        ("built, 63 rows", count == 63),
        ("built, up to row 127", count > 0 && end == GROUPS),
        ("built, beyond 128", end > GROUPS),
        ("built, complete", complete != 0),
        ("built, not complete", complete == 0),
        ("built, complete by 256", complete == 256),
        ("built, on by another byte than 1", choices.iter().any(|&choice| choice > 1)),
        ("built, groups 0 and 1 on", any(|row| row[0] != 0 && row[1] != 0)),
        ("built, group 5 on", any(|row| row[5] != 0 && row[122] == 0)),
        ("built, group 127 on", any(|row| row[127] != 0 && row[0] == 0)),
        ("built, first group 2", count > 0 && first == 2),
    ])
}

fn rows_refused(first: u32, choices: &[u8], refusal: u64) -> Classes {
    let (count, is_whole) = (choices.len() / GROUPS, choices.len().is_multiple_of(GROUPS));
    let is = |number| refusal == number;
    that_apply(&[
        ("refused 22, 64 rows", is(22) && is_whole && count == 64),
        ("refused 22, 256 rows more", is(22) && is_whole && (256..256 + 64).contains(&count)),
        ("refused 22, a part of a row", is(22) && !is_whole && count <= MOST_ROWS),
        ("refused 22, right where the size is cut", is(22) && is_good_where_cut(choices.len(), GROUPS, MOST_ROWS)),
        ("refused 22, and 23", is(22) && first > 127),
        ("refused 22, and first group below 2", is(22) && first < 2),
        ("refused 23, first group 128", is(23) && count > 0 && first == 128),
        ("refused 23, first group 128, no rows", is(23) && count == 0 && first == 128),
        ("refused 23, first group 256 + 8", is(23) && first == 256 + 8),
        ("refused 23, first group right where it is cut", is(23) && is_right_where_cut(first)),
        ("refused 23, first group 4,294,967,295", is(23) && first == u32::MAX),
        ("refused 24, first group 0", is(24) && first == 0),
        ("refused 24, first group 1", is(24) && first == 1),
    ])
}

fn report(first: u32, count: u32, refusal: u64) -> Classes {
    let is = |number| refusal == number;
    that_apply(&[
        ("built, no rows", is(0) && count == 0),
        ("built, 1 row", is(0) && count == 1),
        ("built, 62 rows", is(0) && count == 62),
        ("built, 63 rows", is(0) && count == 63),
        ("built, first group 0", is(0) && first == 0),
        ("built, first group 1", is(0) && first == 1),
        ("built, first group 127", is(0) && first == 127),
        ("built, beyond 128", is(0) && first + count > 128),
        ("refused 22, 64 rows", is(22) && count == 64),
        ("refused 22, 255 rows", is(22) && count == 255),
        ("refused 22, 256 rows", is(22) && count == 256),
        ("refused 22, right where it is cut", is(22) && count > 256 && count % 256 <= 63),
        ("refused 22, 4,294,967,295", is(22) && count == u32::MAX),
        ("refused 22, and 23", is(22) && first > 127),
        ("refused 23, first group 128", is(23) && count > 0 && first == 128),
        ("refused 23, first group 128, no rows", is(23) && count == 0 && first == 128),
        ("refused 23, first group 256 + 8", is(23) && first == 256 + 8),
        ("refused 23, first group right where it is cut", is(23) && is_right_where_cut(first)),
        ("refused 23, first group 4,294,967,295", is(23) && first == u32::MAX),
    ])
}

fn heard(response: &[u8], room: usize, answer: &Answer) -> Classes {
    let [_, function, result, start, count] = answer.fields;
    if (function, result) != (0x51, 0) {
        return vec![four_bytes(function, result)];
    }
    that_apply(&[
        ("51h 00h", true),
        ("51h 00h no rows", count == 0),
        ("51h 00h 1 row", count == 1),
        ("51h 00h 62 rows", count == 62),
        ("51h 00h 63 rows", count == 63),
        ("51h 00h start 0", start == 0),
        ("51h 00h start and rows 128 together", start + count == 128),
        ("51h 00h start 127, 1 row", (start, count) == (127, 1)),
        ("51h 00h start 127, no rows", (start, count) == (127, 0)),
        ("51h 00h bytes 8 to 11 not zero", response[8..12].iter().all(|&byte| byte != 0)),
        ("51h 00h more room than rows", room > ROWS_ROOM),
    ])
}

fn four_bytes(function: u64, result: u64) -> &'static str {
    match (function, result) {
        (0x93, 0x00) => "93h 00h",
        (0x93, 0x02) => "93h 02h",
        (0x93, 0x03) => "93h 03h",
        (0x93, 0x10) => "93h 10h",
        (0xc1, 0x00) => "C1h 00h",
        (0xc1, 0x01) => "C1h 01h",
        (0xc1, 0x02) => "C1h 02h",
        (0xc1, 0x03) => "C1h 03h",
        (0xc1, 0x11) => "C1h 11h",
        (0x51, 0x01) => "51h 01h",
        (0x51, 0x03) => "51h 03h",
        (0x51, 0x11) => "51h 11h",
        _ => "another result read",
    }
}

/// Pairs of a function and a result in four bytes.
const FOUR_BYTES: [(u8, &[u8]); 3] =
    [(0x93, &[0x00, 0x02, 0x03, 0x10]), (0xc1, &[0x00, 0x01, 0x02, 0x03, 0x11]), (0x51, &[0x01, 0x03, 0x11])];

/// Whether this is a whole response, by its length and its bytes 0 to 7.
fn is_response(response: &[u8]) -> bool {
    let in_four = |function, result| FOUR_BYTES.iter().any(|(known, all)| *known == function && all.contains(&result));
    match *response {
        [0x41, function, result, 0] => in_four(function, result),
        [0x41, 0x51, 0x00, dwords, 0, 0, start @ 0..=127, count @ 0..=63, _, _, _, _, ..] => {
            let [dwords, start, count] = [dwords, start, count].map(usize::from);
            response.len() == 12 + 16 * count && dwords == 2 + 4 * count && start + count <= GROUPS
        }
        _ => false,
    }
}

fn unread(response: &[u8], room: usize) -> Classes {
    let good = is_response(response);
    that_apply(&[
        ("refused 21, and a response that is read", good),
        ("refused 21, a byte too few", room == ROWS_ROOM - 1),
        ("refused 21, four bytes of response", good && response.len() == 4),
        ("refused 21, and 25", !good),
    ])
}

/// Whether another byte in this place makes it a response.
fn is_wrong_alone(response: &[u8], place: usize) -> bool {
    let mut changed = response.to_vec();
    place < response.len()
        && (0..=255).any(|byte| {
            changed[place] = byte;
            is_response(&changed)
        })
}

fn not_a_response(response: &[u8]) -> Classes {
    if response.len() < 4 {
        return that_apply(&[
            ("refused 25, no byte", response.is_empty()),
            ("refused 25, under 4 bytes", !response.is_empty()),
        ]);
    }
    let mut classes = by_pair(response);
    let length = response.len();
    let four = length == 4;
    let alone = |place| is_wrong_alone(response, place);
    let agrees = length == 4 + 4 * usize::from(response[3]);
    let is_report = response.starts_with(&[0x41, 0x51, 0x00]) && length >= 12;
    let other = is_response(&[response[0], response[1], response[2], 0]);
    let without = |more: usize| is_response(&response[..length - more.min(length)]);
    classes.extend(that_apply(&[
        ("refused 25, byte 0 alone", alone(0)),
        ("refused 25, byte 1 alone", four && alone(1)),
        ("refused 25, byte 1 alone of a report", !four && alone(1)),
        ("refused 25, byte 1 is 10h", alone(1) && response[1] == 0x10),
        ("refused 25, byte 2 alone", four && alone(2)),
        ("refused 25, byte 2 alone of a report", !four && alone(2)),
        ("refused 25, byte 3 alone", four && alone(3)),
        ("refused 25, byte 3 alone of a report", !four && alone(3)),
        ("refused 25, byte 4 alone", alone(4)),
        ("refused 25, byte 5 alone", alone(5)),
        ("refused 25, byte 7 alone", alone(7)),
        ("refused 25, four bytes and more, byte 3 is 0", other && !four && response[3] == 0),
        ("refused 25, a byte too many", without(1)),
        ("refused 25, a byte too few of a report", is_report && is_response(&[response, &[0]].concat())),
        ("refused 25, a dword too many, byte 3 agrees", agrees && other && length == 8),
        ("refused 25, another result in more bytes, byte 3 agrees", agrees && other && length >= 12),
        (
            "refused 25, 51h 00h in eight bytes, byte 3 agrees",
            agrees && length == 8 && response[..3] == [0x41, 0x51, 0],
        ),
        ("refused 25, 256 dwords too many", without(1024)),
    ]));
    if is_report {
        classes.extend(by_rows(response, agrees, alone(6)));
    }
    classes
}

fn by_pair(response: &[u8]) -> Classes {
    let is = |function, result| response == [0x41, function, result, 0];
    that_apply(&[
        ("refused 25, 93h 01h", is(0x93, 0x01)),
        ("refused 25, 93h 11h", is(0x93, 0x11)),
        ("refused 25, 93h 16h", is(0x93, 0x16)),
        ("refused 25, C1h 10h", is(0xc1, 0x10)),
        ("refused 25, C1h 16h", is(0xc1, 0x16)),
        ("refused 25, 51h 02h", is(0x51, 0x02)),
        ("refused 25, 51h 10h", is(0x51, 0x10)),
        ("refused 25, 51h 00h in four bytes", is(0x51, 0x00)),
    ])
}

/// Of an accepted report whose numbers or whose length are no report's.
fn by_rows(response: &[u8], agrees: bool, start_alone: bool) -> Classes {
    let [start, count] = [response[6], response[7]].map(usize::from);
    let fits = response.len() == 12 + 16 * count;
    let whole = agrees && fits && response[4..6] == [0, 0];
    that_apply(&[
        ("refused 25, byte 6 alone, above 127", start_alone && start > 127),
        ("refused 25, byte 6 alone, beyond 128 with the rows", start_alone && start <= 127),
        ("refused 25, a report's rows, byte 3 agrees", agrees && !fits && start + count <= GROUPS),
        ("refused 25, 64 rows", fits && count == 64),
        ("refused 25, start 128, no rows", whole && (start, count) == (128, 0)),
        ("refused 25, start 128, 1 row", whole && (start, count) == (128, 1)),
        ("refused 25, start 127, 2 rows", whole && (start, count) == (127, 2)),
        ("refused 25, start and rows 129 together", whole && start + count == 129),
        ("refused 25, start and 63 rows beyond 128", whole && count == 63 && start <= 127),
        ("refused 25, start above 127", whole && start > 127),
    ])
}

/// The classes of an order that was built, answered and read.
pub fn went(profile: Profile, way: &Way) -> Classes {
    let (result, right) = (way.result(), way.arrival.may_change_zoning());
    let accepted = result == 0;
    let above_7 = profile == Profile::Small && right && result == 0x02;
    let mut classes = that_apply(&[
        ("trip, 00h", accepted),
        ("trip, 01h no right", result == 0x01 && !right),
        ("trip, 02h no right", result == 0x02 && !right),
        ("trip, 02h a group above 7", above_7),
        ("trip, 10h", result == 0x10),
        ("trip, 11h", result == 0x11),
    ]);
    classes.extend(match way.order {
        Console::PhyZones { first_phy, entries, .. } => {
            let zones = Zones::new(*first_phy, entries);
            let participating = zones.entries.iter().any(|entry| entry[0] != 0);
            that_apply(&[
                ("trip, 00h no phys", accepted && zones.count() == 0),
                ("trip, 00h an odd number of phys", accepted && zones.count() % 2 == 1),
                ("trip, 00h 128 phys", accepted && zones.count() == 128),
                ("trip, 00h a participating phy", accepted && participating),
                ("trip, 00h up to the last phy", accepted && zones.end() == way.arrival.phys.len()),
                ("trip, 10h an unfair entry", result == 0x10 && zones.has_unfair()),
            ])
        }
        Console::Single { on, complete, .. } => that_apply(&[
            ("trip, 00h on", accepted && *on != 0),
            ("trip, 00h off", accepted && *on == 0),
            ("trip, 00h complete", accepted && *complete != 0),
            ("trip, 00h not complete", accepted && *complete == 0),
            ("trip, 00h changed", accepted && way.changed_permissions()),
        ]),
        Console::Batch { first_group, choices, .. } => {
            let rows: &[[u8; GROUPS]] = choices.as_chunks().0;
            let end = *first_group as usize + rows.len();
            that_apply(&[
                ("trip, 00h no rows", accepted && rows.is_empty()),
                ("trip, 00h several rows", accepted && rows.len() > 1),
                ("trip, 00h 63 rows", accepted && rows.len() == 63),
                ("trip, 00h up to row 127", accepted && !rows.is_empty() && end == GROUPS),
                ("trip, 00h groups 0 and 1 on", accepted && rows.iter().any(|row| row[0] != 0 && row[1] != 0)),
            ])
        }
        Console::Report { first_group, count, .. } => that_apply(&[
            ("trip, 00h no rows", accepted && *count == 0),
            ("trip, 00h 63 rows", accepted && *count == 63 && first_group + count <= 128),
            ("trip, 00h fewer rows than asked for", accepted && first_group + count > 128),
        ]),
        Console::Read { .. } => Vec::new(),
    });
    classes
}

/// Of rows that went back to the table from which they were read.
pub fn sent_back(back: &Way) -> Classes {
    let accepted = back.result() == 0;
    let (mutual, changed) = (back.was_mutual(), back.changed_permissions());
    let several = matches!(back.order, Console::Batch { choices, .. } if choices.len() > GROUPS);
    that_apply(&[
        ("sent back to a mutual table", accepted && mutual),
        ("sent back to a mutual table, several rows", accepted && mutual && several),
        ("sent back to a table that is not mutual", accepted && !mutual),
        ("sent back to a table that is not mutual, and changed it", accepted && !mutual && changed),
    ])
}

/// Of an order that was packed otherwise as well.
pub fn packed(built: &Answer, answered: &Answer) -> Classes {
    that_apply(&[
        ("packed otherwise, built", built.refusal() == 0 && answered.refusal() == 0),
        ("packed otherwise, refused 24", built.refusal() == 24 && answered.refusal() == 0),
    ])
}

/// Of a response whose head some request got.
pub fn some_request_got(response: &[u8]) -> Classes {
    let is_report = response.len() > 4;
    that_apply(&[
        ("some request got it, four bytes", !is_report),
        ("some request got it, a report", is_report),
        ("some request got it, a report of 63 rows", response.len() == 1020),
        (
            "some request got it, start and rows 128 together",
            is_report && u16::from(response[6]) + u16::from(response[7]) == 128,
        ),
    ])
}
