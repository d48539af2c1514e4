//! Choices for the console: mostly good and often at an edge, some with a list, a number or a room that is refused.

use super::super::profile::Profile;
use super::super::random::Random;
use super::super::requests::group;
use super::responses::response;
use super::Console;
use crate::console::{ENTRY, MOST_PHYS, MOST_ROWS, ROOM, ROWS_ROOM};
use crate::tables::GROUPS;

/// Bytes that are yes. Cut to their lowest bit most would be no.
const YES: [u8; 8] = [1, 1, 1, 2, 16, 128, 254, 255];

/// Numbers that are yes. Cut to a byte most would be no.
const YES_IN_32_BITS: [u32; 7] = [1, 1, 2, 256, 65_536, 1 << 31, u32::MAX];

/// What is wrong with a call.
#[derive(Clone, Copy)]
enum Damage {
    Room,
    List,
    Number,
    Unfair,
}

/// Any call of the console.
pub fn call(random: &mut Random, profile: Profile) -> Console {
    let mut call = if random.percent(38) { read(random) } else { order(random, profile) };
    let damages = match random.below(20) {
        0..=7 => vec![],
        8..=14 => vec![any_damage(random)],
        15 => vec![Damage::Unfair, random.pick(&[Damage::Number, Damage::Room])],
        16..=17 => vec![any_damage(random), any_damage(random)],
        _ => vec![Damage::Room, Damage::List, Damage::Number],
    };
    damages.into_iter().for_each(|damage| damage_once(random, &mut call, damage));
    call
}

fn any_damage(random: &mut Random) -> Damage {
    random.pick(&[Damage::Room, Damage::List, Damage::List, Damage::Number, Damage::Number, Damage::Unfair])
}

/// A call that builds a request, mostly one that is not refused.
pub fn order(random: &mut Random, profile: Profile) -> Console {
    match random.below(13) {
        0..=3 => phy_zones(random, profile, MOST_PHYS),
        4..=6 => single(random, profile),
        7..=9 => batch(random, profile),
        _ => report(random),
    }
}

fn read(random: &mut Random) -> Console {
    let response = response(random);
    Console::Read { response, rows: rows_buffer(random) }
}

/// Room enough for any request and now and then more. Any bytes are in it, so that one written or left by mistake shows.
pub fn request_buffer(random: &mut Random) -> Vec<u8> {
    let more = random.pick(&[0, 0, 0, 1, 4, 100]);
    random.bytes(ROOM + more)
}

/// The same for rows.
pub fn rows_buffer(random: &mut Random) -> Vec<u8> {
    let more = random.pick(&[0, 0, 0, 1, 128]);
    random.bytes(ROWS_ROOM + more)
}

/// Zones for a shelf with this many phys: mostly for those that it has, at times beyond.
pub fn phy_zones(random: &mut Random, profile: Profile, phys: usize) -> Console {
    let count = match random.below(14) {
        0 => 0,
        1 => 1,
        2 => MOST_PHYS - 1,
        3 => MOST_PHYS,
        4 => random.between(0, MOST_PHYS),
        5..=7 => phys,
        _ => random.between(1, 9),
    };
    let first = match random.below(10) {
        0 => 127,
        1 => MOST_PHYS - count,
        2 => (MOST_PHYS + 1 - count).min(127),
        3 => phys.saturating_sub(count),
        4 => (phys + 1).saturating_sub(count).min(127),
        5 => random.below(128),
        _ => random.between(0, phys.saturating_sub(count).min(127)),
    };
    let in_table = random.percent(60);
    let mut entries: Vec<u8> = (0..count).flat_map(|_| entry(random, profile, in_table)).collect();
    if random.percent(15) {
        spoil(random, &mut entries);
    }
    Console::PhyZones { request: request_buffer(random), first_phy: first as u32, entries }
}

/// One that no shelf turns down, at most for its group.
fn entry(random: &mut Random, profile: Profile, in_table: bool) -> [u8; ENTRY] {
    let priority = random.pick(&[0, 0, 1, 7, 8, 14, 15, 15]);
    if random.percent(35) {
        return [random.pick(&YES), priority, 1];
    }
    let group = group(random, profile);
    [0, priority, if in_table { group % profile.groups_of_table() as u8 } else { group }]
}

/// One entry, often the last, participates in another group than 1.
fn spoil(random: &mut Random, entries: &mut [u8]) {
    if let Some(entry) = any_entry(random, entries) {
        entry[0] = random.pick(&YES);
        entry[2] = random.pick(&[0, 0, 2, 8, 17, 126, 127]);
    }
}

fn any_entry<'a>(random: &mut Random, entries: &'a mut [u8]) -> Option<&'a mut [u8; ENTRY]> {
    let entries = entries.as_chunks_mut().0;
    let last = entries.len().checked_sub(1)?;
    let place = if random.percent(40) { last } else { random.below(last + 1) };
    entries.get_mut(place)
}

pub fn single(random: &mut Random, profile: Profile) -> Console {
    let lowest = if random.percent(85) { 2 } else { 0 };
    let [a, b] = [0, 1].map(|_| u32::from(group(random, profile).max(lowest)));
    let b = if random.percent(6) { a } else { b };
    let [on, complete] = [0, 1].map(|_| yes_or_no(random));
    Console::Single { request: request_buffer(random), a, b, on, complete }
}

fn yes_or_no(random: &mut Random) -> u32 {
    if random.percent(50) {
        0
    } else {
        random.pick(&YES_IN_32_BITS)
    }
}

pub fn batch(random: &mut Random, profile: Profile) -> Console {
    let (first, count) = match profile {
        Profile::Small if random.percent(60) => {
            let count = random.between(0, 6);
            (random.between(2, 8 - count), count)
        }
        _ => first_and_count(random, 2),
    };
    let choices = (0..count).flat_map(|_| row(random, profile)).collect();
    Console::Batch { request: request_buffer(random), first_group: first as u32, choices, complete: yes_or_no(random) }
}

/// A first group, mostly not below the lowest, and a number of rows.
fn first_and_count(random: &mut Random, lowest: usize) -> (usize, usize) {
    let count = match random.below(12) {
        0..=1 => 0,
        2 => 1,
        3 => MOST_ROWS - 1,
        4..=5 => MOST_ROWS,
        6 => random.between(0, MOST_ROWS),
        _ => random.between(1, 6),
    };
    let first = match random.below(10) {
        0 => random.below(3),
        1 => GROUPS - count,
        2 => (GROUPS + 1 - count).min(127),
        3 => 127,
        _ => random.between(lowest, (GROUPS - count).min(127)),
    };
    (first, count)
}

/// A byte for each group: none on, all, a few or any.
fn row(random: &mut Random, profile: Profile) -> [u8; GROUPS] {
    let mut row = match random.below(6) {
        0 => [1; GROUPS],
        1 => [random.pick(&YES); GROUPS],
        2 => std::array::from_fn(|_| if random.percent(50) { 0 } else { random.pick(&YES) }),
        _ => [0; GROUPS],
    };
    for _ in 0..random.below(5) {
        let choice = &mut row[usize::from(group(random, profile))];
        *choice = if *choice == 0 { random.pick(&YES) } else { 0 };
    }
    row
}

pub fn report(random: &mut Random) -> Console {
    let (first, count) = first_and_count(random, 0);
    Console::Report { request: request_buffer(random), first_group: first as u32, count: count as u32 }
}

fn damage_once(random: &mut Random, call: &mut Console, damage: Damage) {
    match damage {
        Damage::Room => damage_room(random, call),
        Damage::List => damage_list(random, call),
        Damage::Number => damage_number(random, call),
        Damage::Unfair => damage_fairness(random, call),
    }
}

fn damage_room(random: &mut Random, call: &mut Console) {
    let (buffer, needed) = match call {
        Console::PhyZones { request, .. }
        | Console::Single { request, .. }
        | Console::Batch { request, .. }
        | Console::Report { request, .. } => (request, ROOM),
        Console::Read { rows, .. } => (rows, ROWS_ROOM),
    };
    // Eight and twelve bytes are room for the shortest requests.
    let size = random.pick(&[0, 8, 12, 128, needed - 1, needed - 1, needed - 1]);
    buffer.truncate(size);
}

/// Too many entries or a part of one, in a list or by a number.
fn damage_list(random: &mut Random, call: &mut Console) {
    match call {
        Console::PhyZones { entries, .. } => damage_size(random, entries, ENTRY, MOST_PHYS),
        Console::Batch { choices, .. } => damage_size(random, choices, GROUPS, MOST_ROWS),
        Console::Report { count, .. } => {
            let [cut_to_8, cut_to_16] = right_where_cut(*count);
            *count = random.pick(&[64, 64, 65, 127, 128, 255, 256, cut_to_8, cut_to_8, cut_to_16, 1 << 31, u32::MAX]);
        }
        Console::Single { .. } | Console::Read { .. } => {}
    }
}

fn damage_size(random: &mut Random, list: &mut Vec<u8>, entry: usize, most: usize) {
    let part = random.between(1, entry - 1);
    let size = match random.below(8) {
        0..=1 => entry * (most + 1),
        2 => entry * (256 + list.len() / entry),
        3 => 65_536 + list.len() % 65_536,
        4 => entry * most + part,
        5 => list.len() + 1,
        _ => (list.len() + part).saturating_sub(random.pick(&[0, entry])),
    };
    // More of the same, so that what is added is as good as what was there.
    let more: Vec<u8> = list.iter().copied().cycle().skip(list.len()).take(size.saturating_sub(list.len())).collect();
    list.extend(more);
    list.resize(size, 0);
}

/// Numbers that are as before where they are cut to 8 or to 16 bits.
fn right_where_cut(number: u32) -> [u32; 2] {
    [256, 65_536].map(|more| number.wrapping_add(more))
}

/// A group, a first phy or a priority that is too great.
fn damage_number(random: &mut Random, call: &mut Console) {
    match call {
        Console::PhyZones { entries, .. } if random.percent(50) && !entries.is_empty() => {
            if let Some(entry) = any_entry(random, entries) {
                match random.below(2) {
                    0 => entry[1] = random.pick(&[16, 16, 17, 31, 255]),
                    _ => entry[2] = random.pick(&[128, 128, 129, 136, 255]),
                }
            }
        }
        Console::PhyZones { first_phy, .. } => *first_phy = above_127(random, *first_phy),
        Console::Single { a, .. } if random.percent(50) => *a = above_127(random, *a),
        Console::Single { b, .. } => *b = above_127(random, *b),
        Console::Batch { first_group, .. } | Console::Report { first_group, .. } => {
            *first_group = above_127(random, *first_group);
        }
        Console::Read { .. } => {}
    }
}

fn above_127(random: &mut Random, number: u32) -> u32 {
    let [cut_to_8, cut_to_16] = right_where_cut(number);
    random.pick(&[
        128,
        128,
        129,
        255,
        256,
        256 + 8,
        256 + 8,
        cut_to_8,
        cut_to_16,
        1 << 31,
        u32::MAX,
        u32::MAX,
        number | 0x80,
    ])
}

/// An order that is turned down, where nothing else is wrong with it.
pub fn damage_fairness(random: &mut Random, call: &mut Console) {
    let below_2 = random.below(2) as u32;
    match call {
        Console::PhyZones { entries, .. } => spoil(random, entries),
        Console::Single { a, .. } if random.percent(50) => *a = below_2,
        Console::Single { b, .. } => *b = below_2,
        Console::Batch { first_group, .. } => *first_group = below_2,
        Console::Report { .. } | Console::Read { .. } => {}
    }
}
