//! Saved zoning: tables that are saved, as described or not, and files that are loaded, good ones and damaged ones. Some are made
//! alone; others are compared with each other or with orders.

use super::call::Call;
use super::console::trips::mutual_table;
use super::profile::Profile;
use super::random::Random;
use super::sheets::{one_way, paper, trips::all_pairs};
use super::shelf::Shelf;
use crate::saved::ROOM;
use crate::tables::{Group, RECORD};

pub mod classes;
pub mod files;
pub mod sweep;
pub mod trips;

/// A file is asked for or arrives. Saves are fewer: each has room for the longest file.
pub fn call(random: &mut Random, shelf: &Shelf) -> Call {
    if random.percent(30) {
        save(random, shelf)
    } else {
        load(random, shelf)
    }
}

fn save(random: &mut Random, shelf: &Shelf) -> Call {
    let profile = shelf.profile;
    let permissions = if random.percent(65) { described(random, profile) } else { not_described(random, shelf) };
    let more = random.pick(&[0, 0, 0, 1, 200]);
    let file = paper(random, ROOM + more);
    if random.percent(35) {
        return Call::SaveVersion1 { permissions, file };
    }
    let mut phys = shelf.phys.clone();
    if random.percent(90) {
        phys = tidy(random, profile, &phys);
    }
    if random.percent(40) {
        untidy(random, profile, &mut phys);
    }
    Call::SaveVersion2 { phys, permissions, file }
}

/// A table of which there is a file.
pub fn described(random: &mut Random, profile: Profile) -> Vec<u8> {
    match random.below(12) {
        0 => profile.fresh_table(),
        1 => all_pairs(profile),
        _ => mutual_table(random, profile),
    }
}

/// Both places become what they were not.
fn switch(profile: Profile, table: &mut [u8], [a, b]: [u8; 2]) {
    let [a, b] = [a, b].map(Group::low_7_bits);
    let on = !profile.permitted(table, a, b);
    profile.write(table, a, b, on);
    profile.write(table, b, a, on);
}

/// Mostly one that would be described but for one place or two: in the rows of groups 0 and 1, or not mutual.
fn not_described(random: &mut Random, shelf: &Shelf) -> Vec<u8> {
    let profile = shelf.profile;
    let mut table = described(random, profile);
    let last = profile.groups_of_table() - 1;
    let any = random.below(last + 1) as u8;
    let row = random.pick(&[0, 1]);
    match random.below(10) {
        0 => table = shelf.permissions.clone(),
        1 => table = random.bytes(profile.table_size()),
        2 => table = one_way(random, profile),
        3 => switch(profile, &mut table, [row, row]),
        4..=6 => switch(profile, &mut table, [row, any]),
        _ => {
            let bit = random.below(8);
            let place = random.below(table.len());
            table[place] ^= 1 << bit;
        }
    }
    table
}

/// Bytes 0 and 1 that 93h could have written. The others stay.
pub fn tidy(random: &mut Random, profile: Profile, phys: &[u8]) -> Vec<u8> {
    let mut phys = phys.to_vec();
    for record in phys.as_chunks_mut::<RECORD>().0 {
        record[..2].copy_from_slice(&files::zone(random, profile));
    }
    phys
}

/// One phy, mostly the first or the last one, gets bytes that 93h could not have written.
fn untidy(random: &mut Random, profile: Profile, phys: &mut [u8]) {
    let records = phys.as_chunks_mut::<RECORD>().0;
    let place = files::place(random, records.len());
    let zone = files::damaged_zone(random, profile, [records[place][0], records[place][1]]);
    records[place][..2].copy_from_slice(&zone);
}

fn load(random: &mut Random, shelf: &Shelf) -> Call {
    let profile = shelf.profile;
    let is_version_2 = random.percent(60);
    let file = files::file(random, profile, is_version_2.then_some(shelf.count()));
    let by_reader_2 = random.percent(if is_version_2 { 85 } else { 50 });
    load_by(by_reader_2, shelf.phys.clone(), shelf.permissions.clone(), file)
}

pub fn load_by(reader_2: bool, phys: Vec<u8>, permissions: Vec<u8>, file: Vec<u8>) -> Call {
    if reader_2 {
        Call::LoadVersion2 { phys, permissions, file }
    } else {
        Call::LoadVersion1 { permissions, file }
    }
}
