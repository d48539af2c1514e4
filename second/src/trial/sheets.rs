//! Zone sheets: imports of good sheets and of such as fail at a line, and exports. Some are made alone; others are compared
//! with each other or with single orders.

use super::call::Call;
use super::console::trips::mutual_table;
use super::profile::Profile;
use super::random::Random;
use super::shelf::Shelf;
use crate::sheets::MOST;
use crate::speaking::source_from_outside;
use crate::tables::Group;

pub mod classes;
pub mod lines;
pub mod trips;

/// A sheet arrives. Mostly the caller has the right, and now and then it takes that away from itself on the way.
pub fn import(random: &mut Random, shelf: &Shelf) -> Call {
    let mut permissions = shelf.permissions.clone();
    let (phy, carried, sheet) = match (random.percent(12), named_speaker(random, shelf)) {
        (true, Some((phy, carried, source))) => {
            permit_to_manage(random, shelf.profile, &mut permissions, source);
            (phy, carried, lines::taking_right(random, shelf.profile, source))
        }
        _ => {
            let (phy, carried) = shelf.speaker(random, 75);
            (phy, carried, lines::sheet(random, shelf.profile))
        }
    };
    Call::Import { phys: shelf.phys.clone(), permissions, phy: phy as u32, carried: carried.into(), sheet }
}

/// A ready phy and a carried byte that speak for a group which an order may name, and that group.
fn named_speaker(random: &mut Random, shelf: &Shelf) -> Option<(usize, u8, Group)> {
    let groups = 2..shelf.profile.groups_of_table();
    (0..12).find_map(|_| {
        let (phy, carried) = shelf.speaker(random, 0);
        let source = source_from_outside(&shelf.record(phy), carried).ok()?;
        groups.contains(&source.index()).then_some((phy, carried, source))
    })
}

/// The right is P(source, 2). The other way round it is mostly on as well, as after any order.
fn permit_to_manage(random: &mut Random, profile: Profile, permissions: &mut [u8], source: Group) {
    let management = Group::low_7_bits(2);
    profile.write(permissions, source, management, true);
    if random.percent(80) {
        profile.write(permissions, management, source, true);
    }
}

/// The permitted pairs of the shelf's table or of another are asked for.
pub fn export(random: &mut Random, shelf: &Shelf) -> Call {
    let profile = shelf.profile;
    let permissions = match random.below(12) {
        0 => profile.fresh_table(),
        1 => vec![0xff; profile.table_size()],
        2..=4 => mutual_table(random, profile),
        5..=6 => random.bytes(profile.table_size()),
        7 => one_way(random, profile),
        _ => shelf.permissions.clone(),
    };
    let more = random.pick(&[0, 0, 0, 1, 85, 131_072 - MOST]);
    Call::Export { permissions, sheet: paper(random, MOST + more) }
}

/// A few pairs that are on in one of the two rows alone: mostly in that of the higher group, which no export reads.
pub fn one_way(random: &mut Random, profile: Profile) -> Vec<u8> {
    let mut table = profile.fresh_table();
    let of_lower = random.percent(30);
    for _ in 0..random.between(1, 20) {
        let [a, b] = [0, 1].map(|_| lines::named(random, profile));
        let [lower, higher] = [a.min(b), a.max(b)].map(|group| Group::low_7_bits(group as u8));
        match of_lower {
            true => profile.write(&mut table, lower, higher, true),
            false if lower != higher => profile.write(&mut table, higher, lower, true),
            false => {}
        }
    }
    table
}

/// Room for a sheet. All of it is one byte, any one: it is long, and so many random bytes take time.
pub fn paper(random: &mut Random, size: usize) -> Vec<u8> {
    vec![random.byte(); size]
}
