//! Calls of saved zoning that are judged together. Each step is compared with the model like any call. Here the library's own
//! answers are asked for what request 08 promises of them together, without a look at the model's files: a load gives back what
//! was saved, a save gives back the file that was loaded, an order after a load puts a pair into the file or takes it out, and a
//! load does what start-up and orders do.

use super::super::arrival::{that_apply, Classes};
use super::super::call::{Answer, Call};
use super::super::console::trips::{ask, step, Complaint, Steps};
use super::super::profile::Profile;
use super::super::random::Random;
use super::super::sheets::paper;
use super::super::sheets::trips::with_a_warden;
use super::super::shelf::Shelf;
use super::files::{all_pairs, damaged_zone, place, Parts, TRAILER};
use super::{described, load_by, tidy};
use crate::saved::ROOM;
use crate::tables::{Record, RECORD};

/// The refusal of a zone in a file, and 93h's result for the same.
const ZONE: u64 = 39;
const FAILED: u64 = 0x02;

/// Calls that follow one another, with the model's answers. The shelf goes on with the tables that were loaded.
pub fn trip(random: &mut Random, shelf: &mut Shelf) -> Steps {
    match random.below(4) {
        0 => there_and_back(random, shelf),
        1 => loaded_and_saved(random, shelf),
        2 => ordered_and_saved(random, shelf),
        _ => as_orders(random, shelf),
    }
}

/// Tables are saved, the file is loaded over others, and what was loaded is saved again.
fn there_and_back(random: &mut Random, shelf: &mut Shelf) -> Steps {
    let profile = shelf.profile;
    let (permissions, is_2) = (described(random, profile), random.percent(60));
    let phys = tidy(random, profile, &shelf.phys);
    let mut steps = Vec::new();
    let saved = step(profile, save(random, is_2, phys, permissions), &mut steps);
    let file = written(&saved).to_vec();
    let (reader_2, anything) = (is_2 || random.percent(40), random.bytes(profile.table_size()));
    load_and_save(random, shelf, is_2, load_by(reader_2, shelf.phys.clone(), anything, file), &mut steps);
    steps
}

/// A good file that no save has made is loaded, and what was loaded is saved.
fn loaded_and_saved(random: &mut Random, shelf: &mut Shelf) -> Steps {
    let is_2 = random.percent(60);
    let file = Parts::random(random, shelf.profile, is_2.then_some(shelf.count())).bytes();
    let reader_2 = is_2 || random.percent(40);
    let mut steps = Vec::new();
    let call = load_by(reader_2, shelf.phys.clone(), shelf.permissions.clone(), file);
    load_and_save(random, shelf, is_2, call, &mut steps);
    steps
}

fn load_and_save(random: &mut Random, shelf: &mut Shelf, is_2: bool, load: Call, steps: &mut Steps) {
    let loaded = step(shelf.profile, load, steps);
    match loaded.buffers.as_slice() {
        [permissions] => shelf.permissions.clone_from(permissions),
        [phys, permissions] => {
            shelf.phys.clone_from(phys);
            shelf.permissions.clone_from(permissions);
        }
        _ => {}
    }
    step(shelf.profile, save(random, is_2, shelf.phys.clone(), shelf.permissions.clone()), steps);
}

/// A file is loaded, a pair is switched, often one that the file has, and what there is then is saved.
fn ordered_and_saved(random: &mut Random, shelf: &mut Shelf) -> Steps {
    let profile = shelf.profile;
    let parts = Parts::random(random, profile, None);
    let phy = random.below(shelf.count());
    let phys = with_a_warden(&shelf.phys, phy);
    let mut steps = Vec::new();
    let call = load_by(random.percent(50), phys.clone(), shelf.permissions.clone(), parts.bytes());
    let loaded = step(profile, call, &mut steps);
    let permissions = loaded.buffers.last().cloned().unwrap_or_default();
    let from = if parts.pairs.is_empty() || random.percent(50) { all_pairs(profile) } else { parts.pairs };
    let [a, b] = random.pick(&from);
    let on = random.pick(&[0, 0x80]);
    let request = vec![0x40, 0xc1, 0, 2, 0, 0, a, b | on, 0, 0x80, 0, 0];
    let answered = step(profile, order(random, &phys, permissions, phy, request), &mut steps);
    shelf.permissions.clone_from(&answered.buffers[1]);
    step(profile, save(random, false, Vec::new(), shelf.permissions.clone()), &mut steps);
    steps
}

fn save(random: &mut Random, is_2: bool, phys: Vec<u8>, permissions: Vec<u8>) -> Call {
    let file = paper(random, ROOM);
    if is_2 {
        Call::SaveVersion2 { phys, permissions, file }
    } else {
        Call::SaveVersion1 { permissions, file }
    }
}

/// The bytes of a file that was saved.
fn written(saved: &Answer) -> &[u8] {
    &saved.buffers[0][..saved.fields[1] as usize]
}

/// A file with few pairs; then start-up, a single order for each pair and, of version 2, one 93h for all phys. The caller is a
/// phy in group 1 that does not participate. Now and then a zone is one that 93h does not write.
fn as_orders(random: &mut Random, shelf: &Shelf) -> Steps {
    let profile = shelf.profile;
    let is_2 = random.percent(70);
    let mut parts = Parts::random(random, profile, is_2.then_some(shelf.count()));
    parts.pairs.truncate(random.below(7));
    if let Some(zones) = parts.zones.as_mut().filter(|_| random.percent(40)) {
        let place = place(random, zones.len());
        let [zoning, group] = damaged_zone(random, profile, [zones[place][1], zones[place][2]]);
        zones[place][1..].copy_from_slice(&[zoning, group]);
    }
    let phy = random.below(shelf.count());
    let phys = with_a_warden(&shelf.phys, phy);
    let anything = random.bytes(profile.table_size());
    let mut steps = Vec::new();
    step(profile, load_by(is_2, phys.clone(), anything.clone(), parts.bytes()), &mut steps);
    let started = step(profile, Call::StartUp { permissions: anything }, &mut steps);
    let mut permissions = started.buffers[0].clone();
    for &[a, b] in &parts.pairs {
        let request = vec![0x40, 0xc1, 0, 2, 0, 0, a, b | 0x80, 0, 0x80, 0, 0];
        let answered = step(profile, order(random, &phys, permissions, phy, request), &mut steps);
        permissions = answered.buffers[1].clone();
    }
    if let Some(zones) = &parts.zones {
        step(profile, order(random, &phys, permissions, phy, zone_all(zones)), &mut steps);
    }
    steps
}

fn order(random: &mut Random, phys: &[u8], permissions: Vec<u8>, phy: usize, request: Vec<u8>) -> Call {
    Call::Smp {
        phys: phys.to_vec(),
        permissions,
        phy: phy as u32,
        carried: 1,
        expander_changes: 0,
        phy_changes: 0,
        request,
        response: random.bytes(1020),
        set: random.bytes(16),
    }
}

/// One 93h with the zones of all phys.
fn zone_all(zones: &[[u8; 3]]) -> Vec<u8> {
    let k = zones.len();
    let mut request = vec![0x40, 0x93, 0, (1 + k.div_ceil(2)) as u8, 0, 0, 0, k as u8];
    request.extend(zones.iter().flat_map(|zone| &zone[1..]));
    request.resize(8 + 4 * k.div_ceil(2), 0);
    request
}

/// The calls with the library's answers.
pub struct Trip<'a> {
    pub calls: Vec<&'a Call>,
    pub answers: Vec<&'a Answer>,
}

/// The tables of a call, and the file that it takes. A call of version 1 has no phys.
struct Lent<'a> {
    phys: &'a [u8],
    permissions: &'a [u8],
    file: &'a [u8],
}

impl<'a> Lent<'a> {
    fn to(call: &'a Call) -> Option<Lent<'a>> {
        match call {
            Call::SaveVersion1 { permissions, file } | Call::LoadVersion1 { permissions, file } => {
                Some(Lent { phys: &[], permissions, file })
            }
            Call::SaveVersion2 { phys, permissions, file } | Call::LoadVersion2 { phys, permissions, file } => {
                Some(Lent { phys, permissions, file })
            }
            _ => None,
        }
    }
}

fn is_save(call: &Call) -> bool {
    matches!(call, Call::SaveVersion1 { .. } | Call::SaveVersion2 { .. })
}

impl Trip<'_> {
    pub fn judge(&self, _: Profile) -> Complaint {
        match (self.calls.as_slice(), self.answers.as_slice()) {
            (&[load, order @ Call::Smp { .. }, again], &[loaded, ordered, saved]) if is_save(again) => {
                judge_ordered([load, order, again], [loaded, ordered, saved])
            }
            (&[save, load, again], &[saved, loaded, saved_again]) if is_save(again) => {
                judge_back([save, load], [saved, loaded])?;
                judge_saved_again([load, again], [loaded, saved_again])
            }
            (&[load, again], &[loaded, saved_again]) if is_save(again) => {
                judge_saved_again([load, again], [loaded, saved_again])
            }
            ([load, Call::StartUp { .. }, orders @ ..], [loaded, started, answers @ ..]) => {
                judge_orders(load, loaded, started, orders, answers)
            }
            _ => Ok(()),
        }
    }

    pub fn classes(&self, profile: Profile) -> Classes {
        match (self.calls.as_slice(), self.answers.as_slice()) {
            ([save, load, ..], [saved, ..]) if is_save(save) => went_back(profile, save, load, saved),
            ([load, again], ..) if is_save(again) => saved_again(profile, load),
            ([load, order @ Call::Smp { .. }, again], _) if is_save(again) => switched(load, order),
            ([load, ..], [loaded, _, answers @ ..]) => ordered(load, loaded, answers),
            _ => Vec::new(),
        }
    }
}

/// What was saved is loaded, and the tables are those that were saved. Of the phys that is bytes 0 and 1.
fn judge_back([save, load]: [&Call; 2], [saved, loaded]: [&Answer; 2]) -> Complaint {
    let (Some(of_save), Some(of_load)) = (Lent::to(save), Lent::to(load)) else {
        return Err("no file");
    };
    ask(saved.refusal() == 0 && written(saved) == of_load.file, "another file was loaded than was saved")?;
    let version = if matches!(save, Call::SaveVersion2 { .. }) { 2 } else { 1 };
    ask(loaded.fields == [0, version, 0, 0, 0], "what was saved is not loaded as that version")?;
    let (phys, permissions) = tables(loaded);
    ask(permissions == of_save.permissions, "a load did not give the permissions back")?;
    let source = if version == 2 { of_save.phys } else { of_load.phys };
    ask(phys == with_zones_of(of_load.phys, source), "a load did not give the phys back")
}

/// The phys that a load leaves, where it has any, and the permissions.
fn tables(loaded: &Answer) -> (&[u8], &[u8]) {
    match loaded.buffers.as_slice() {
        [phys, permissions] => (phys, permissions),
        [permissions] => (&[], permissions),
        _ => (&[], &[]),
    }
}

/// These phys with bytes 0 and 1 of the others.
fn with_zones_of(phys: &[u8], others: &[u8]) -> Vec<u8> {
    let mut phys = phys.to_vec();
    let records: &mut [Record] = phys.as_chunks_mut().0;
    for (record, other) in records.iter_mut().zip(others.as_chunks::<RECORD>().0) {
        record[..2].copy_from_slice(&other[..2]);
    }
    phys
}

/// The file that was loaded is the one that is saved.
fn judge_saved_again([load, again]: [&Call; 2], [loaded, saved]: [&Answer; 2]) -> Complaint {
    let (Some(of_load), Some(of_save)) = (Lent::to(load), Lent::to(again)) else {
        return Err("no file");
    };
    ask(loaded.refusal() == 0, "a good file was refused")?;
    let (phys, permissions) = tables(loaded);
    let same_phys = of_save.phys.is_empty() || of_save.phys == phys;
    ask(same_phys && of_save.permissions == permissions, "other tables were saved than were loaded")?;
    ask(saved.refusal() == 0 && written(saved) == of_load.file, "a save did not give the file back")
}

/// The file that is saved is the one that was loaded, with the pair of an accepted order in it or without that pair.
fn judge_ordered([load, order, again]: [&Call; 3], [loaded, ordered, saved]: [&Answer; 3]) -> Complaint {
    let (Some(of_load), Some(of_save), Some((pair, on))) = (Lent::to(load), Lent::to(again), pair_of(order)) else {
        return Err("no file");
    };
    ask(loaded.fields[..2] == [0, 1], "a good file was refused")?;
    ask(ordered.fields[..2] == [0, 0], "an order of a pair failed")?;
    ask(ordered.buffers[1] == of_save.permissions, "other tables were saved than were ordered")?;
    let mut pairs = pairs_of(of_load.file).to_vec();
    pairs.retain(|&other| other != pair);
    pairs.extend(on.then_some(pair));
    pairs.sort_unstable();
    let expected = Parts { pairs, zones: None }.bytes();
    ask(saved.refusal() == 0 && written(saved) == expected, "a save after an order is not the file with it")
}

/// What a single order names, and whether it is switched on.
fn pair_of(order: &Call) -> Option<([u8; 2], bool)> {
    match order {
        Call::Smp { request, .. } => Some(([request[6], request[7] & 0x7f], request[7] >> 7 == 1)),
        _ => None,
    }
}

/// A load leaves what start-up and the orders leave, or is refused where 93h fails or would not write what it is given.
fn judge_orders(load: &Call, loaded: &Answer, started: &Answer, orders: &[&Call], answers: &[&Answer]) -> Complaint {
    let Some(lent) = Lent::to(load) else {
        return Err("no file");
    };
    ask(started.refusal() == 0 && answers.iter().all(|answer| answer.refusal() == 0), "an order was refused")?;
    ask(are_orders(lent.file, orders), "other orders were given than the file has")?;
    let (phys, permissions) = tables(loaded);
    if matches!(load, Call::LoadVersion2 { .. }) {
        let Some((last, singles)) = answers.split_last() else {
            return Err("no orders");
        };
        ask(singles.iter().all(|answer| answer.fields[1] == 0), "an order of a pair failed")?;
        let has_reserved = zones_of(lent.file).iter().any(|zone| zone[1] & 0xe0 != 0);
        if last.fields[1] == FAILED || has_reserved {
            return ask(loaded.fields[0] == ZONE, "a zone was loaded that 93h does not write");
        }
        ask(loaded.fields == [0, 2, 0, 0, 0], "what orders can do was refused")?;
        ask(phys == last.buffers[0], "the phys are not what the orders leave")?;
        return ask(permissions == last.buffers[1], "the permissions are not what the orders leave");
    }
    ask(loaded.fields == [0, 1, 0, 0, 0], "what orders can do was refused")?;
    ask(answers.iter().all(|answer| answer.fields[1] == 0), "an order of a pair failed")?;
    let after = answers.last().map_or(&started.buffers[0], |answer| &answer.buffers[1]);
    ask(permissions == after, "the permissions are not what the orders leave")
}

/// Whether the file has these pairs and, in version 2, these zones, in this order.
fn are_orders(file: &[u8], orders: &[&Call]) -> bool {
    let records = orders.iter().flat_map(|order| match order {
        Call::Smp { request, .. } if request[1] == 0xc1 => vec![request[6], request[7] & 0x7f],
        Call::Smp { request, .. } => {
            let zones = request[8..].as_chunks::<2>().0.iter().take(request[7].into()).enumerate();
            zones.flat_map(|(phy, zone)| [phy as u8, zone[0], zone[1]]).collect()
        }
        _ => Vec::new(),
    });
    file.starts_with(&records.collect::<Vec<_>>())
}

/// Of a good file.
fn pairs_of(file: &[u8]) -> &[[u8; 2]] {
    file[..2 * pair_count(file)].as_chunks().0
}

fn pair_count(file: &[u8]) -> usize {
    let end = file.len() - TRAILER;
    u16::from_be_bytes([file[end + 2], file[end + 3]]).into()
}

/// Of a good file of version 2.
fn zones_of(file: &[u8]) -> &[[u8; 3]] {
    file[2 * pair_count(file)..file.len() - TRAILER - 2].as_chunks().0
}

pub const BACK_1: [&str; 5] = [
    "there and back, version 1, no pairs",
    "there and back, version 1, some pairs",
    "there and back, version 1, all pairs",
    "there and back, by the reader of version 1",
    "there and back, version 1 by the reader of version 2",
];

pub const BACK_2: [&str; 3] = [
    "there and back, version 2, no pairs",
    "there and back, version 2, some pairs",
    "there and back, version 2, all pairs",
];

/// None, all, or else some.
fn how_many(profile: Profile, file: &[u8]) -> [bool; 3] {
    let pairs = pair_count(file);
    let groups = profile.groups_of_table() - 2;
    let is_all = pairs == groups * (groups + 1) / 2;
    [pairs == 0, pairs > 0 && !is_all, is_all]
}

fn went_back(profile: Profile, save: &Call, load: &Call, saved: &Answer) -> Classes {
    let [none, some, all] = how_many(profile, written(saved));
    let is_1 = matches!(save, Call::SaveVersion1 { .. });
    let by_1 = matches!(load, Call::LoadVersion1 { .. });
    that_apply(&[
        (BACK_1[0], is_1 && none),
        (BACK_1[1], is_1 && some),
        (BACK_1[2], is_1 && all),
        (BACK_1[3], by_1),
        (BACK_1[4], is_1 && !by_1),
        (BACK_2[0], !is_1 && none),
        (BACK_2[1], !is_1 && some),
        (BACK_2[2], !is_1 && all),
    ])
}

pub const SAVED_AGAIN_1: [&str; 3] = [
    "loaded and saved, version 1, no pairs",
    "loaded and saved, version 1, some pairs",
    "loaded and saved, version 1, all pairs",
];

pub const SAVED_AGAIN_2: [&str; 6] = [
    "loaded and saved, version 1, no pairs",
    "loaded and saved, version 1, some pairs",
    "loaded and saved, version 1, all pairs",
    "loaded and saved, version 2, no pairs",
    "loaded and saved, version 2, some pairs",
    "loaded and saved, version 2, all pairs",
];

fn saved_again(profile: Profile, load: &Call) -> Classes {
    let Some(Lent { file, .. }) = Lent::to(load) else {
        return Vec::new();
    };
    let [none, some, all] = how_many(profile, file);
    let is_1 = file[file.len() - TRAILER + 1] == 1;
    that_apply(&[
        (SAVED_AGAIN_2[0], is_1 && none),
        (SAVED_AGAIN_2[1], is_1 && some),
        (SAVED_AGAIN_2[2], is_1 && all),
        (SAVED_AGAIN_2[3], !is_1 && none),
        (SAVED_AGAIN_2[4], !is_1 && some),
        (SAVED_AGAIN_2[5], !is_1 && all),
    ])
}

pub const SWITCHED: [&str; 4] = [
    "loaded, a pair ordered on, and saved",
    "loaded, a pair ordered off, and saved",
    "loaded, a pair ordered on that was on, and saved",
    "loaded, a pair ordered off that was off, and saved",
];

fn switched(load: &Call, order: &Call) -> Classes {
    let (Some(Lent { file, .. }), Some((pair, on))) = (Lent::to(load), pair_of(order)) else {
        return Vec::new();
    };
    let was_on = pairs_of(file).contains(&pair);
    that_apply(&[
        (SWITCHED[0], on && !was_on),
        (SWITCHED[1], !on && was_on),
        (SWITCHED[2], on && was_on),
        (SWITCHED[3], !on && !was_on),
    ])
}

pub const ORDERED: [&str; 2] = ["as start-up and orders, no pairs", "as start-up and orders, some pairs"];

pub const ORDERED_2: [&str; 4] = [
    "as start-up and orders, no pairs",
    "as start-up and orders, some pairs",
    "as orders, refused 39 where 93h fails",
    "as orders, refused 39 where 93h leaves a bit out",
];

fn ordered(load: &Call, loaded: &Answer, answers: &[&Answer]) -> Classes {
    let is_1 = matches!(load, Call::LoadVersion1 { .. });
    let pairs = answers.len() - usize::from(!is_1);
    let is_done = loaded.refusal() == 0;
    let failed = answers.last().is_some_and(|answer| answer.fields[1] == FAILED);
    that_apply(&[
        (ORDERED_2[0], is_done && pairs == 0),
        (ORDERED_2[1], is_done && pairs > 0),
        (ORDERED_2[2], !is_done && failed),
        (ORDERED_2[3], !is_done && !failed),
    ])
}

#[cfg(test)]
mod tests {
    use super::*;

    /// What model and library could both get wrong in a trip's answers, and what is then said of it.
    type Mistake = fn(&mut Steps);
    const MISTAKES: [(&str, Mistake); 14] = [
        ("other tables were saved than were ordered", |steps| steps[1].1.buffers.iter_mut().for_each(|b| b[5] ^= 0x10)),
        ("a save after an order is not the file with it", |steps| steps.last_mut().unwrap().1.buffers[0][3] ^= 1),
        ("another file was loaded than was saved", |steps| steps[0].1.buffers[0][0] ^= 1),
        ("what was saved is not loaded as that version", |steps| steps[1].1.fields[1] ^= 3),
        ("a load did not give the permissions back", |steps| steps[1].1.buffers.last_mut().unwrap()[5] ^= 0x10),
        ("a load did not give the phys back", |steps| steps[1].1.buffers[0][1] ^= 1),
        ("a good file was refused", |steps| steps[0].1.fields[0] = 37),
        ("other tables were saved than were loaded", |steps| steps[0].1.buffers[0][1] ^= 1),
        ("a save did not give the file back", |steps| steps.last_mut().unwrap().1.buffers[0][0] ^= 1),
        ("an order was refused", |steps| steps.last_mut().unwrap().1.fields[0] = 5),
        ("a zone was loaded that 93h does not write", |steps| steps[0].1.fields[0] = 0),
        ("what orders can do was refused", |steps| steps[0].1.fields[0] = ZONE),
        ("the phys are not what the orders leave", |steps| steps[0].1.buffers[0][1] ^= 1),
        ("the permissions are not what the orders leave", |steps| steps[0].1.buffers.last_mut().unwrap()[5] ^= 0x10),
    ];

    fn judge(profile: Profile, steps: &Steps) -> Complaint {
        let (calls, answers) = steps.iter().map(|(call, answer)| (call, answer)).unzip();
        Trip { calls, answers }.judge(profile)
    }

    #[test]
    fn each_mistake_is_found() {
        for profile in Profile::ALL {
            let mut random = Random::new(1);
            let mut trips = Vec::new();
            for _ in 0..30 {
                let mut shelf = Shelf::random(&mut random, profile);
                trips.extend((0..5).map(|_| trip(&mut random, &mut shelf)));
            }
            trips.iter().for_each(|steps| assert_eq!(judge(profile, steps), Ok(())));
            for (said, mistake) in MISTAKES {
                let is_found = trips.iter().any(|steps| {
                    let mut steps = steps.clone();
                    mistake(&mut steps);
                    judge(profile, &steps) == Err(said)
                });
                assert!(is_found, "{profile}: {said}");
            }
        }
    }
}
