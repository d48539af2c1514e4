//! Calls of sheets that are judged together. Each step is compared with the model like any call. Here the library's own answers
//! are asked for what request 07 promises of them together, without a look at the model's sheets: an export goes back into a
//! fresh table, and a sheet does what its lines do as single orders.

use super::super::arrival::{that_apply, Classes};
use super::super::call::{Answer, Call};
use super::super::console::trips::{ask, mutual_table, step, Complaint, Steps};
use super::super::profile::Profile;
use super::super::random::Random;
use super::super::requests::group;
use super::super::shelf::Shelf;
use super::{lines, named_speaker, paper, permit_to_manage};
use crate::sheets::MOST;
use crate::tables::{Group, RECORD};

const NO_SUCH_GROUP: u64 = 2;
const NO_RIGHT: u64 = 3;

/// C1h's results for the same.
const UNKNOWN_FUNCTION: u64 = 0x01;
const FAILED: u64 = 0x02;

/// Calls that follow one another, with the model's answers.
pub fn trip(random: &mut Random, shelf: &mut Shelf) -> Steps {
    if random.percent(16) {
        there_and_back(random, shelf)
    } else {
        one_by_one(random, shelf)
    }
}

/// A table that orders have made is exported, and its export imported into a fresh one, by a phy in group 1 that does not
/// participate: what is carried there does not count.
fn there_and_back(random: &mut Random, shelf: &Shelf) -> Steps {
    let profile = shelf.profile;
    let mut steps = Vec::new();
    let table = match random.below(6) {
        0 => profile.fresh_table(),
        1 => all_pairs(profile),
        _ => mutual_table(random, profile),
    };
    let sheet = paper(random, MOST);
    let exported = step(profile, Call::Export { permissions: table, sheet }, &mut steps);
    let anything = random.bytes(profile.table_size());
    let started = step(profile, Call::StartUp { permissions: anything }, &mut steps);
    let phy = random.below(shelf.count());
    let call = Call::Import {
        phys: with_a_warden(&shelf.phys, phy),
        permissions: started.buffers[0].clone(),
        phy: phy as u32,
        carried: random.byte().into(),
        sheet: written(&exported).to_vec(),
    };
    step(profile, call, &mut steps);
    steps
}

/// Every pair that an order may name is on.
pub fn all_pairs(profile: Profile) -> Vec<u8> {
    let mut table = profile.fresh_table();
    let groups = (2..profile.groups_of_table()).map(|group| Group::low_7_bits(group as u8));
    for a in groups.clone() {
        groups.clone().for_each(|b| profile.write(&mut table, a, b, true));
    }
    table
}

/// The phy is ready, in group 1, and does not participate.
pub fn with_a_warden(phys: &[u8], phy: usize) -> Vec<u8> {
    let mut phys = phys.to_vec();
    let record = &mut phys.as_chunks_mut::<RECORD>().0[phy];
    record[0] &= !0x10;
    record[1] = 1;
    record[2] |= 1;
    phys
}

/// The bytes of an export.
fn written(exported: &Answer) -> &[u8] {
    &exported.buffers[0][..exported.fields[1] as usize]
}

/// A sheet, and then its lines as single orders up to the first that is not accepted. The shelf goes on with the table that
/// the sheet left.
fn one_by_one(random: &mut Random, shelf: &mut Shelf) -> Steps {
    let profile = shelf.profile;
    let mut steps = Vec::new();
    let (phy, carried) = speaker(random, shelf);
    let count = random.pick(&[1, 1, 1, 2, 3, 6]);
    let orders: Vec<[u8; 3]> = (0..count).map(|_| order(random, profile)).collect();
    let orders = taking_right(random, shelf, phy, carried, orders);
    let end = random.pick(&["\r\n", "\n"]);
    let text = |&[a, b, on]: &[u8; 3]| lines::line(a.into(), b.into(), &on.to_string(), end);
    let import = Call::Import {
        phys: shelf.phys.clone(),
        permissions: shelf.permissions.clone(),
        phy: phy as u32,
        carried: carried.into(),
        sheet: orders.iter().flat_map(text).collect(),
    };
    let imported = step(profile, import, &mut steps);
    let mut permissions = shelf.permissions.clone();
    for [a, b, on] in orders {
        let call = Call::Smp {
            phys: shelf.phys.clone(),
            permissions,
            phy: phy as u32,
            carried: carried.into(),
            expander_changes: 0,
            phy_changes: 0,
            request: vec![0x40, 0xc1, 0, 2, 0, 0, a, b | on << 7, 0, 0x80, 0, 0],
            response: random.bytes(1020),
            set: random.bytes(16),
        };
        let answered = step(profile, call, &mut steps);
        if answered.fields[..2] != [0, 0] {
            break;
        }
        permissions = answered.buffers[1].clone();
    }
    shelf.permissions.clone_from(&imported.buffers[0]);
    steps
}

/// Mostly one with the right; at times a group that can lose it, which is then given it.
fn speaker(random: &mut Random, shelf: &mut Shelf) -> (usize, u8) {
    match (random.percent(30), named_speaker(random, shelf)) {
        (true, Some((phy, carried, source))) => {
            permit_to_manage(random, shelf.profile, &mut shelf.permissions, source);
            (phy, carried)
        }
        _ => shelf.speaker(random, 75),
    }
}

/// Groups of any kind that seven bits can name, and 1 or 0.
fn order(random: &mut Random, profile: Profile) -> [u8; 3] {
    let [a, b] = match random.percent(80) {
        true => [0, 1].map(|_| lines::named(random, profile) as u8),
        false => [0, 1].map(|_| group(random, profile)),
    };
    [a, b, random.percent(65).into()]
}

/// At times one of several orders switches P(source, 2) off.
fn taking_right(random: &mut Random, shelf: &Shelf, phy: usize, carried: u8, mut orders: Vec<[u8; 3]>) -> Vec<[u8; 3]> {
    let record = shelf.record(phy);
    let source = if record.participating { carried & 0x7f } else { record.group.number() };
    if random.percent(40) && orders.len() > 1 {
        let place = random.below(orders.len());
        orders[place] = random.pick(&[[2, source, 0], [source, 2, 0]]);
    }
    orders
}

/// The calls with the library's answers.
pub struct Trip<'a> {
    pub calls: Vec<&'a Call>,
    pub answers: Vec<&'a Answer>,
}

impl Trip<'_> {
    pub fn judge(&self, profile: Profile) -> Complaint {
        match (self.calls.as_slice(), self.answers.as_slice()) {
            ([Call::Export { permissions, .. }, Call::StartUp { .. }, import], &[exported, started, imported]) => {
                judge_back(profile, permissions, import, [exported, started, imported])
            }
            ([import, orders @ ..], [imported, answers @ ..]) => {
                judge_orders(profile, import, imported, orders, answers)
            }
            _ => Ok(()),
        }
    }

    pub fn classes(&self, profile: Profile) -> Classes {
        match (self.calls.as_slice(), self.answers.as_slice()) {
            ([Call::Export { .. }, ..], [exported, ..]) => went_back(profile, exported),
            ([import, ..], [imported, answers @ ..]) => ordered(profile, import, imported, answers),
            _ => Vec::new(),
        }
    }
}

/// Every line of the export is accepted, and the table is as it was.
fn judge_back(profile: Profile, table: &[u8], import: &Call, [exported, started, imported]: [&Answer; 3]) -> Complaint {
    let Call::Import { permissions: before, sheet, .. } = import else {
        return Err("no import");
    };
    ask(exported.refusal() == 0 && written(exported) == sheet, "another sheet was imported than was exported")?;
    ask(
        started.refusal() == 0 && started.buffers[0] == *before,
        "it was imported into another table than a fresh one",
    )?;
    ask(imported.fields == [0, pairs_on(profile, table), 0, 0, 0], "a line of an export failed, or there are others")?;
    ask(imported.buffers[0] == table, "an export did not give its table back")
}

/// How many pairs of groups from 2 on are permitted.
fn pairs_on(profile: Profile, table: &[u8]) -> u64 {
    let group = |number: usize| Group::low_7_bits(number as u8);
    let groups = profile.groups_of_table();
    let pairs = (2..groups).flat_map(|a| (a..groups).map(move |b| (a, b)));
    pairs.filter(|&(a, b)| profile.permitted(table, group(a), group(b))).count() as u64
}

/// The sheet fails at the line whose order is the first that is not accepted, or not at all, and leaves the same table.
fn judge_orders(
    profile: Profile,
    import: &Call,
    imported: &Answer,
    orders: &[&Call],
    answers: &[&Answer],
) -> Complaint {
    let Call::Import { permissions, sheet, .. } = import else {
        return Err("no import");
    };
    ask(are_lines(sheet, orders), "other orders were given than the lines are")?;
    let (Some(last), Some(Call::Smp { request, .. })) = (answers.last(), orders.last()) else {
        return Err("no orders");
    };
    ask(imported.refusal() == last.refusal(), "refused in one of two ways")?;
    if last.refusal() != 0 {
        return ask(imported.buffers[0] == *permissions, "refused, and the table changed");
    }
    ask(last.fields[3] == 0, "an order without UPDATE COMPLETE told others")?;
    let cause = match last.fields[1] {
        0 => 0,
        FAILED => NO_SUCH_GROUP,
        // An order asks for the right first, a line last.
        UNKNOWN_FUNCTION if !is_named(profile, request) => NO_SUCH_GROUP,
        UNKNOWN_FUNCTION => NO_RIGHT,
        _ => return Err("another result than a single order gets"),
    };
    ask(imported.fields == [0, answers.len() as u64, cause, 0, 0], "a line fails where its order is accepted, or not")?;
    ask(imported.buffers[0] == last.buffers[1], "the table is not what the orders leave")
}

/// Whether the lines are these orders and, after one that is not accepted, any others.
fn are_lines(sheet: &[u8], orders: &[&Call]) -> bool {
    let lines = sheet.split(|&byte| byte == b'\n');
    let text = |call: &&Call| match call {
        Call::Smp { request, .. } => format!("{},{},{}", request[6], request[7] & 0x7f, request[7] >> 7),
        _ => String::new(),
    };
    lines.zip(orders).all(|(line, order)| line.strip_suffix(b"\r").unwrap_or(line) == text(order).as_bytes())
}

fn is_named(profile: Profile, request: &[u8]) -> bool {
    [request[6], request[7] & 0x7f].iter().all(|&group| (2..profile.groups_of_table()).contains(&group.into()))
}

pub const BACK: [&str; 3] = ["there and back, no pairs", "there and back, some pairs", "there and back, all pairs"];

fn went_back(profile: Profile, exported: &Answer) -> Classes {
    let all = profile.groups_of_table() - 2;
    let lines = written(exported).iter().filter(|&&byte| byte == b'\n').count();
    let is_all = lines == all * (all + 1) / 2;
    that_apply(&[(BACK[0], lines == 0), (BACK[1], lines > 0 && !is_all), (BACK[2], is_all)])
}

pub const ORDERED: [&str; 10] = [
    "one by one, done, 1 line",
    "one by one, done, several lines",
    "one by one, done, changed",
    "one by one, no such group, 02h",
    "one by one, no such group, 02h after others",
    "one by one, no such group, 01h",
    "one by one, no right, 01h",
    "one by one, no right, 01h after others",
    "one by one, stopped, changed",
    "one by one, refused 5",
];

fn ordered(profile: Profile, import: &Call, imported: &Answer, answers: &[&Answer]) -> Classes {
    let (Call::Import { permissions, .. }, Some(last)) = (import, answers.last()) else {
        return Vec::new();
    };
    let [refusal, lines, cause, ..] = imported.fields;
    let result = last.fields[1];
    let is_answered = refusal == 0 && permissions.len() == profile.table_size();
    let (done, changed) = (is_answered && cause == 0, imported.buffers[0] != *permissions);
    let failed = |by, with| is_answered && cause == by && result == with;
    that_apply(&[
        (ORDERED[0], done && lines == 1),
        (ORDERED[1], done && lines > 1),
        (ORDERED[2], done && changed),
        (ORDERED[3], failed(NO_SUCH_GROUP, FAILED)),
        (ORDERED[4], failed(NO_SUCH_GROUP, FAILED) && lines > 1),
        (ORDERED[5], failed(NO_SUCH_GROUP, UNKNOWN_FUNCTION)),
        (ORDERED[6], failed(NO_RIGHT, UNKNOWN_FUNCTION)),
        (ORDERED[7], failed(NO_RIGHT, UNKNOWN_FUNCTION) && lines > 1),
        (ORDERED[8], is_answered && cause != 0 && changed),
        (ORDERED[9], refusal == 5),
    ])
}

#[cfg(test)]
mod tests {
    use super::*;

    /// What model and library could both get wrong in a trip's answers, and what is then said of it.
    type Mistake = fn(&mut Steps);
    const MISTAKES: [(&str, Mistake); 11] = [
        ("another sheet was imported than was exported", |steps| steps[0].1.buffers[0][0] ^= 1),
        ("it was imported into another table than a fresh one", |steps| steps[1].1.buffers[0][7] ^= 1),
        ("a line of an export failed, or there are others", |steps| steps.last_mut().unwrap().1.fields[1] += 1),
        ("an export did not give its table back", |steps| steps.last_mut().unwrap().1.buffers[0][5] ^= 0x10),
        ("other orders were given than the lines are", |steps| {
            if let Call::Import { sheet, .. } = &mut steps[0].0 {
                sheet[0] ^= 1;
            }
        }),
        ("refused in one of two ways", |steps| steps[0].1.fields[0] ^= 5),
        ("refused, and the table changed", |steps| steps[0].1.buffers[0][5] ^= 0x10),
        ("an order without UPDATE COMPLETE told others", |steps| steps.last_mut().unwrap().1.fields[3] = 1),
        ("a line fails where its order is accepted, or not", |steps| steps[0].1.fields[2] ^= 2),
        ("another result than a single order gets", |steps| steps.last_mut().unwrap().1.fields[1] = 3),
        ("the table is not what the orders leave", |steps| steps[0].1.buffers[0][5] ^= 0x10),
    ];

    fn judge(profile: Profile, steps: &Steps) -> Complaint {
        let (calls, answers) = steps.iter().map(|(call, answer)| (call, answer)).unzip();
        Trip { calls, answers }.judge(profile)
    }

    #[test]
    fn each_mistake_is_found() {
        for profile in Profile::ALL {
            let mut random = Random::new(1);
            let mut trips = Vec::new();
            for _ in 0..30 {
                let mut shelf = Shelf::random(&mut random, profile);
                trips.extend((0..5).map(|_| trip(&mut random, &mut shelf)));
            }
            assert!(trips.iter().all(|steps| judge(profile, steps).is_ok()));
            for (said, mistake) in MISTAKES {
                let is_found = trips.iter().any(|steps| {
                    let mut steps = steps.clone();
                    mistake(&mut steps);
                    judge(profile, &steps) == Err(said)
                });
                assert!(is_found, "{profile}: {said}");
            }
        }
    }
}
