//! Round trips: the console builds a request, a shelf answers it, and the console reads the response; at times the rows of
//! a report go back to the shelf as a batch. Each step is compared with the model like any call. Here the library's own
//! answers are asked for what request 06 promises of them together, without a look at the model's console.

use super::super::arrival::{Arrival, Classes};
use super::super::call::{Answer, Call};
use super::super::profile::Profile;
use super::super::random::Random;
use super::super::requests::group;
use super::super::shelf::Shelf;
use super::choices::{batch, damage_fairness, order, phy_zones, report, request_buffer, rows_buffer, single};
use super::classes;
use super::responses::response;
use super::Console;
use crate::console::ENTRY;
use crate::smp::{CONFIGURE_PHY_ZONE, CONFIGURE_ZONE_PERMISSION, REPORT_ZONE_PERMISSION};
use crate::tables::{Group, PhyRecord, Record, GROUPS};

pub type Steps = Vec<(Call, Answer)>;

const FAILED: u64 = 0x02;
const INVALID_LENGTH: u64 = 0x03;
const TURNED_DOWN: u64 = 24;

/// Calls that follow one another, with the model's answers. The shelf goes on with the tables that they leave behind.
pub fn trip(random: &mut Random, shelf: &mut Shelf) -> Steps {
    let mut steps = Vec::new();
    match random.below(13) {
        0..=1 => packed_otherwise(random, shelf.profile, &mut steps),
        2..=3 => some_request_gets_it(random, shelf.profile, &mut steps),
        4..=5 => there_and_back(random, shelf, &mut steps),
        6..=7 => {
            let zones = phy_zones(random, shelf.profile, shelf.count());
            there(random, shelf, zones, &mut steps);
        }
        8..=9 => {
            let rows = batch(random, shelf.profile);
            there(random, shelf, rows, &mut steps);
        }
        10 => {
            let report = report(random);
            there(random, shelf, report, &mut steps);
        }
        11 => {
            let one = single(random, shelf.profile);
            there(random, shelf, one, &mut steps);
        }
        _ => {
            let order = order(random, shelf.profile);
            there(random, shelf, order, &mut steps);
        }
    }
    steps
}

pub fn step(profile: Profile, call: Call, steps: &mut Steps) -> Answer {
    let answer = call.model(profile);
    steps.push((call, answer.clone()));
    answer
}

/// Built, answered and read. A refusal ends it.
fn there(random: &mut Random, shelf: &mut Shelf, order: Console, steps: &mut Steps) -> Option<Answer> {
    let built = step(shelf.profile, Call::Console(order), steps);
    let request = built_request(&built)?.to_vec();
    let (phy, carried) = shelf.speaker(random, 80);
    let call = Call::Smp {
        phys: shelf.phys.clone(),
        permissions: shelf.permissions.clone(),
        phy: phy as u32,
        carried: carried.into(),
        expander_changes: random.below(65_536) as u32,
        phy_changes: random.byte().into(),
        request,
        response: random.bytes(1020),
        set: random.bytes(16),
    };
    let answered = step(shelf.profile, call, steps);
    let response = given_response(&answered)?.to_vec();
    shelf.phys.clone_from(&answered.buffers[0]);
    shelf.permissions.clone_from(&answered.buffers[1]);
    let read = Console::Read { response, rows: rows_buffer(random) };
    Some(step(shelf.profile, Call::Console(read), steps)).filter(|heard| heard.refusal() == 0)
}

/// The bytes that were built.
fn built_request(built: &Answer) -> Option<&[u8]> {
    (built.refusal() == 0).then(|| &built.buffers[0][..built.fields[1] as usize])
}

/// The bytes that a shelf gave.
fn given_response(answered: &Answer) -> Option<&[u8]> {
    (answered.refusal() == 0).then(|| &answered.buffers[2][..answered.fields[2] as usize])
}

/// Rows are reported, read, and sent back as they were read.
fn there_and_back(random: &mut Random, shelf: &mut Shelf, steps: &mut Steps) {
    if random.percent(60) {
        shelf.permissions = mutual_table(random, shelf.profile);
    }
    let groups = shelf.profile.groups_of_table();
    let first = random.between(2, groups - 1);
    let count = random.between(0, (groups - first).min(63)) as u32;
    let report = Console::Report { request: request_buffer(random), first_group: first as u32, count };
    let Some(heard) = there(random, shelf, report, steps) else {
        return;
    };
    let [_, _, _, start, count] = heard.fields;
    let choices = heard.buffers[0][..GROUPS * count as usize].to_vec();
    let request = request_buffer(random);
    let complete = random.below(2) as u32;
    there(random, shelf, Console::Batch { request, first_group: start as u32, choices, complete }, steps);
}

pub fn mutual_table(random: &mut Random, profile: Profile) -> Vec<u8> {
    let mut table = profile.fresh_table();
    for _ in 0..random.between(1, 60) {
        let [a, b] = [0, 1].map(|_| Group::low_7_bits(group(random, profile).max(2)));
        profile.write(&mut table, a, b, true);
        profile.write(&mut table, b, a, true);
    }
    table
}

/// An order, and then the same order packed here, whether it was refused or not, on a shelf with all phys that one can have.
fn packed_otherwise(random: &mut Random, profile: Profile, steps: &mut Steps) {
    let mut order = order(random, profile);
    if random.percent(40) {
        damage_fairness(random, &mut order);
    }
    let built = step(profile, Call::Console(order.clone()), steps);
    if matches!(built.refusal(), 0 | TURNED_DOWN) {
        step(profile, on_a_plain_shelf(profile, 128, 0, pack(&order)), steps);
    }
}

/// A response that is read, and then a request that gets its length and its bytes 0 to 7.
fn some_request_gets_it(random: &mut Random, profile: Profile, steps: &mut Steps) {
    let response = response(random);
    let read = Console::Read { response: response.clone(), rows: rows_buffer(random) };
    let heard = step(profile, Call::Console(read), steps);
    if heard.refusal() == 0 {
        step(profile, request_for(profile, &response), steps);
    }
}

/// The shelf as at start-up: phy 1 is in group 2, which has no right to change zoning, and all others are in group 1.
fn on_a_plain_shelf(profile: Profile, phys: usize, phy: u32, request: Vec<u8>) -> Call {
    let record = |phy| [0, if phy == 1 { 2 } else { 1 }, 0b11, 0, 0x50, 0, 0, 0, 0, 0, 0, phy as u8, 1, 0, 0, 0];
    Call::Smp {
        phys: (0..phys).flat_map(record).collect(),
        permissions: profile.fresh_table(),
        phy,
        carried: 0,
        expander_changes: 0,
        phy_changes: 0,
        request,
        response: vec![0xa5; 1020],
        set: vec![0xa5; 16],
    }
}

/// A request that is answered with these first bytes: for each result the shortest one that gets it. Where a program reads a
/// response that is none, bytes may be missing.
fn request_for(profile: Profile, response: &[u8]) -> Call {
    let byte = |place| response.get(place).copied().unwrap_or(0);
    let (function, result) = (byte(1), byte(2));
    let no_right = if function == CONFIGURE_PHY_ZONE { 0x02 } else { 0x01 };
    let short = vec![0x40, function, 0, 0];
    let request = match (function, result) {
        (_, 0x03) => short,
        (CONFIGURE_PHY_ZONE, 0x10) => vec![0x40, 0x93, 0, 2, 0, 0, 127, 1, 0, 0, 0, 0],
        (CONFIGURE_PHY_ZONE, _) => vec![0x40, 0x93, 0, 1, 0, 0, 0, 0],
        (CONFIGURE_ZONE_PERMISSION, 0x02) => vec![0x40, 0xc1, 0, 2, 0, 0, 0, 0, 0, 0x80, 0, 0],
        (CONFIGURE_ZONE_PERMISSION, 0x11) => vec![0x40, 0xc1, 0, 2, 0, 0, 0, 0, 0, 0x90, 129, 0],
        (CONFIGURE_ZONE_PERMISSION, _) => vec![0x40, 0xc1, 0, 2, 0, 0, 2, 3, 0, 0x80, 0, 0],
        (_, 0x11) => vec![0x40, 0x51, 0, 1, 0, 0, 128, 0],
        (_, 0x00) => vec![0x40, 0x51, 0, 1, 0, 0, byte(6), byte(7)],
        _ => vec![0x40, 0x51, 0, 1, 0, 0, 0, 0],
    };
    on_a_plain_shelf(profile, 2, u32::from(result == no_right), request)
}

/// An order as document 01 has its bytes, by each byte's place. Its numbers are good and its list is whole.
fn pack(order: &Console) -> Vec<u8> {
    match order {
        Console::PhyZones { first_phy, entries, .. } => {
            let entries = entries.as_chunks::<ENTRY>().0;
            let k = entries.len();
            let mut request = vec![0; 8 + 2 * k + 2 * (k % 2)];
            request[..2].copy_from_slice(&[0x40, 0x93]);
            request[3] = (request.len() / 4 - 1) as u8;
            request[6] = *first_phy as u8;
            request[7] = k as u8;
            for (i, [participating, priority, group]) in entries.iter().enumerate() {
                request[8 + 2 * i] = if *participating == 0 { *priority } else { 16 + priority };
                request[9 + 2 * i] = *group;
            }
            request
        }
        Console::Single { a, b, on, complete, .. } => {
            let [new_value, last_bit] = [*on, *complete].map(|number| u8::from(number > 0));
            vec![0x40, 0xc1, 0, 2, 0, 0, *a as u8, *b as u8 + 128 * new_value, 0, 0x80 + last_bit, 0, 0]
        }
        Console::Batch { first_group, choices, complete, .. } => {
            let k = choices.len() / GROUPS;
            let operation = 0x90 + u8::from(*complete > 0);
            let mut request =
                vec![0x40, 0xc1, 0, (2 + 4 * k) as u8, 0, 0, 0, 0, 0, operation, *first_group as u8, k as u8];
            for row in choices.chunks(GROUPS) {
                let on = (0..GROUPS).filter(|&j| row[j] > 0);
                let number: u128 = on.map(|j| 1 << j).sum();
                request.extend(number.to_be_bytes());
            }
            request
        }
        Console::Report { first_group, count, .. } => {
            vec![0x40, 0x51, 0, 1, 0, 0, *first_group as u8, *count as u8]
        }
        Console::Read { .. } => Vec::new(),
    }
}

/// A trip's calls with the library's answers.
pub struct Trip<'a> {
    pub calls: Vec<&'a Call>,
    pub answers: Vec<&'a Answer>,
}

/// What is wrong with a trip.
pub type Complaint = Result<(), &'static str>;

pub fn ask(holds: bool, otherwise: &'static str) -> Complaint {
    if holds {
        Ok(())
    } else {
        Err(otherwise)
    }
}

impl<'a> Trip<'a> {
    pub fn judge(&self, profile: Profile) -> Complaint {
        match (self.calls.as_slice(), self.answers.as_slice()) {
            ([Call::Console(Console::Read { response, .. }), _], [heard, answered]) => {
                ask(heard.refusal() != 0 || has_head_of(answered, response), "no shelf gives what was read")
            }
            ([Call::Console(order), Call::Smp { .. }], [built, answered]) => {
                judge_packed(profile, built, answered, &pack(order))
            }
            _ => {
                let ways = self.ways(profile);
                ways.iter().try_for_each(Way::judge)?;
                match ways.as_slice() {
                    [there, back] => judge_sent_back(there, back),
                    _ => Ok(()),
                }
            }
        }
    }

    pub fn classes(&self, profile: Profile) -> Classes {
        match (self.calls.as_slice(), self.answers.as_slice()) {
            ([Call::Console(Console::Read { response, .. }), _], _) => classes::some_request_got(response),
            ([Call::Console(_), Call::Smp { .. }], [built, answered]) => classes::packed(built, answered),
            _ => {
                let ways = self.ways(profile);
                let mut classes = ways.first().map(|way| classes::went(profile, way)).unwrap_or_default();
                if let [_, back] = ways.as_slice() {
                    classes.extend(classes::sent_back(back));
                }
                classes
            }
        }
    }

    /// The orders that went all the way.
    fn ways(&self, profile: Profile) -> Vec<Way<'a>> {
        let calls = self.calls.chunks_exact(3).zip(self.answers.chunks_exact(3));
        calls.filter_map(|(calls, answers)| Way::new(profile, calls, answers)).collect()
    }
}

/// The same order packed elsewhere has the same bytes, and 24 is given exactly where a shelf answers 02h.
fn judge_packed(profile: Profile, built: &Answer, answered: &Answer, request: &[u8]) -> Complaint {
    let failed = answered.fields[1] == FAILED;
    match built_request(built) {
        Some(built) => {
            ask(built == request, "what was built is not the order")?;
            ask(profile == Profile::Small || !failed, "02h for what was not refused")
        }
        None => ask(failed, "24 for what is not answered 02h"),
    }
}

fn has_head_of(answered: &Answer, response: &[u8]) -> bool {
    let head = |bytes: &[u8]| bytes[..bytes.len().min(8)].to_vec();
    given_response(answered).is_some_and(|given| given.len() == response.len() && head(given) == head(response))
}

/// One order that was built, answered and read.
pub struct Way<'a> {
    pub order: &'a Console,
    pub arrival: Arrival<'a>,
    pub answered: &'a Answer,
    built: &'a Answer,
    request: &'a [u8],
    response: &'a [u8],
    rows_before: &'a [u8],
    heard: &'a Answer,
}

impl<'a> Way<'a> {
    fn new(profile: Profile, calls: &[&'a Call], answers: &[&'a Answer]) -> Option<Way<'a>> {
        let (&[order, smp, read], &[built, answered, heard]) = (calls, answers) else {
            return None;
        };
        let arrival = Arrival::of(profile, smp)?;
        match (order, smp, read) {
            (
                Call::Console(order),
                Call::Smp { request, .. },
                Call::Console(Console::Read { response, rows: rows_before }),
            ) => Some(Way { order, arrival, answered, built, request, response, rows_before, heard }),
            _ => None,
        }
    }

    pub fn result(&self) -> u64 {
        self.answered.fields[1]
    }

    fn judge(&self) -> Complaint {
        ask(built_request(self.built) == Some(self.request), "another request was sent than was built")?;
        ask(self.request == pack(self.order), "what was built is not the order")?;
        ask(given_response(self.answered) == Some(self.response), "another response was read than was given")?;
        self.judge_result()?;
        self.judge_phys()?;
        self.judge_permissions()?;
        self.judge_told()?;
        self.judge_heard()
    }

    fn judge_result(&self) -> Complaint {
        let (right, result) = (self.arrival.may_change_zoning(), self.result());
        let is_large = self.arrival.profile == Profile::Large;
        ask(result != INVALID_LENGTH, "03h for what was built")?;
        ask(!right || !is_large || result != FAILED, "02h for what was built, though the caller has the right")?;
        ask(result == self.result_of_choices(right), "another result than the choices get")
    }

    /// What the header says a built request can get.
    fn result_of_choices(&self, right: bool) -> u64 {
        let groups = self.arrival.profile.groups_of_table();
        match self.order {
            Console::PhyZones { .. } if !right => 0x02,
            _ if !right => 0x01,
            Console::PhyZones { first_phy, entries, .. } => {
                let entries = entries.as_chunks::<ENTRY>().0;
                if *first_phy as usize + entries.len() > self.arrival.phys.len() {
                    0x10
                } else if entries.iter().any(|entry| usize::from(entry[2]) >= groups) {
                    0x02
                } else {
                    0x00
                }
            }
            Console::Single { a, b, .. } if *a.max(b) as usize >= groups => 0x02,
            Console::Batch { first_group, choices, .. } => {
                let (first, k) = (*first_group as usize, choices.len() / GROUPS);
                if first + k > GROUPS {
                    0x11
                } else if k > 0 && first + k > groups {
                    0x02
                } else {
                    0x00
                }
            }
            _ => 0x00,
        }
    }

    fn is_accepted(&self) -> bool {
        self.result() == 0
    }

    /// The phy table is as before, but for what an accepted order names.
    fn judge_phys(&self) -> Complaint {
        let after: &[Record] = self.answered.buffers[0].as_chunks().0;
        let named = |phy: usize| match self.order {
            Console::PhyZones { first_phy, entries, .. } if self.is_accepted() => {
                let place = phy.checked_sub(*first_phy as usize)?;
                entries.as_chunks::<ENTRY>().0.get(place)
            }
            _ => None,
        };
        let is_right = |phy: usize| {
            let (before, after) = (&self.arrival.phys[phy], &after[phy]);
            match named(phy) {
                Some(&[participating, priority, group]) => {
                    let record = PhyRecord::from(after);
                    after[2..] == before[2..]
                        && (record.participating, record.priority) == (participating != 0, priority)
                        && (after[0] >> 5, after[1]) == (0, group)
                }
                None => after == before,
            }
        };
        ask(
            after.len() == self.arrival.phys.len() && (0..after.len()).all(is_right),
            "the phys are not what was chosen",
        )
    }

    /// P(a, b) is as before, but for what an accepted order names.
    fn judge_permissions(&self) -> Complaint {
        let Arrival { profile, permissions: before, .. } = self.arrival;
        let after = self.answered.buffers[1].as_slice();
        if !self.is_accepted() || matches!(self.order, Console::PhyZones { .. } | Console::Report { .. }) {
            return ask(before == after, "permissions changed, but no order of any was accepted");
        }
        let groups = profile.groups_of_table();
        let is_right = |(a, b)| {
            let [low, high] = [a, b].map(|group| Group::low_7_bits(group as u8));
            let expected = self.names(a, b).unwrap_or_else(|| profile.permitted(before, low, high));
            profile.permitted(after, low, high) == expected
        };
        let mut pairs = (0..groups).flat_map(|a| (0..groups).map(move |b| (a, b)));
        ask(pairs.all(is_right), "the permissions are not what was chosen")
    }

    /// What the order says of P(a, b). Of two rows of a batch the later one counts, which is that of the greater group.
    fn names(&self, a: usize, b: usize) -> Option<bool> {
        let (low, high) = (a.min(b), a.max(b));
        match self.order {
            Console::Single { a, b, on, .. } => {
                let pair = (*a.min(b) as usize, *a.max(b) as usize);
                (pair == (low, high)).then_some(*on != 0)
            }
            Console::Batch { first_group, choices, .. } if low >= 2 => {
                let rows: &[[u8; GROUPS]] = choices.as_chunks().0;
                let row = |group: usize| rows.get(group.checked_sub(*first_group as usize)?);
                row(high).map(|row| row[low] != 0).or_else(|| row(low).map(|row| row[high] != 0))
            }
            _ => None,
        }
    }

    /// All ready phys are told of zones, and of permissions where UPDATE COMPLETE was chosen.
    fn judge_told(&self) -> Complaint {
        let ready = self.arrival.phys.iter().filter(|record| PhyRecord::from(*record).ready).count() as u64;
        let complete = match self.order {
            Console::PhyZones { .. } => true,
            Console::Single { complete, .. } | Console::Batch { complete, .. } => *complete != 0,
            _ => false,
        };
        let told = if self.is_accepted() && complete { ready } else { 0 };
        ask(self.answered.fields[3] == told, "others are told than was chosen")
    }

    /// The response is read as what it is, and a report's rows as P.
    fn judge_heard(&self) -> Complaint {
        let function = match self.order {
            Console::PhyZones { .. } => CONFIGURE_PHY_ZONE,
            Console::Report { .. } => REPORT_ZONE_PERMISSION,
            _ => CONFIGURE_ZONE_PERMISSION,
        };
        let (start, count) = match self.order {
            Console::Report { first_group, count, .. } if self.is_accepted() => {
                (u64::from(*first_group), u64::from(*count).min(128 - u64::from(*first_group)))
            }
            _ => (0, 0),
        };
        let heard = [0, function.into(), self.result(), start, count];
        ask(self.heard.fields == heard, "the response was read as another")?;
        let (rows, rest) = self.heard.buffers[0].split_at(GROUPS * count as usize);
        ask(rest == &self.rows_before[rows.len()..], "more than the rows was written")?;
        let reaches = |a: usize, b: usize| {
            let [a, b] = [a, b].map(|group| Group::low_7_bits(group as u8));
            self.arrival.would_reach(a, b)
        };
        let is_p =
            |(place, byte): (usize, &u8)| *byte == u8::from(reaches(start as usize + place / GROUPS, place % GROUPS));
        ask(rows.iter().enumerate().all(is_p), "the rows that were read are not P")
    }

    /// Whether every two groups that an order may name reach each other or do not.
    pub fn was_mutual(&self) -> bool {
        let groups = (2..self.arrival.profile.groups_of_table()).map(|group| Group::low_7_bits(group as u8));
        let is_mutual = |a, b| self.arrival.would_reach(a, b) == self.arrival.would_reach(b, a);
        groups.clone().all(|a| groups.clone().all(|b| is_mutual(a, b)))
    }

    pub fn changed_permissions(&self) -> bool {
        self.answered.buffers[1] != self.arrival.permissions
    }
}

/// Rows that go back as they were read leave a mutual table as it was. Of any other table `names` tells what they leave.
fn judge_sent_back(there: &Way, back: &Way) -> Complaint {
    let is_as_read = match back.order {
        Console::Batch { choices, .. } => there.heard.buffers[0].starts_with(choices),
        _ => false,
    };
    ask(is_as_read, "other rows went back than were read")?;
    ask(!back.was_mutual() || !back.changed_permissions(), "rows that went back changed a mutual table")
}

#[cfg(test)]
mod tests {
    use super::*;

    /// What model and library could both get wrong in a trip's answers, and what is then said of it.
    type Mistake = fn(&mut Steps);
    const MISTAKES: [(&str, Mistake); 13] = [
        ("03h for what was built", |steps| steps[1].1.fields[1] = 0x03),
        ("02h for what was built, though the caller has the right", |steps| steps[1].1.fields[1] = 0x02),
        ("another result than the choices get", |steps| steps[1].1.fields[1] ^= 0x11),
        ("another request was sent than was built", |steps| steps[0].1.buffers[0][6] ^= 1),
        ("what was built is not the order", |steps| {
            let last = steps[0].1.fields[1] as usize - 1;
            steps[0].1.buffers[0][last] ^= 1;
            if let Call::Smp { request, .. } = &mut steps[1].0 {
                request[last] ^= 1;
            }
        }),
        ("the phys are not what was chosen", |steps| steps[1].1.buffers[0][1] ^= 1),
        ("the permissions are not what was chosen", |steps| steps[1].1.buffers[1][5] ^= 0x10),
        ("permissions changed, but no order of any was accepted", |steps| steps[1].1.buffers[1][5] ^= 0x10),
        ("others are told than was chosen", |steps| steps[1].1.fields[3] ^= 1),
        ("the response was read as another", |steps| steps[2].1.fields[0] = 25),
        ("the rows that were read are not P", |steps| {
            let count = steps[2].1.fields[4] as usize;
            steps[2].1.buffers[0][..GROUPS * count]
                .as_chunks_mut::<GROUPS>()
                .0
                .iter_mut()
                .for_each(|row| row.reverse());
        }),
        ("more than the rows was written", |steps| *steps[2].1.buffers[0].last_mut().unwrap() ^= 1),
        ("rows that went back changed a mutual table", |steps| {
            // Between the two the shelf has forgotten whether the first group reaches itself.
            if let [(Call::Console(Console::Report { first_group, .. }), _), .., (Call::Smp { permissions, .. }, _), _] =
                steps.as_mut_slice()
            {
                let (group, width) = (*first_group as usize, if permissions.len() == 2048 { 16 } else { 1 });
                let row = permissions.as_mut_slice().chunks_mut(width).nth(group);
                row.into_iter().for_each(|row| row[width - 1 - group / 8] ^= 1 << (group % 8));
            }
        }),
    ];

    fn judge(profile: Profile, steps: &Steps) -> Complaint {
        let (calls, answers) = steps.iter().map(|(call, answer)| (call, answer)).unzip();
        Trip { calls, answers }.judge(profile)
    }

    /// The same for an order that is packed otherwise as well, and for a response that some request gets.
    const MISTAKES_IN_TWO_STEPS: [(&str, Mistake); 3] = [
        ("no shelf gives what was read", |steps| steps[1].1.buffers[2][0] ^= 1),
        ("24 for what is not answered 02h", |steps| steps[1].1.fields[1] = 0),
        ("02h for what was not refused", |steps| steps[1].1.fields[1] = FAILED),
    ];

    fn trips(profile: Profile, has_this_length: fn(usize) -> bool) -> Vec<Steps> {
        let mut random = Random::new(1);
        let mut trips = Vec::new();
        for _ in 0..40 {
            let mut shelf = Shelf::random(&mut random, profile);
            trips.extend((0..10).map(|_| trip(&mut random, &mut shelf)).filter(|steps| has_this_length(steps.len())));
        }
        trips
    }

    /// 02h is no mistake on the small shelf.
    fn each_is_found(profile: Profile, trips: &[Steps], mistakes: &[(&str, Mistake)]) {
        assert!(trips.len() > 50);
        assert!(trips.iter().all(|steps| judge(profile, steps).is_ok()));
        for (said, mistake) in mistakes {
            let is_found = trips.iter().any(|steps| {
                let mut steps = steps.clone();
                mistake(&mut steps);
                judge(profile, &steps) == Err(said)
            });
            assert!(is_found || profile == Profile::Small && said.starts_with("02h"), "{profile}: {said}");
        }
    }

    #[test]
    fn each_mistake_is_found() {
        for profile in Profile::ALL {
            each_is_found(profile, &trips(profile, |steps| steps % 3 == 0), &MISTAKES);
            each_is_found(profile, &trips(profile, |steps| steps == 2), &MISTAKES_IN_TWO_STEPS);
        }
    }
}
