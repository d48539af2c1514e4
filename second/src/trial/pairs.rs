//! Pairs of SMP calls for request 04: one DISCOVER on two shelves that have in common what the request names, and as
//! little as may be beside it. Some pairs break a premise, mostly one alone, to see that it counts.

use super::call::Call;
use super::profile::Profile;
use super::random::Random;
use super::requests::{group, group_byte};
use crate::tables::{Group, PhyRecord, Record};

const READY: u8 = 0x01;
const PARTICIPATING: u8 = 0x10;

/// The fields of a phy record, from a byte to before another.
type Field = (usize, usize);
const GROUP: Field = (1, 2);
const FIELDS: [Field; 9] = [(0, 1), GROUP, (2, 3), (3, 4), (4, 12), (12, 13), (13, 14), (14, 15), (15, 16)];

/// An SMP call, with its phy table in records.
#[derive(Clone)]
struct Asking {
    profile: Profile,
    phys: Vec<Record>,
    permissions: Vec<u8>,
    phy: usize,
    carried: u32,
    expander_changes: u32,
    phy_changes: u32,
    request: Vec<u8>,
    response: Vec<u8>,
    set: Vec<u8>,
}

impl Asking {
    /// The call must be an SMP call on a phy that the table has.
    fn new(profile: Profile, call: Call) -> Asking {
        let Call::Smp { phys, permissions, phy, carried, expander_changes, phy_changes, request, response, set } = call
        else {
            panic!("pairs are of SMP calls")
        };
        let (phys, phy) = (phys.as_chunks().0.to_vec(), phy as usize);
        Asking { profile, phys, permissions, phy, carried, expander_changes, phy_changes, request, response, set }
    }

    fn into_call(self) -> Call {
        let Asking { phys, permissions, phy, carried, expander_changes, phy_changes, request, response, set, .. } =
            self;
        let (phys, phy) = (phys.as_flattened().to_vec(), phy as u32);
        Call::Smp { phys, permissions, phy, carried, expander_changes, phy_changes, request, response, set }
    }

    fn record(&self, phy: usize) -> PhyRecord {
        PhyRecord::from(&self.phys[phy])
    }

    fn arriving(&mut self) -> &mut Record {
        &mut self.phys[self.phy]
    }

    fn source(&self) -> Option<Group> {
        let arriving = self.record(self.phy);
        if arriving.participating {
            u8::try_from(self.carried).ok().and_then(Group::from_outside)
        } else {
            Some(arriving.group)
        }
    }

    fn is_permitted(&self, phy: usize) -> bool {
        self.reaches(self.record(phy).group)
    }

    fn reaches(&self, group: Group) -> bool {
        self.source().is_some_and(|source| self.profile.permitted(&self.permissions, source, group))
    }

    fn write(&mut self, group: Group, on: bool) {
        if let Some(source) = self.source() {
            self.profile.write(&mut self.permissions, source, group, on);
        }
    }

    fn clear_ignore_bit(&mut self) {
        if let Some(byte_8) = self.request.get_mut(8) {
            *byte_8 &= 0xfe;
        }
    }

    /// The phy that is asked for, where the table has it.
    fn asked(&self) -> Option<usize> {
        self.request.get(9).map(|&byte_9| usize::from(byte_9)).filter(|&phy| phy < self.phys.len())
    }

    /// Asks for this phy, where the request has a place for one.
    fn ask_for(&mut self, phy: usize) {
        if let Some(byte_9) = self.request.get_mut(9) {
            *byte_9 = phy as u8;
        }
    }
}

/// What the second call has otherwise, against request 04's words.
#[derive(Clone, Copy)]
enum Break {
    Nothing,
    /// Of both shelves, which then have the same wrong size.
    RightSizes,
    /// Of the second alone.
    RightSize,
    EqualSizes,
    Counts,
    Buffers,
    Phy,
    Readiness,
    Participation,
    Carried,
    Source,
    Permitted,
    Records,
}

/// The first call is on a ready phy, and mostly with the ignore bit zero; the second is the same on another shelf.
pub fn pair(random: &mut Random, profile: Profile, first: Call) -> [Call; 2] {
    let mut one = Asking::new(profile, first);
    one.arriving()[2] |= READY;
    match random.below(14) {
        0..=1 => one.ask_for(one.phy),
        2 => one.ask_for(one.phys.len() - 1),
        _ => {}
    }
    if random.percent(90) {
        one.clear_ignore_bit();
    }
    if random.percent(3) {
        one.request.truncate(random.between(2, 8));
    }
    let what = what_to_break(random);
    prepare(random, &mut one, what);
    let mut other = elsewhere(random, &one, what);
    break_it(random, &mut one, &mut other, what);
    [one, other].map(Asking::into_call)
}

fn what_to_break(random: &mut Random) -> Break {
    if random.percent(55) {
        return Break::Nothing;
    }
    random.pick(&[
        Break::RightSizes,
        Break::RightSize,
        Break::EqualSizes,
        Break::Counts,
        Break::Buffers,
        Break::Phy,
        Break::Readiness,
        Break::Participation,
        Break::Carried,
        Break::Source,
        Break::Permitted,
        Break::Permitted,
        Break::Records,
        Break::Records,
        Break::Records,
    ])
}

/// What must be so in both for the break to be seen: the phy that is asked for is one that shows it. Where the arriving
/// phy's record is to break one premise alone, it must leave the source group as it is, or be free to change it.
fn prepare(random: &mut Random, one: &mut Asking, what: Break) {
    match what {
        Break::Participation => one.carried = one.record(one.phy).group.number().into(),
        Break::Carried | Break::Source => one.arriving()[0] &= !PARTICIPATING,
        Break::Permitted => one.ask_for(random.below(one.phys.len())),
        Break::Counts | Break::Records => {
            let permitted: Vec<usize> = (0..one.phys.len()).filter(|&phy| one.is_permitted(phy)).collect();
            if !permitted.is_empty() {
                one.ask_for(random.pick(&permitted));
            }
            if let Some(phy) = one.asked().filter(|&phy| phy != one.phy && random.percent(30)) {
                one.phys[phy][2] &= !READY;
            }
        }
        _ => {}
    }
}

/// The same call on another shelf: the phys that are permitted to its source group stay as they are, and so does what
/// the request names of the arriving phy. Other records and other permissions are made up anew, some of them or all.
fn elsewhere(random: &mut Random, one: &Asking, what: Break) -> Asking {
    let mut other = one.clone();
    other.permissions = other_permissions(random, one.profile, &one.permissions);
    if let Break::Source = what {
        other.arriving()[1] = group(random, one.profile);
    }
    let (permitted, hidden): (Vec<usize>, Vec<usize>) = (0..one.phys.len()).partition(|&phy| one.is_permitted(phy));
    let shown: Vec<Group> = permitted.iter().map(|&phy| one.record(phy).group).collect();
    shown.iter().for_each(|&group| other.write(group, true));
    let fields = fields(random);
    for phy in hidden {
        let mut record = other_record(random, &other, phy, &fields);
        let speaks_for_itself = phy == one.phy && !one.record(phy).participating;
        if fields.contains(&GROUP) && !speaks_for_itself {
            record[1] = hidden_group(random, &other, &shown, record[1]);
        }
        other.phys[phy] = record;
        other.write(other.record(phy).group, false);
    }
    other
}

/// Which fields of hidden phys change: all, some, one or none.
fn fields(random: &mut Random) -> Vec<Field> {
    match random.below(12) {
        0 => Vec::new(),
        1..=3 => vec![random.pick(&FIELDS)],
        4..=6 => FIELDS.into_iter().filter(|_| random.percent(40)).collect(),
        _ => FIELDS.to_vec(),
    }
}

fn other_permissions(random: &mut Random, profile: Profile, old: &[u8]) -> Vec<u8> {
    match random.below(8) {
        0 => old.to_vec(),
        1 => profile.fresh_table(),
        2 => vec![random.pick(&[0x00, 0xff]); old.len()],
        3 => old.iter().map(|byte| !byte).collect(),
        4..=5 => {
            let mut table = old.to_vec();
            for _ in 0..random.between(1, 8) {
                table[random.below(old.len())] ^= 1 << random.below(8);
            }
            table
        }
        _ => random.bytes(old.len()),
    }
}

/// A record in which most of these fields are others. The arriving phy stays ready, and participating or not; of a group
/// only the reserved bit is another.
fn other_record(random: &mut Random, shelf: &Asking, phy: usize, fields: &[Field]) -> Record {
    let old = shelf.phys[phy];
    let mut new: Record = random.bytes(old.len()).try_into().expect("16 bytes");
    new[1] = old[1] & 0x7f | new[1] & 0x80;
    match random.below(3) {
        // The address of another phy makes sisters of the two, where both are ready.
        0 => new[4..12].copy_from_slice(&shelf.phys[random.below(shelf.phys.len())][4..12]),
        1 => new[4..12].copy_from_slice(&(shelf.record(phy).address ^ 1 << random.below(64)).to_be_bytes()),
        _ => {}
    }
    if random.percent(50) {
        new[2] = old[2] ^ READY;
    }
    if phy == shelf.phy {
        new[0] = new[0] & !PARTICIPATING | old[0] & PARTICIPATING;
        new[2] |= READY;
    }
    let mut record = old;
    for &(from, to) in fields {
        if random.percent(90) {
            record[from..to].copy_from_slice(&new[from..to]);
        }
    }
    record
}

/// A group byte that the source group need not reach: none of those shown, and one for which the table can say so. Where
/// a few attempts find none, it is the one before.
fn hidden_group(random: &mut Random, shelf: &Asking, shown: &[Group], old: u8) -> u8 {
    let (profile, source) = (shelf.profile, shelf.source());
    let nothing_on = &[0; 2048][..profile.table_size()];
    let can_be_off = |group| source.is_none_or(|source| !profile.permitted(nothing_on, source, group));
    let may_be_hidden = |group| !shown.contains(&group) && can_be_off(group);
    let mut attempts = (0..6).map(|_| group_byte(random, profile));
    attempts.find(|&number| may_be_hidden(Group::low_7_bits(number))).unwrap_or(old)
}

fn break_it(random: &mut Random, one: &mut Asking, other: &mut Asking, what: Break) {
    let arriving = other.phy;
    match what {
        Break::Nothing | Break::Source => {}
        Break::RightSizes => {
            let size = wrong_size(random, one.profile);
            for asking in [one, other] {
                asking.permissions.resize(size, 0);
            }
        }
        Break::RightSize => other.permissions.resize(wrong_size(random, one.profile), 0),
        Break::EqualSizes => {
            let before = other.phys.len();
            change_count(random, other);
            let first_beyond = before.min(other.phys.len());
            for asking in [one, other] {
                asking.ask_for(first_beyond);
            }
        }
        Break::Counts => change_counts(random, other),
        Break::Buffers => change_buffers(random, other),
        Break::Phy => move_caller(random, other),
        Break::Readiness => other.phys[arriving][2] &= !READY,
        Break::Participation => other.phys[arriving][0] ^= PARTICIPATING,
        Break::Carried => {
            let to = [u32::from(random.byte()), other.carried ^ 0x80, other.carried ^ 0x100];
            other.carried = random.pick(&to);
        }
        Break::Permitted => change_permission(other),
        Break::Records => change_record(random, other),
    }
}

fn wrong_size(random: &mut Random, profile: Profile) -> usize {
    let right = profile.table_size();
    random.pick(&[0, right - 1, right + 1, profile.other().table_size()])
}

/// Hidden phys more, or the last ones fewer where they are hidden.
fn change_count(random: &mut Random, shelf: &mut Asking) {
    let last = shelf.phys.len() - 1;
    let may_leave = last > 0 && last != shelf.phy && !shelf.is_permitted(last);
    if may_leave && random.percent(50) {
        shelf.phys.pop();
    } else if shelf.phys.len() < 128 {
        let hidden: Vec<Record> =
            (0..=last).filter(|&phy| !shelf.is_permitted(phy)).map(|phy| shelf.phys[phy]).collect();
        let more = random.between(1, 128 - shelf.phys.len()).min(3);
        if !hidden.is_empty() {
            shelf.phys.extend((0..more).map(|_| random.pick(&hidden)));
        }
    }
}

fn change_counts(random: &mut Random, asking: &mut Asking) {
    match random.below(6) {
        0 => asking.expander_changes ^= 1 << random.below(8),
        1 => asking.expander_changes ^= 1 << random.between(8, 15),
        2..=3 => asking.phy_changes ^= 1 << random.below(8),
        4 => asking.expander_changes ^= 1 << random.between(16, 31),
        _ => asking.phy_changes ^= 1 << random.between(8, 31),
    }
}

/// Less room, or another byte: often the last, which is mostly one that no answer writes.
fn change_buffers(random: &mut Random, asking: &mut Asking) {
    let buffer = if random.percent(50) { &mut asking.response } else { &mut asking.set };
    if random.percent(30) {
        let size = buffer.len().saturating_sub(random.between(1, 14));
        buffer.truncate(size);
    } else if !buffer.is_empty() {
        let last = buffer.len() - 1;
        let place = if random.percent(70) { last } else { random.below(last + 1) };
        buffer[place] ^= 1 << random.below(8);
    }
}

/// Another phy on which the same group speaks. Where it is hidden, its record becomes such a one.
fn move_caller(random: &mut Random, shelf: &mut Asking) {
    let (phy, arriving) = (random.below(shelf.phys.len()), shelf.phys[shelf.phy]);
    if !shelf.is_permitted(phy) {
        let record = &mut shelf.phys[phy];
        record[0] = record[0] & !PARTICIPATING | arriving[0] & PARTICIPATING;
        record[1] = arriving[1];
        record[2] |= READY;
    }
    shelf.phy = phy;
}

/// The phy that is asked for becomes a permitted one, or a hidden one where it was permitted.
fn change_permission(shelf: &mut Asking) {
    if let Some(phy) = shelf.asked() {
        shelf.write(shelf.record(phy).group, !shelf.is_permitted(phy));
    }
}

/// The record of the phy that is asked for changes in one field, but stays one that the source group reaches.
fn change_record(random: &mut Random, shelf: &mut Asking) {
    let Some(phy) = shelf.asked() else {
        return;
    };
    let old = shelf.record(phy).group;
    let mut attempts = (0..12).map(|_| Group::low_7_bits(group(random, shelf.profile)));
    let other_group = attempts.find(|&group| group != old && shelf.reaches(group)).unwrap_or(old);
    let record = &mut shelf.phys[phy];
    match random.below(9) {
        0 => record[0] ^= PARTICIPATING,
        1 => record[1] = other_group.number(),
        2 => record[2] ^= READY,
        3 => record[random.between(4, 11)] ^= 1 << random.below(8),
        4 => record[12] ^= 1 << random.below(3),
        5 => record[13] ^= 1 << random.below(8),
        6 => record[random.pick(&[3, 14, 15])] ^= 1 << random.below(8),
        7 => record[0] ^= 1 << random.pick(&[0, 3, 5, 7]),
        _ => record[random.below(16)] ^= 1 << random.below(8),
    }
}

#[cfg(test)]
mod tests {
    use super::super::alike::Pair;
    use super::super::shelf::Shelf;
    use super::*;

    /// One DISCOVER on a shelf, by a caller whose phy is ready.
    fn asking(random: &mut Random, profile: Profile) -> Asking {
        let Shelf { phys, permissions, .. } = &Shelf::random(random, profile);
        let phys: Vec<Record> = phys.as_chunks().0.to_vec();
        let mut one = Asking {
            profile,
            permissions: permissions.clone(),
            phy: random.below(phys.len()),
            phys,
            carried: random.byte().into(),
            expander_changes: 0,
            phy_changes: 0,
            request: vec![0x40, 0x10, 0, 2, 0, 0, 0, 0, 0, 0, 0, 0],
            response: vec![0; 1020],
            set: vec![0; 16],
        };
        one.arriving()[2] |= READY;
        one
    }

    #[test]
    fn another_shelf_is_alike_and_mostly_another() {
        let mut random = Random::new(1);
        for profile in Profile::ALL {
            let mut others = 0;
            for _ in 0..1_000 {
                let one = asking(&mut random, profile);
                let other = elsewhere(&mut random, &one, Break::Nothing);
                others += u64::from(one.phys != other.phys && one.permissions != other.permissions);
                let calls = [one, other].map(Asking::into_call);
                let [of_one, of_other] = [0, 1].map(|i| calls[i].model(profile));
                let pair = Pair { calls: [&calls[0], &calls[1]], answers: [&of_one, &of_other] };
                assert_eq!(pair.broken(profile), [], "{profile}: {calls:x?}");
            }
            assert!(others > 500, "{profile}: {others}");
        }
    }
}
