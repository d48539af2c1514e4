//! Request 04 on pairs of SMP calls: whether two that are alike got the same bytes, and the classes of pairs. A pair may
//! be in several of these classes, or in none.

use super::apart;
use super::arrival::{that_apply, Arrival, Classes};
use super::call::{Answer, Call};
use super::discover::counts_fit;
use super::profile::Profile;
use crate::alike::{broken, is_spoken_of, Caller, Premise};
use crate::smp::REQUEST_TYPE;
use crate::tables::{PhyRecord, Record, LARGE, SMALL};

/// All classes that a run must reach on either shelf, by call.
pub const REQUIRED: [(&str, &[&str]); 3] = [("smp", &ALIKE), ("smp", &HIDDEN), ("smp", &SHOWN)];

/// Those that a run on the small shelf must reach as well.
pub const REQUIRED_OF_SMALL: [(&str, &[&str]); 1] = [("smp", &ABOVE_7)];

/// Of two that are alike and of which request 04 speaks, on shelves that are not the same: by what became of both.
const ALIKE: [&str; 19] = [
    "alike, 00h",
    "alike, 03h",
    "alike, 10h",
    "alike, 16h",
    "alike, refused 3",
    "alike, refused 4",
    "alike, refused 5, byte 0",
    "alike, refused 5, no byte",
    "alike, refused 5, no group",
    "alike, refused 5, a count too wide",
    "alike, 03h the length",
    "alike, 03h no byte 8",
    "alike, 03h byte 3 of a hidden phy",
    "alike, 10h byte 9 is the number of phys",
    "alike, 10h low 7 bits of byte 9 are a phy",
    "alike, one phy",
    "alike, 128 phys",
    "alike, all phys hidden",
    "alike, a carried byte that is not read",
];

/// Of two that were both answered 16h, by what differs.
const HIDDEN: [&str; 25] = [
    "alike, 16h participating",
    "alike, 16h not participating",
    "alike, 16h another address",
    "alike, 16h another group",
    "alike, 16h another device type",
    "alike, 16h another attached phy",
    "alike, 16h ready in one alone",
    "alike, 16h participating in one alone",
    "alike, 16h reserved bits alone",
    "alike, 16h readiness alone",
    "alike, 16h group alone",
    "alike, 16h all fields",
    "alike, 16h the same record, other things differ",
    "alike, 16h the last phy",
    "alike, 16h phy 127",
    "alike, 16h the arriving phy",
    "alike, 16h the arriving phy, another address",
    "alike, 16h the arriving phy, another group",
    "alike, 16h of the source group in one alone",
    "alike, 16h P the other way round in one alone",
    "alike, 16h the right in one alone",
    "alike, 16h the source group's row differs",
    "alike, 16h other rows differ",
    "alike, 16h permissions alone differ",
    "alike, 16h one phy shown, others not",
];

/// The same for 00h. What differs is elsewhere.
const SHOWN: [&str; 20] = [
    "alike, 00h participating",
    "alike, 00h not participating",
    "alike, 00h ready",
    "alike, 00h not ready",
    "alike, 00h not ready, an address in the record",
    "alike, 00h the last phy",
    "alike, 00h phy 127",
    "alike, 00h the arriving phy",
    "alike, 00h the arriving phy's record differs",
    "alike, 00h the arriving phy in another group",
    "alike, 00h a hidden record differs",
    "alike, 00h all other phys hidden, all differ",
    "alike, 00h a sister in one alone",
    "alike, 00h P the other way round in one alone",
    "alike, 00h the right in one alone",
    "alike, 00h the source group's row differs",
    "alike, 00h other rows differ",
    "alike, 00h permissions alone differ",
    "alike, 00h of the source group",
    "alike, 00h reserved bits of the record",
];

/// Of two that are alike on the small shelf, where a group is above 7.
const ABOVE_7: [&str; 8] = [
    "alike, 16h a group above 7 in one alone",
    "alike, 16h two groups above 7",
    "alike, 16h source group above 7",
    "alike, 00h source group above 7",
    "alike, 00h a group above 7",
    "alike, 00h a hidden group above 7 in one alone",
    "alike, 16h source above 7, its row modulo 8 differs",
    "alike, 16h P modulo 8 on in one alone",
];

/// Two SMP calls with their answers.
pub struct Pair<'a> {
    pub calls: [&'a Call; 2],
    pub answers: [&'a Answer; 2],
}

impl Pair<'_> {
    /// Whether the premises and the request are such that both must get the same bytes.
    pub fn must_agree(&self, profile: Profile) -> bool {
        self.is_spoken_of() && self.broken(profile).is_empty()
    }

    /// Whether both got the same answer and the same bytes in response and set.
    pub fn agrees(&self) -> bool {
        let [one, other] = self.answers;
        one.fields == other.fields && one.buffers[2..] == other.buffers[2..]
    }

    /// Whether these are the two refusals, in either order. 0 is none.
    pub fn are_refused(&self, refusals: [u64; 2]) -> bool {
        let [one, other] = self.answers.map(Answer::refusal);
        refusals == [one, other] || refusals == [other, one]
    }

    /// Whether both were answered, with these two results in either order.
    pub fn are_answered(&self, results: [u64; 2]) -> bool {
        let [one, other] = self.answers.map(|answer| answer.fields[1]);
        self.are_refused([0, 0]) && (results == [one, other] || results == [other, one])
    }

    fn is_spoken_of(&self) -> bool {
        let [one, other] = self.calls.map(request);
        one == other && is_spoken_of(one)
    }

    pub fn broken(&self, profile: Profile) -> Vec<Premise> {
        let [one, other] = self.calls.map(caller);
        match profile {
            Profile::Large => broken::<LARGE>(&one, &other),
            Profile::Small => broken::<SMALL>(&one, &other),
        }
    }
}

pub fn caller(call: &Call) -> Caller<'_> {
    let Call::Smp { phys, permissions, phy, carried, expander_changes, phy_changes, response, set, .. } = call else {
        panic!("pairs are of SMP calls")
    };
    Caller {
        phys,
        permissions,
        phy: *phy,
        carried: *carried,
        expander_changes: *expander_changes,
        phy_changes: *phy_changes,
        response,
        set,
    }
}

pub fn request(call: &Call) -> &[u8] {
    let Call::Smp { request, .. } = call else { panic!("pairs are of SMP calls") };
    request
}

fn records<'a>(caller: &Caller<'a>) -> &'a [Record] {
    caller.phys.as_chunks().0
}

/// The classes of a pair.
pub fn classes(profile: Profile, pair: &Pair) -> Classes {
    let [one, other] = pair.calls.map(caller);
    let is_one_shelf = (one.phys, one.permissions) == (other.phys, other.permissions);
    match (pair.broken(profile).as_slice(), pair.is_spoken_of()) {
        ([], true) if is_one_shelf => Vec::new(),
        ([], true) => alike(profile, pair),
        ([], false) => apart::with_ignore_bit(profile, pair),
        (broken, true) => apart::classes(profile, pair, broken),
        _ => Vec::new(),
    }
}

/// Both calls of a pair that was not refused. Who is speaking is the same in both.
pub struct Both<'a> {
    one: Arrival<'a>,
    other: Arrival<'a>,
    request: &'a [u8],
}

pub fn both<'a>(profile: Profile, pair: &Pair<'a>) -> Option<Both<'a>> {
    let [one, other] = pair.calls.map(|call| Arrival::of(profile, call));
    Some(Both { one: one?, other: other?, request: request(pair.calls[0]) })
}

impl Both<'_> {
    /// The phy that is asked for, in a request that is long enough.
    pub fn asked(&self) -> usize {
        usize::from(self.request[9])
    }

    pub fn bytes(&self, phy: usize) -> [&Record; 2] {
        [&self.one.phys[phy], &self.other.phys[phy]]
    }

    pub fn records(&self, phy: usize) -> [PhyRecord; 2] {
        self.bytes(phy).map(PhyRecord::from)
    }

    /// Whether something is so in one of the two alone.
    fn in_one_alone(&self, is: impl Fn(&Arrival) -> bool) -> bool {
        is(&self.one) != is(&self.other)
    }

    pub fn is_permitted(&self, phy: usize) -> bool {
        self.one.reaches(self.one.record(phy).group)
    }

    /// The hidden phys whose records differ.
    fn differing(&self) -> Vec<usize> {
        let differs = |&phy: &usize| self.one.phys[phy] != self.other.phys[phy];
        (0..self.one.phys.len()).filter(differs).collect()
    }

    /// The source group's row in both tables, where they have one; and all others.
    fn rows_differ(&self) -> (bool, bool) {
        let width = self.one.profile.width();
        let [one, other] = [&self.one, &self.other].map(|arrival| arrival.permissions.chunks(width));
        let differ = one.zip(other).enumerate().filter(|(_, (one, other))| one != other);
        let rows: Vec<usize> = differ.map(|(row, _)| row).collect();
        let own = self.one.source.index();
        (rows.contains(&own), rows.iter().any(|&row| row != own))
    }
}

fn alike(profile: Profile, pair: &Pair) -> Classes {
    let mut classes = by_caller(pair);
    let [refusal, result, ..] = pair.answers[0].fields;
    match (refusal, both(profile, pair)) {
        (0, Some(both)) => classes.extend(answered(&both, result)),
        (3, _) => classes.push("alike, refused 3"),
        (4, _) => classes.push("alike, refused 4"),
        (5, _) => classes.push(refused_5(pair)),
        _ => {}
    }
    classes
}

fn by_caller(pair: &Pair) -> Classes {
    let one = caller(pair.calls[0]);
    let count = records(&one).len();
    let participating = PhyRecord::from(&records(&one)[one.phy as usize]).participating;
    let not_read = pair.answers[0].refusal() == 0 && !participating && one.carried > 127;
    that_apply(&[
        ("alike, one phy", count == 1),
        ("alike, 128 phys", count == 128),
        ("alike, a carried byte that is not read", not_read),
    ])
}

fn refused_5(pair: &Pair) -> &'static str {
    let one = caller(pair.calls[0]);
    if request(pair.calls[0])[0] != REQUEST_TYPE {
        "alike, refused 5, byte 0"
    } else if !counts_fit(one.expander_changes, one.phy_changes) {
        "alike, refused 5, a count too wide"
    } else if one.carried > 255 {
        "alike, refused 5, no byte"
    } else {
        "alike, refused 5, no group"
    }
}

fn answered(both: &Both, result: u64) -> Classes {
    let count = both.one.phys.len();
    let mut classes = that_apply(&[("alike, all phys hidden", (0..count).all(|phy| !both.is_permitted(phy)))]);
    classes.extend(match result {
        0 => shown(both),
        0x03 => wrong_length(both),
        0x10 => no_phy(both),
        0x16 => hidden(both),
        _ => Vec::new(),
    });
    if both.one.profile == Profile::Small && matches!(result, 0 | 0x16) {
        classes.extend(above_7(both, result == 0));
    }
    classes
}

fn wrong_length(both: &Both) -> Classes {
    let asks = both.request.len() == 12 && both.asked() < both.one.phys.len();
    that_apply(&[
        ("alike, 03h", true),
        ("alike, 03h the length", both.request.len() != 12),
        ("alike, 03h no byte 8", both.request.len() < 9),
        ("alike, 03h byte 3 of a hidden phy", asks && !both.is_permitted(both.asked())),
    ])
}

fn no_phy(both: &Both) -> Classes {
    let (byte_9, count) = (both.asked(), both.one.phys.len());
    that_apply(&[
        ("alike, 10h", true),
        ("alike, 10h byte 9 is the number of phys", byte_9 == count),
        ("alike, 10h low 7 bits of byte 9 are a phy", byte_9 & 0x7f < count),
    ])
}

fn hidden(both: &Both) -> Classes {
    let mut classes = hidden_records(both);
    let (asked, source) = (both.asked(), both.one.source);
    let at_itself = asked == both.one.phy;
    let [one, other] = both.records(asked);
    let (own_row, other_rows) = both.rows_differ();
    let count = both.one.phys.len();
    let shown = (0..count).filter(|&phy| both.is_permitted(phy)).count();
    let caller = both.one.record(both.one.phy);
    classes.extend(that_apply(&[
        ("alike, 16h", true),
        ("alike, 16h participating", caller.participating),
        ("alike, 16h not participating", !caller.participating),
        ("alike, 16h the last phy", asked + 1 == count),
        ("alike, 16h phy 127", asked == 127),
        ("alike, 16h the arriving phy", at_itself),
        ("alike, 16h the arriving phy, another address", at_itself && one.address != other.address),
        ("alike, 16h the arriving phy, another group", at_itself && one.group != other.group),
        ("alike, 16h of the source group in one alone", (one.group == source) != (other.group == source)),
        ("alike, 16h P the other way round in one alone", reached_in_one_alone(both, asked)),
        ("alike, 16h the right in one alone", both.in_one_alone(|arrival| arrival.may_change_zoning())),
        ("alike, 16h the source group's row differs", own_row),
        ("alike, 16h other rows differ", other_rows),
        ("alike, 16h permissions alone differ", both.differing().is_empty()),
        ("alike, 16h one phy shown, others not", shown == 1 && count > 2),
    ]));
    classes
}

/// By what differs between the two records of the phy that is asked for.
fn hidden_records(both: &Both) -> Classes {
    let ([bytes, other_bytes], [one, other]) = (both.bytes(both.asked()), both.records(both.asked()));
    let differ = [
        one.participating != other.participating,
        one.group != other.group,
        one.ready != other.ready,
        one.address != other.address,
        one.device_type != other.device_type,
        one.attached_phy != other.attached_phy,
    ];
    let [participation, group, readiness, address, device_type, attached_phy] = differ;
    that_apply(&[
        ("alike, 16h another address", address),
        ("alike, 16h another group", group),
        ("alike, 16h another device type", device_type),
        ("alike, 16h another attached phy", attached_phy),
        ("alike, 16h ready in one alone", readiness),
        ("alike, 16h participating in one alone", participation),
        ("alike, 16h reserved bits alone", one == other && bytes != other_bytes),
        ("alike, 16h readiness alone", one == PhyRecord { ready: one.ready, ..other } && readiness),
        ("alike, 16h group alone", one == PhyRecord { group: one.group, ..other } && group),
        ("alike, 16h all fields", differ == [true; 6]),
        ("alike, 16h the same record, other things differ", bytes == other_bytes),
    ])
}

/// Whether the asked phy's group reaches the source group in one of the two alone.
fn reached_in_one_alone(both: &Both, asked: usize) -> bool {
    both.in_one_alone(|arrival| arrival.is_reached_by(arrival.record(asked).group))
}

fn shown(both: &Both) -> Classes {
    let mut classes = shown_beside(both);
    let (asked, arriving, differing) = (both.asked(), both.one.phy, both.differing());
    let (bytes, record) = (&both.one.phys[asked], both.one.record(asked));
    let caller = both.one.record(arriving);
    let [own, other_own] = both.records(arriving).map(|record| record.group);
    classes.extend(that_apply(&[
        ("alike, 00h", true),
        ("alike, 00h participating", caller.participating),
        ("alike, 00h not participating", !caller.participating),
        ("alike, 00h ready", record.ready),
        ("alike, 00h not ready", !record.ready),
        ("alike, 00h not ready, an address in the record", !record.ready && record.address != 0),
        ("alike, 00h the last phy", asked + 1 == both.one.phys.len()),
        ("alike, 00h phy 127", asked == 127),
        ("alike, 00h the arriving phy", asked == arriving),
        ("alike, 00h the arriving phy's record differs", differing.contains(&arriving)),
        ("alike, 00h the arriving phy in another group", own != other_own),
        ("alike, 00h of the source group", record.group == both.one.source),
        ("alike, 00h reserved bits of the record", bytes[0] > 0x1f || bytes[3] != 0 || bytes[14] != 0),
    ]));
    classes
}

/// By what differs beside the phy that is shown.
fn shown_beside(both: &Both) -> Classes {
    let (asked, differing, count) = (both.asked(), both.differing(), both.one.phys.len());
    let (own_row, other_rows) = both.rows_differ();
    that_apply(&[
        ("alike, 00h a hidden record differs", !differing.is_empty()),
        ("alike, 00h all other phys hidden, all differ", count > 2 && differing.len() + 1 == count),
        ("alike, 00h a sister in one alone", both.in_one_alone(|arrival| arrival.sisters(asked).is_empty())),
        ("alike, 00h P the other way round in one alone", reached_in_one_alone(both, asked)),
        ("alike, 00h the right in one alone", both.in_one_alone(|arrival| arrival.may_change_zoning())),
        ("alike, 00h the source group's row differs", own_row),
        ("alike, 00h other rows differ", other_rows),
        ("alike, 00h permissions alone differ", differing.is_empty()),
    ])
}

fn above_7(both: &Both, is_shown: bool) -> Classes {
    let is_above = |record: &PhyRecord| record.group.number() > 7;
    let [one, other] = both.records(both.asked());
    let source = both.one.source.index();
    let hidden_above = |phy: &usize| both.in_one_alone(|arrival| is_above(&arrival.record(*phy)));
    let modulo_8 = |arrival: &Arrival| arrival.permissions[source % 8];
    let on_modulo_8 = |arrival: &Arrival| {
        let group = arrival.record(both.asked()).group.index();
        modulo_8(arrival) >> (group % 8) & 1 == 1
    };
    let row_differs = modulo_8(&both.one) != modulo_8(&both.other);
    let two_above = is_above(&one) && is_above(&other) && one.group != other.group;
    that_apply(&[
        ("alike, 16h a group above 7 in one alone", !is_shown && is_above(&one) != is_above(&other)),
        ("alike, 16h two groups above 7", !is_shown && two_above),
        ("alike, 16h source group above 7", !is_shown && source > 7),
        ("alike, 00h source group above 7", is_shown && source > 7),
        ("alike, 00h a group above 7", is_shown && is_above(&one)),
        ("alike, 00h a hidden group above 7 in one alone", is_shown && both.differing().iter().any(hidden_above)),
        ("alike, 16h source above 7, its row modulo 8 differs", !is_shown && source > 7 && row_differs),
        ("alike, 16h P modulo 8 on in one alone", !is_shown && both.in_one_alone(on_modulo_8)),
    ])
}

#[cfg(test)]
mod tests {
    use super::*;
    use crate::trial::generate::Generator;

    /// Pairs with the model's answers.
    fn for_each_pair(profile: Profile, mut seen: impl FnMut(&Pair)) {
        let mut generator = Generator::new(profile, 1);
        for _ in 0..1_500 {
            // A call goes by, so that shelves come and go.
            generator.call();
            let [one, other] = generator.pair();
            let [of_one, of_other] = [&one, &other].map(|call| call.model(profile));
            seen(&Pair { calls: [&one, &other], answers: [&of_one, &of_other] });
        }
    }

    #[test]
    fn the_model_keeps_to_request_04() {
        for profile in Profile::ALL {
            let mut judged = 0;
            for_each_pair(profile, |pair| {
                let must_agree = pair.must_agree(profile);
                judged += u64::from(must_agree);
                assert!(!must_agree || pair.agrees(), "{profile}: {:x?}", pair.calls);
            });
            assert!(judged > 500, "{profile}: {judged} pairs");
        }
    }

    /// What model and library could both let out by mistake, in an answer to a DISCOVER for this phy.
    type Leak = fn(&Arrival, usize) -> bool;
    const LEAKS: [(&str, Leak); 7] = [
        ("readiness of a hidden phy", |arrival, phy| is_hidden(arrival, phy) && arrival.record(phy).ready),
        ("address of a hidden phy", |arrival, phy| is_hidden(arrival, phy) && arrival.record(phy).address % 2 == 1),
        ("group of a hidden phy", |arrival, phy| is_hidden(arrival, phy) && arrival.phys[phy][1] % 2 == 1),
        ("address of the arriving phy", |arrival, _| arrival.record(arrival.phy).address % 2 == 1),
        ("how many are ready", |arrival, _| arrival.phys.iter().filter(|record| record[2] % 2 == 1).count() % 2 == 1),
        ("the right", |arrival, _| arrival.may_change_zoning()),
        ("P the other way round", |arrival, phy| arrival.is_reached_by(arrival.record(phy).group)),
    ];

    fn is_hidden(arrival: &Arrival, phy: usize) -> bool {
        !arrival.reaches(arrival.record(phy).group)
    }

    /// The answer as it would be with the leak: where that is so, byte 4 of the response is another.
    fn leaking(profile: Profile, call: &Call, answer: &Answer, leak: Leak) -> Answer {
        let mut answer = answer.clone();
        if let ([0, 0 | 0x16, ..], Some(arrival)) = (answer.fields, Arrival::of(profile, call)) {
            answer.buffers[2][4] ^= u8::from(leak(&arrival, usize::from(request(call)[9])));
        }
        answer
    }

    #[test]
    fn a_mistake_in_both_programs_is_seen() {
        for profile in Profile::ALL {
            let mut told_apart = LEAKS.map(|(name, _)| (name, 0));
            for_each_pair(profile, |pair| {
                let must_agree = pair.must_agree(profile);
                for ((_, leak), (_, times)) in LEAKS.into_iter().zip(&mut told_apart) {
                    let [one, other] = [0, 1].map(|i| leaking(profile, pair.calls[i], pair.answers[i], leak));
                    let agrees = Pair { calls: pair.calls, answers: [&one, &other] }.agrees();
                    *times += u64::from(must_agree && !agrees);
                }
            });
            assert!(told_apart.iter().all(|(_, times)| *times > 5), "{profile}: {told_apart:?}");
        }
    }

    /// A field or a byte that differs is seen. Tables are no part of what the caller gets.
    #[test]
    fn any_difference_in_an_answer_is_seen() {
        let call = Call::StartUp { permissions: Vec::new() };
        let answer = Answer { fields: [0, 0x16, 4, 0, 0], buffers: [16, 8, 24, 16].map(|size| vec![0; size]).into() };
        let is_seen = |change: &dyn Fn(&mut Answer)| {
            let mut other = answer.clone();
            change(&mut other);
            !Pair { calls: [&call, &call], answers: [&answer, &other] }.agrees()
        };
        assert!(!is_seen(&|_| {}));
        assert!(!is_seen(&|other| other.buffers[0].fill(1)) && !is_seen(&|other| other.buffers[1].fill(1)));
        assert!((0..4).all(|field| is_seen(&|other| other.fields[field] ^= 1)));
        assert!((0..24).all(|place| is_seen(&|other| other.buffers[2][place] ^= 1)));
        assert!((0..16).all(|place| is_seen(&|other| other.buffers[3][place] ^= 1)));
        assert!(is_seen(&|other| other.buffers[3].push(0)), "another size");
    }
}
