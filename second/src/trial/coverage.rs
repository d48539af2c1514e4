//! Which classes of answers a run has reached. A run that never reached one of them has shown nothing about it.

use super::arrival::{that_apply, Arrival, Classes};
use super::call::{Answer, Call, NAMES};
use super::console::{self, trips::Trip};
use super::profile::Profile;
use super::saved::{self, trips::Trip as FileTrip};
use super::sheets::{self, trips::Trip as SheetTrip};
use super::{alike, apart, discover, outside, ports, small};
use crate::smp::{CONFIGURE_PHY_ZONE, CONFIGURE_ZONE_PERMISSION, DISCOVER, REPORT_ZONE_PERMISSION};
use crate::speaking::source_from_outside;
use crate::tables::{phy_table, route_table, PhyRecord};
use std::collections::{BTreeMap, BTreeSet};
use std::fmt;

/// All classes that a run must reach on either shelf, by call. Refusal 8 has none: nothing provokes it.
const REQUIRED: [(&str, &[&str]); 23] = [
    ("start_up", &["written", "refused 1"]),
    ("leaving", &["left", "refused 1", "refused 2", "refused 7"]),
    (
        "identify",
        &[
            "no address known",
            "same address",
            "other address",
            "refused 1",
            "refused 2",
            "refused 4",
            "refused 5",
            "refused 5, a number too wide",
            "refused 7",
        ],
    ),
    ("elect", &["none", "a phy", "a route", "refused 1"]),
    (
        "open",
        &[
            "NO DESTINATION",
            "NO DESTINATION, zero",
            "BAD DESTINATION",
            "BAD DESTINATION, by a route",
            "BAD DESTINATION, sister",
            "BAD DESTINATION, sister by a route",
            "ZONE VIOLATION",
            "FORWARD to other phys",
            "FORWARD to other phys, by a route",
            "FORWARD participating, from participating",
            "FORWARD participating, from others",
            "FORWARD participating, by a route",
            "refused 1",
            "refused 2",
            "refused 3",
            "refused 4",
            "refused 5",
            "refused 7",
        ],
    ),
    ("primitive", &["none told", "some told", "refused 1", "refused 2", "refused 3", "refused 5", "refused 7"]),
    (
        "broadcast_frame",
        &[
            "type 2h",
            "type 3h",
            "refused 1",
            "refused 2",
            "refused 3",
            "refused 4",
            "refused 5",
            "refused 5, no group",
            "refused 6",
            "refused 7",
        ],
    ),
    (
        "smp",
        &[
            "93h 00h k even",
            "93h 00h k odd",
            "93h 00h k = 0",
            "93h 02h no right",
            "93h 02h descriptor",
            "93h 03h",
            "93h 10h",
            "C1h 00h single",
            "C1h 00h batch",
            "C1h 00h batch, k = 0",
            "C1h 01h",
            "C1h 02h single",
            "C1h 02h batch",
            "C1h 02h other operation",
            "C1h 03h",
            "C1h 03h single",
            "C1h 03h batch",
            "C1h 11h",
            "51h 00h",
            "51h 00h no rows",
            "51h 00h 63 rows",
            "51h 01h",
            "51h 03h",
            "51h 11h",
            "DISCOVER 00h",
            "DISCOVER 03h",
            "DISCOVER 10h",
            "DISCOVER 16h",
            "other function",
            "refused 1",
            "refused 2",
            "refused 3",
            "refused 4",
            "refused 5",
            "refused 5, no byte",
            "refused 5, no group",
            "refused 5, a count too wide",
            "refused 7",
        ],
    ),
    ("open", &ports::OPEN),
    ("primitive", &ports::BROADCAST),
    ("broadcast_frame", &ports::BROADCAST),
    ("smp", &ports::NOTICE),
    ("start_up", &WRONG_SIZE),
    ("open", &WRONG_SIZE),
    ("primitive", &WRONG_SIZE),
    ("broadcast_frame", &WRONG_SIZE),
    ("smp", &WRONG_SIZE),
    ("import", &WRONG_SIZE),
    ("export", &WRONG_SIZE),
    ("save_version_1", &WRONG_SIZE),
    ("save_version_2", &WRONG_SIZE),
    ("load_version_1", &WRONG_SIZE),
    ("load_version_2", &WRONG_SIZE),
];

/// Of refusal 1, where the size of the permission table is its only cause.
const WRONG_SIZE: [&str; 3] =
    ["refused 1, the other shelf's permissions", "refused 1, a byte too few", "refused 1, a byte too many"];

/// How many answers were in a class, by the call's place in the header and the class. An answer counts in each of its
/// classes.
pub struct Coverage {
    profile: Profile,
    answers: BTreeMap<(usize, &'static str), u64>,
    /// The single-byte damages of the sweep that were loaded, by reader.
    swept: BTreeSet<(usize, usize)>,
}

impl Coverage {
    pub fn new(profile: Profile) -> Coverage {
        Coverage { profile, answers: BTreeMap::new(), swept: BTreeSet::new() }
    }

    pub fn count(&mut self, call: &Call, answer: &Answer) {
        let place = usize::from(call.parts().place);
        self.count_all(place, classes(self.profile, call, answer));
        if let Call::LoadVersion1 { file, .. } | Call::LoadVersion2 { file, .. } = call {
            let number = saved::sweep::number_of(self.profile, file).filter(|_| answer.refusal() != 1);
            self.swept.extend(number.map(|number| (place, number)));
        }
    }

    /// Two calls that are judged together count in further classes.
    pub fn count_pair(&mut self, pair: &alike::Pair) {
        let place = usize::from(pair.calls[0].parts().place);
        self.count_all(place, alike::classes(self.profile, pair));
    }

    /// So do the calls of a round trip, by its first.
    pub fn count_trip(&mut self, trip: &Trip) {
        let place = usize::from(trip.calls[0].parts().place);
        self.count_all(place, trip.classes(self.profile));
    }

    /// So do calls of sheets.
    pub fn count_sheets(&mut self, trip: &SheetTrip) {
        let place = usize::from(trip.calls[0].parts().place);
        self.count_all(place, trip.classes(self.profile));
    }

    /// So do calls of files.
    pub fn count_files(&mut self, trip: &FileTrip) {
        let place = usize::from(trip.calls[0].parts().place);
        self.count_all(place, trip.classes(self.profile));
    }

    fn count_all(&mut self, place: usize, classes: Classes) {
        for class in classes {
            *self.answers.entry((place, class)).or_default() += 1;
        }
    }

    /// The classes that were never reached.
    pub fn missing(&self) -> Vec<String> {
        let place = |name| NAMES.iter().position(|known| *known == name).expect("a call's name");
        type Required = &'static [(&'static str, &'static [&'static str])];
        let of_both: [Required; 8] = [
            &REQUIRED,
            &outside::REQUIRED,
            &discover::REQUIRED,
            &alike::REQUIRED,
            &apart::REQUIRED,
            &console::classes::REQUIRED,
            &sheets::classes::REQUIRED,
            &saved::classes::REQUIRED,
        ];
        let of_one: &[Required] = match self.profile {
            Profile::Large => &[
                &console::classes::REQUIRED_OF_LARGE,
                &sheets::classes::REQUIRED_OF_LARGE,
                &saved::classes::REQUIRED_OF_LARGE,
            ],
            Profile::Small => &[
                &small::REQUIRED,
                &alike::REQUIRED_OF_SMALL,
                &console::classes::REQUIRED_OF_SMALL,
                &sheets::classes::REQUIRED_OF_SMALL,
                &saved::classes::REQUIRED_OF_SMALL,
            ],
        };
        let all = of_both
            .iter()
            .chain(of_one)
            .flat_map(|required| required.iter())
            .flat_map(|(name, classes)| classes.iter().map(move |class| (*name, *class)));
        let missing = all.filter(|&(name, class)| !self.answers.contains_key(&(place(name), class)));
        missing.map(|(name, class)| format!("{name}: {class}")).chain(self.not_swept(place)).collect()
    }

    /// Every single-byte damage of the sweep's files is a class of its own, at each reader.
    fn not_swept(&self, place: impl Fn(&'static str) -> usize) -> Vec<String> {
        let all = saved::sweep::count(self.profile);
        let missing = ["load_version_1", "load_version_2"].map(|name| {
            let place = place(name);
            let missing = (0..all).filter(|&number| !self.swept.contains(&(place, number))).count();
            (missing > 0).then(|| format!("{name}: {missing} of {all} single-byte damages"))
        });
        missing.into_iter().flatten().collect()
    }
}

impl fmt::Display for Coverage {
    fn fmt(&self, f: &mut fmt::Formatter) -> fmt::Result {
        for ((place, class), count) in &self.answers {
            writeln!(f, "{:18} {class:56} {count:9}", NAMES[*place])?;
        }
        writeln!(f, "{:75} {:9}", "single-byte damages of files, at both readers", self.swept.len())?;
        Ok(())
    }
}

/// One class by what became of the call, and others by the ports and groups in its answer or by the size that was
/// wrong.
fn classes(profile: Profile, call: &Call, answer: &Answer) -> Classes {
    if let Call::Console(call) = call {
        return console::classes::classes(call, answer);
    }
    let mut classes = vec![class(profile, call, answer)];
    match answer.refusal() {
        0 => classes.extend(Arrival::of(profile, call).iter().flat_map(|arrival| arrived(arrival, call, answer))),
        1 => classes.extend(wrong_size(profile, call)),
        _ => {}
    }
    classes.extend(outside::classes(profile, call, answer));
    classes.extend(discover::classes(profile, call, answer));
    classes.extend(sheets::classes::classes(profile, call, answer));
    classes.extend(saved::classes::classes(profile, call, answer));
    classes
}

fn arrived(arrival: &Arrival, call: &Call, answer: &Answer) -> Classes {
    let mut classes = ports::classes(arrival, call, answer);
    if arrival.profile == Profile::Small {
        classes.extend(small::classes(arrival, call, answer));
    }
    classes
}

fn wrong_size(profile: Profile, call: &Call) -> Classes {
    let buffers = call.parts().buffers;
    let lent = |table| buffers.iter().find(|(name, _)| *name == table).map(|(_, bytes)| *bytes);
    let others_fit = lent("phys").is_none_or(|phys| phy_table(phys).is_ok())
        && lent("routes").is_none_or(|routes| route_table(routes).is_ok());
    let is = |size| others_fit && lent("permissions").is_some_and(|permissions| permissions.len() == size);
    that_apply(&[
        ("refused 1, the other shelf's permissions", is(profile.other().table_size())),
        ("refused 1, a byte too few", is(profile.table_size() - 1)),
        ("refused 1, a byte too many", is(profile.table_size() + 1)),
    ])
}

fn class(profile: Profile, call: &Call, answer: &Answer) -> &'static str {
    match answer.refusal() {
        0 => answered(profile, call, answer),
        5 => refused_5(call),
        number @ 31.. => saved::classes::refused(number),
        number => ["", "refused 1", "refused 2", "refused 3", "refused 4", "", "refused 6", "refused 7", "refused 8"]
            [number as usize],
    }
}

fn refused_5(call: &Call) -> &'static str {
    match call {
        Call::Smp { phys, phy, request, carried, expander_changes, phy_changes, .. } if request[0] == 0x40 => {
            let fit = discover::counts_fit(*expander_changes, *phy_changes);
            let source = u8::try_from(*carried).map(|byte| source_from_outside(&record(phys, *phy), byte));
            match source {
                Err(_) if fit => "refused 5, no byte",
                Ok(Err(_)) if fit => "refused 5, no group",
                Ok(Ok(_)) => "refused 5, a count too wide",
                _ => "refused 5, several causes",
            }
        }
        Call::Identify { address, .. } if *address != [0; 8] => "refused 5, a number too wide",
        Call::Import { carried, .. } if *carried > 255 => "refused 5, no byte",
        Call::Import { .. } => "refused 5, no group",
        Call::BroadcastFrame { frame, .. } if matches!(frame[0] & 0x0f, 2 | 3) => "refused 5, no group",
        _ => "refused 5",
    }
}

fn answered(profile: Profile, call: &Call, answer: &Answer) -> &'static str {
    let some = answer.fields[1] != 0;
    match call {
        Call::StartUp { .. } => "written",
        Call::Leaving { .. } => "left",
        Call::Identify { phys, phy, address, .. } => identified(record(phys, *phy), address),
        Call::Elect { phys, .. } => elected(phys, answer),
        Call::Open { phys, routes, phy, frame, .. } => opened(phys, routes, *phy, frame, answer),
        Call::Primitive { .. } if some => "some told",
        Call::Primitive { .. } => "none told",
        Call::BroadcastFrame { frame, .. } if frame[0] & 0x0f == 2 => "type 2h",
        Call::BroadcastFrame { .. } => "type 3h",
        Call::Smp { request, .. } => {
            let right = Arrival::of(profile, call).is_some_and(|arrival| arrival.may_change_zoning());
            by_function(request, answer, right)
        }
        Call::Import { .. } => sheets::classes::imported(answer),
        Call::Export { .. } => sheets::classes::how_many_exported(profile, answer),
        Call::SaveVersion1 { .. } | Call::SaveVersion2 { .. } => saved::classes::saved(profile, call, answer),
        Call::LoadVersion1 { file, .. } | Call::LoadVersion2 { file, .. } => {
            saved::classes::loaded(profile, file, answer)
        }
        Call::Console(_) => "the console's",
    }
}

fn record(phys: &[u8], phy: u32) -> PhyRecord {
    PhyRecord::from(&phys.as_chunks().0[phy as usize])
}

fn identified(before: PhyRecord, address: &[u8]) -> &'static str {
    if !before.address_known {
        "no address known"
    } else if before.address.to_be_bytes() == address {
        "same address"
    } else {
        "other address"
    }
}

fn elected(phys: &[u8], answer: &Answer) -> &'static str {
    let (priority, address) = (answer.fields[1], answer.fields[2]);
    let is_it = |record: PhyRecord| record.ready && (u64::from(record.priority), record.address) == (priority, address);
    if priority == 0 {
        "none"
    } else if phys.as_chunks().0.iter().map(PhyRecord::from).any(is_it) {
        "a phy"
    } else {
        "a route"
    }
}

fn opened(phys: &[u8], routes: &[u8], phy: u32, frame: &[u8], answer: &Answer) -> &'static str {
    // Where the phy that was found has another address attached, a route led there.
    let by_route = |found| record(phys, found).address.to_be_bytes() != frame[4..12];
    match answer.fields[1] {
        1 if frame[4..12] == [0; 8] => "NO DESTINATION, zero",
        1 => "NO DESTINATION",
        2 => bad_destination(is_found(phys, routes, phy, frame), by_route(phy)),
        3 => "ZONE VIOLATION",
        _ => forwarded(record(phys, phy), record(phys, answer.fields[2] as u32), by_route(answer.fields[2] as u32)),
    }
}

/// Whether the search ends at this phy.
fn is_found(phys: &[u8], routes: &[u8], phy: u32, frame: &[u8]) -> bool {
    let found = ports::found(phys.as_chunks().0, routes.as_chunks().0, frame);
    found.is_some_and(|found| found.phy == phy as usize)
}

/// The arriving phy itself was found or a sister, which has the same address attached.
fn bad_destination(itself: bool, by_route: bool) -> &'static str {
    match (itself, by_route) {
        (true, true) => "BAD DESTINATION, by a route",
        (true, false) => "BAD DESTINATION",
        (false, true) => "BAD DESTINATION, sister by a route",
        (false, false) => "BAD DESTINATION, sister",
    }
}

fn forwarded(arriving: PhyRecord, towards: PhyRecord, by_route: bool) -> &'static str {
    match (towards.participating, by_route) {
        (false, true) => "FORWARD to other phys, by a route",
        (false, false) => "FORWARD to other phys",
        (true, true) => "FORWARD participating, by a route",
        (true, false) if arriving.participating => "FORWARD participating, from participating",
        (true, false) => "FORWARD participating, from others",
    }
}

fn by_function(request: &[u8], answer: &Answer, right: bool) -> &'static str {
    let result = answer.fields[1];
    match request[1] {
        CONFIGURE_PHY_ZONE => configured_phys(request, result, right),
        CONFIGURE_ZONE_PERMISSION => configured_permission(request, result),
        REPORT_ZONE_PERMISSION => reported(answer, result),
        DISCOVER => discovered(result),
        _ => "other function",
    }
}

fn configured_phys(request: &[u8], result: u64, right: bool) -> &'static str {
    match (result, request.get(7)) {
        (0, Some(0)) => "93h 00h k = 0",
        (0, Some(k)) if k % 2 == 1 => "93h 00h k odd",
        (0, _) => "93h 00h k even",
        (2, _) if right => "93h 02h descriptor",
        (2, _) => "93h 02h no right",
        (3, _) => "93h 03h",
        (0x10, _) => "93h 10h",
        _ => "93h another result",
    }
}

fn configured_permission(request: &[u8], result: u64) -> &'static str {
    // Where the length does not agree, byte 9 was not looked at.
    let agrees = request.len() == 4 + 4 * usize::from(request[3]) && request.len() >= 12;
    let operation = if agrees { request[9] >> 4 } else { 0 };
    match (result, operation) {
        (0, 8) => "C1h 00h single",
        (0, 9) if request[11] == 0 => "C1h 00h batch, k = 0",
        (0, 9) => "C1h 00h batch",
        (1, _) => "C1h 01h",
        (2, 8) => "C1h 02h single",
        (2, 9) => "C1h 02h batch",
        (2, _) => "C1h 02h other operation",
        (3, 8) => "C1h 03h single",
        (3, 9) => "C1h 03h batch",
        (3, _) => "C1h 03h",
        (0x11, _) => "C1h 11h",
        _ => "C1h another result",
    }
}

fn reported(answer: &Answer, result: u64) -> &'static str {
    match (result, answer.fields[2]) {
        (0, 12) => "51h 00h no rows",
        (0, 1020) => "51h 00h 63 rows",
        (0, _) => "51h 00h",
        (1, _) => "51h 01h",
        (3, _) => "51h 03h",
        (0x11, _) => "51h 11h",
        _ => "51h another result",
    }
}

fn discovered(result: u64) -> &'static str {
    match result {
        0 => "DISCOVER 00h",
        3 => "DISCOVER 03h",
        0x10 => "DISCOVER 10h",
        0x16 => "DISCOVER 16h",
        _ => "DISCOVER another result",
    }
}

#[cfg(test)]
mod tests {
    use super::super::generate::{Generator, Together, Tried};
    use super::*;
    use crate::bench::Rack;
    use crate::tables::RECORD;

    #[test]
    fn an_answer_is_in_several_classes() {
        // Phys 3, 4 and 5 have one address; group 8 of the arriving phy reaches group 9 of phys 4 and 5, not its own.
        let Rack { mut phys, mut permissions } = Rack::default();
        for phy in [3, 4, 5] {
            phys[RECORD * phy + 11] = 0x13;
        }
        permissions[16 * 8 + 14] |= 1 << 1;
        let call = Call::Primitive { phys, permissions, phy: 2, number: 0, set: vec![0; 16], out: vec![0; 28] };
        let answer = call.model(Profile::Large);
        assert_eq!(answer.buffers[0][0], 0x91);
        let expected = ["some told", "one of two permitted sisters told", "told, a lower ready sister not permitted"];
        assert_eq!(classes(Profile::Large, &call, &answer), expected);
    }

    #[test]
    fn the_generator_reaches_every_class() {
        for profile in Profile::ALL {
            let mut generator = Generator::new(profile, 1);
            let mut coverage = Coverage::new(profile);
            for _ in 0..200_000 {
                let Tried { calls, together } = generator.tried();
                calls.iter().for_each(|(call, answer)| coverage.count(call, answer));
                match (together, calls.as_slice()) {
                    (Together::Pair, [(one, of_one), (other, of_other)]) => {
                        coverage.count_pair(&alike::Pair { calls: [one, other], answers: [of_one, of_other] });
                    }
                    (Together::Trip, calls) => {
                        let (calls, answers) = calls.iter().map(|(call, answer)| (call, answer)).unzip();
                        let trip = Trip { calls, answers };
                        assert_eq!(trip.judge(profile), Ok(()), "{profile}: {:x?}", trip.calls);
                        coverage.count_trip(&trip);
                    }
                    (Together::Sheets, calls) => {
                        let (calls, answers) = calls.iter().map(|(call, answer)| (call, answer)).unzip();
                        let trip = SheetTrip { calls, answers };
                        assert_eq!(trip.judge(profile), Ok(()), "{profile}: {:x?}", trip.calls);
                        coverage.count_sheets(&trip);
                    }
                    (Together::Files, calls) => {
                        let (calls, answers) = calls.iter().map(|(call, answer)| (call, answer)).unzip();
                        let trip = FileTrip { calls, answers };
                        assert_eq!(trip.judge(profile), Ok(()), "{profile}: {:x?}", trip.calls);
                        coverage.count_files(&trip);
                    }
                    _ => {}
                }
            }
            assert_eq!(coverage.missing(), Vec::<String>::new(), "{profile}");
        }
    }
}
