//! What a member can learn, worked out by hand from request 04 of document 02, on both shelves.
//!
//! The caller is on phy 2 of the bench rack, in group 8, which reaches group 1 alone: phys 0 and 7 are permitted to it, and
//! the others hidden. The other shelf has the same two, and all else in it is different.

use super::*;
use crate::alike::{broken, is_spoken_of, Caller, Premise};
use crate::tables::{LARGE, SMALL};
use crate::trial::call::{Answer, Call, FIELDS};
use crate::trial::profile::Profile;

/// A shelf, and all that the caller hands in and lends beside its request.
#[derive(Clone)]
struct Side {
    profile: Profile,
    phys: Vec<u8>,
    permissions: Vec<u8>,
    phy: u32,
    carried: u32,
    expander_changes: u32,
    phy_changes: u32,
    response: Vec<u8>,
    set: Vec<u8>,
}

/// The bench rack at start-up.
fn rack(profile: Profile) -> Side {
    Side {
        profile,
        phys: Rack::default().phys,
        permissions: profile.fresh_table(),
        phy: 2,
        carried: 8,
        expander_changes: 0x1234,
        phy_changes: 0x56,
        response: vec![STAYS; 1024],
        set: vec![STAYS; 20],
    }
}

/// The hidden phys of the other shelf are in groups 9, 8, 2, 0, 8 and 9: none of them may be reached. The arriving one is
/// still ready, not participating and in group 8.
const HIDDEN: [[u8; 16]; 6] = [
    [0xff, 0x89, 0xfe, 0xff, 0x51, 1, 2, 3, 4, 5, 6, 7, 0xff, 0xee, 0xdd, 0xcc],
    [0xef, 0x88, 0xfd, 0xff, 0x51, 1, 2, 3, 4, 5, 6, 8, 0x02, 0x03, 0x04, 0x05],
    [0x10, 0x02, 0x00, 0x00, 0x50, 0, 0, 0, 0, 0, 0, 0x10, 0x01, 0, 0, 0],
    [0x00, 0x80, 0x01, 0x00, 0, 0, 0, 0, 0, 0, 0, 0, 0x07, 0xff, 0, 0],
    [0x0f, 0x08, 0x02, 0x00, 0x50, 0, 0, 0, 0, 0, 0, 0x17, 0x00, 0x01, 0, 0],
    [0x1f, 0x09, 0x03, 0x01, 0xff, 0xff, 0xff, 0xff, 0xff, 0xff, 0xff, 0xff, 0x06, 0x80, 1, 1],
];

/// Every permission is on, but for those of group 8 to the groups of hidden phys. The small shelf has no row for it.
fn elsewhere(profile: Profile) -> Side {
    let mut side = rack(profile);
    side.phys[RECORD..7 * RECORD].copy_from_slice(HIDDEN.as_flattened());
    side.permissions.fill(0xff);
    if profile == Profile::Large {
        let groups_of_hidden = 1 << 0 | 1 << 2 | 1 << 8 | 1 << 9;
        side.permissions[16 * 8..16 * 9].copy_from_slice(&(!groups_of_hidden as u128).to_be_bytes());
    }
    side
}

fn pairs() -> [[Side; 2]; 2] {
    Profile::ALL.map(|profile| [rack(profile), elsewhere(profile)])
}

impl Side {
    fn caller(&self) -> Caller<'_> {
        Caller {
            phys: &self.phys,
            permissions: &self.permissions,
            phy: self.phy,
            carried: self.carried,
            expander_changes: self.expander_changes,
            phy_changes: self.phy_changes,
            response: &self.response,
            set: &self.set,
        }
    }

    /// The fields, the response and the set.
    fn ask(&self, request: &[u8]) -> ([u64; FIELDS], Vec<u8>, Vec<u8>) {
        let Side { profile, phys, permissions, phy, carried, expander_changes, phy_changes, response, set } =
            self.clone();
        let request = request.to_vec();
        let call = Call::Smp { phys, permissions, phy, carried, expander_changes, phy_changes, request, response, set };
        let Answer { fields, mut buffers } = call.model(profile);
        let set = buffers.pop().unwrap();
        (fields, buffers.pop().unwrap(), set)
    }

    /// Refusal and result.
    fn answer(&self, request: &[u8]) -> [u64; 2] {
        let ([refusal, result, ..], _, _) = self.ask(request);
        [refusal, result]
    }

    fn record(&mut self, phy: usize) -> &mut [u8] {
        &mut self.phys[RECORD * phy..][..RECORD]
    }
}

fn broken_in([one, other]: &[Side; 2]) -> Vec<Premise> {
    match one.profile {
        Profile::Large => broken::<LARGE>(&one.caller(), &other.caller()),
        Profile::Small => broken::<SMALL>(&one.caller(), &other.caller()),
    }
}

fn answers(pair: &[Side; 2], request: &[u8]) -> [[u64; 2]; 2] {
    [pair[0].answer(request), pair[1].answer(request)]
}

fn discover(byte_8: u8, phy: u8) -> [u8; 12] {
    [0x40, 0x10, 0, 2, 0, 0, 0, 0, byte_8, phy, 0, 0]
}

/// Every byte as a phy, both lengths that byte 3 may say, and requests that are turned down or refused.
fn requests() -> Vec<Vec<u8>> {
    let mut requests: Vec<Vec<u8>> = (0..=255).map(|phy| discover(0, phy).to_vec()).collect();
    requests.extend((0..=255).map(|phy| [&[0x40, 0x10, 0xff, 0x00, 1, 2, 3, 4, 0xfe, phy][..], &[5, 6]].concat()));
    requests.extend((0..=255).map(|byte_3| [&[0x40, 0x10, 0, byte_3][..], &discover(0, 1)[4..]].concat()));
    requests.extend((2..12).map(|length| discover(0, 1)[..length].to_vec()));
    requests.extend([13, 16, 1036].map(|length| [&discover(0, 1)[..], &vec![0; length - 12]].concat()));
    requests.extend([0x00, 0x41, 0xff].map(|byte_0| [&[byte_0][..], &discover(0, 1)[1..]].concat()));
    requests
}

/// Alike, and the same bytes for every request.
fn cannot_be_told_apart(pair: &[Side; 2]) {
    assert_eq!(broken_in(pair), []);
    for request in requests() {
        assert!(is_spoken_of(&request));
        assert_eq!(pair[0].ask(&request), pair[1].ask(&request), "{request:x?}");
    }
}

#[test]
fn a_worked_pair_gets_the_same_bytes() {
    for pair in pairs() {
        cannot_be_told_apart(&pair);
        for side in &pair {
            let results: Vec<_> = (0..10).map(|phy| side.answer(&discover(0, phy))[1]).collect();
            assert_eq!(results, [0, 0x16, 0x16, 0x16, 0x16, 0x16, 0x16, 0, 0x10, 0x10]);
            let (fields, response, set) = side.ask(&discover(0, 7));
            assert_eq!(fields, [0, 0, 108, 0, 0]);
            let mut expected = [&[0x41, 0x10, 0x00, 0x1a, 0x12, 0x34][..], &[0; 102], &[STAYS; 916]].concat();
            for (place, byte) in [(9, 7), (24, 0x50), (31, 0x17), (42, 0x56), (60, 0x03), (63, 1)] {
                expected[place] = byte;
            }
            assert_eq!((response, set), (expected, [&[0; 16][..], &[STAYS; 4]].concat()));
        }
    }
}

#[test]
fn a_participating_phy_may_be_in_another_group() {
    for mut pair in pairs() {
        for side in &mut pair {
            (side.phy, side.carried) = (6, 8);
            side.record(6)[0] |= 0x10;
        }
        let [one, other] = &mut pair;
        assert_eq!([one.record(6)[1], other.record(6)[1]], [0, 9]);
        cannot_be_told_apart(&pair);
        // No group is speaking: nothing is permitted, and every record may differ.
        pair[1].phys[..RECORD].fill(0xff);
        for carried in [128, 136, 255, 256, 264, u32::MAX] {
            pair.iter_mut().for_each(|side| side.carried = carried);
            cannot_be_told_apart(&pair);
            assert_eq!(answers(&pair, &discover(0, 0)), [[5, 0]; 2]);
        }
    }
}

#[test]
fn alike_pairs_are_refused_alike() {
    for pair in pairs() {
        let changed = |change: fn(&mut Side)| {
            let mut pair = pair.clone();
            pair.iter_mut().for_each(change);
            cannot_be_told_apart(&pair);
            answers(&pair, &discover(0, 0))
        };
        assert_eq!(changed(|side| side.expander_changes = 65_536), [[5, 0]; 2]);
        assert_eq!(changed(|side| side.phy_changes = 256), [[5, 0]; 2]);
        assert_eq!(changed(|side| side.carried = 264), [[5, 0]; 2], "no byte, though it is not read");
        assert_eq!(changed(|side| side.carried = 255), [[0, 0]; 2], "it is not read");
        assert_eq!(changed(|side| side.response.truncate(1019)), [[3, 0]; 2]);
        assert_eq!(changed(|side| side.set.truncate(15)), [[3, 0]; 2]);
        assert_eq!(answers(&pair, &discover(0, 0)[..3]), [[4, 0]; 2]);
    }
}

/// The second shelf changes and breaks this premise alone. What both then get differs.
fn told_apart(change: impl Fn(&mut Side), premise: Premise, asked: u8) -> Vec<[[u64; 2]; 2]> {
    let told = |mut pair: [Side; 2]| {
        change(&mut pair[1]);
        assert_eq!(broken_in(&pair), [premise]);
        assert_ne!(pair[0].ask(&discover(0, asked)), pair[1].ask(&discover(0, asked)));
        answers(&pair, &discover(0, asked))
    };
    pairs().map(told).to_vec()
}

const BOTH_SHOWN: [[[u64; 2]; 2]; 2] = [[[0, 0], [0, 0]]; 2];

#[test]
fn records_of_permitted_phys() {
    for (place, bits) in [(0, 0x10), (2, 0x01), (4, 0x80), (11, 0x01), (12, 0x04), (13, 0x01)] {
        let told = told_apart(|side| side.record(0)[place] ^= bits, Premise::EqualRecords, 0);
        assert_eq!(told, BOTH_SHOWN, "byte {place}");
    }
    let mut pair = [rack(Profile::Large), elsewhere(Profile::Large)];
    pair[1].record(0)[1] = 3;
    assert_eq!(broken_in(&pair), [Premise::EqualRecords], "there group 8 reaches group 3");
    let byte_63 = |side: &Side| side.ask(&discover(0, 0)).1[63];
    assert_eq!([byte_63(&pair[0]), byte_63(&pair[1])], [1, 3]);
}

#[test]
fn the_record_of_a_permitted_phy_that_is_not_ready() {
    for mut pair in pairs() {
        pair.iter_mut().for_each(|side| side.record(7)[2] = 0x02);
        cannot_be_told_apart(&pair);
        let mut told = pair.clone();
        told[1].record(7)[0] = 0x00;
        assert_eq!(broken_in(&told), [Premise::EqualRecords]);
        let byte_60 = |side: &Side| side.ask(&discover(0, 7)).1[60];
        assert_eq!([byte_60(&told[0]), byte_60(&told[1])], [0x03, 0x01]);
        for place in [3, 4, 11, 12, 13, 14, 15] {
            let mut same = pair.clone();
            same[1].record(7)[place] ^= 0x01;
            assert_eq!(broken_in(&same), [Premise::EqualRecords]);
            assert_eq!(same[0].ask(&discover(0, 7)), same[1].ask(&discover(0, 7)), "byte {place} is not shown");
        }
    }
}

#[test]
fn which_phys_are_permitted() {
    let moved = told_apart(|side| side.record(0)[1] = 0, Premise::SamePhysPermitted, 0);
    assert_eq!(moved, [[[0, 0], [0, 0x16]]; 2], "phy 0 is in a group that group 8 does not reach");
    let mut pair = [rack(Profile::Large), elsewhere(Profile::Large)];
    pair[1].permissions[16 * 8 + 14] |= 1 << 1;
    assert_eq!(broken_in(&pair), [Premise::SamePhysPermitted], "group 8 reaches group 9");
    assert_eq!(answers(&pair, &discover(0, 1)), [[0, 0x16], [0, 0]]);
    assert_eq!(answers(&pair, &discover(0, 6)), [[0, 0x16], [0, 0]]);
}

#[test]
fn readiness_counts_sizes_and_buffers() {
    let told = told_apart(|side| side.record(2)[2] = 0xfe, Premise::ReadyInBoth, 1);
    assert_eq!(told, [[[0, 0x16], [7, 0]]; 2]);
    assert_eq!(told_apart(|side| side.expander_changes = 0x1235, Premise::SameCounts, 0), BOTH_SHOWN);
    assert_eq!(told_apart(|side| side.phy_changes = 0x57, Premise::SameCounts, 7), BOTH_SHOWN);
    let told = told_apart(|side| side.expander_changes = 65_536, Premise::SameCounts, 1);
    assert_eq!(told, [[[0, 0x16], [5, 0]]; 2]);
    let told = told_apart(|side| side.phys.extend(HIDDEN[0]), Premise::EqualSizes, 8);
    assert_eq!(told, [[[0, 0x10], [0, 0x16]]; 2]);
    assert_eq!(told_apart(|side| side.response[108] = 0, Premise::EqualBuffers, 0), BOTH_SHOWN);
    assert_eq!(told_apart(|side| side.set[16] = 0, Premise::EqualBuffers, 0), BOTH_SHOWN);
    let told = told_apart(|side| side.response.truncate(1019), Premise::EqualBuffers, 1);
    assert_eq!(told, [[[0, 0x16], [3, 0]]; 2]);
    let told = told_apart(|side| side.carried = 264, Premise::SameCarriedByte, 1);
    assert_eq!(told, [[[0, 0x16], [5, 0]]; 2], "what is no byte is refused, though it is not read");
}

/// These premises the request names as well. Broken alone they make no difference.
#[test]
fn premises_that_the_bytes_do_not_hang_on() {
    let not_told_apart = |change: &dyn Fn(&mut [Side; 2]), premise| {
        for mut pair in pairs() {
            change(&mut pair);
            assert_eq!(broken_in(&pair), [premise]);
            assert!(requests().iter().all(|request| pair[0].ask(request) == pair[1].ask(request)), "{premise:?}");
        }
    };
    let cut = |side: &mut Side| side.permissions.truncate(7);
    not_told_apart(&|pair| pair.iter_mut().for_each(cut), Premise::RightSizes);
    let on_phy_5 = |side: &mut Side| (side.phy, side.record(5)[2]) = (5, 0x01);
    not_told_apart(&|pair| on_phy_5(&mut pair[1]), Premise::SamePhy);
    not_told_apart(&|pair| pair[1].record(2)[0] |= 0x10, Premise::ParticipatingInBothOrNeither);
    not_told_apart(&|pair| pair[1].carried = 9, Premise::SameCarriedByte);
    let in_group_9 = |side: &mut Side| {
        side.record(2)[1] = 9;
        side.permissions = side.profile.fresh_table();
    };
    not_told_apart(&|pair| in_group_9(&mut pair[1]), Premise::SameSourceGroup);
}

#[test]
fn the_premises_are_told_one_by_one() {
    for mut pair in pairs() {
        let other = &mut pair[1];
        other.phys.truncate(2 * RECORD + 1);
        (other.phy_changes, other.carried, other.set[19]) = (0, 9, 0);
        let expected = [
            Premise::RightSizes,
            Premise::EqualSizes,
            Premise::SameCounts,
            Premise::EqualBuffers,
            Premise::ReadyInBoth,
            Premise::SameCarriedByte,
            Premise::SameSourceGroup,
            Premise::SamePhysPermitted,
        ];
        assert_eq!(broken_in(&pair), expected, "there is no phy 2 any more, and nobody speaks on it");
    }
}

#[test]
fn of_which_requests_it_speaks() {
    assert!(is_spoken_of(&[0x40, 0x10]) && is_spoken_of(&[0, 0x10, 0, 0, 0, 0, 0, 0]), "no byte 8");
    assert!(!is_spoken_of(&[]) && !is_spoken_of(&[0x10]), "no function");
    assert!((0..=255).all(|byte_8| is_spoken_of(&discover(byte_8, 4)) == (byte_8 % 2 == 0)));
    let function = |byte_1| [&[0x40, byte_1][..], &discover(0, 4)[2..]].concat();
    assert!((0..=255).all(|byte_1| is_spoken_of(&function(byte_1)) == (byte_1 == 0x10)));
}

/// What a member learns all the same.
#[test]
fn channels_that_stay_open() {
    for pair in pairs() {
        let attached = |side: &Side, phy| side.ask(&discover(1, phy)).1[24..32].to_vec();
        assert_eq!(attached(&pair[0], 3), address(3), "with the ignore bit one a hidden phy is shown");
        assert_eq!(answers(&pair, &discover(1, 4)), [[0, 0]; 2]);
        assert_ne!(pair[0].ask(&discover(1, 4)), pair[1].ask(&discover(1, 4)));
        for side in &pair {
            let exists = (0..=255).take_while(|&phy| side.answer(&discover(0, phy))[1] != 0x10);
            assert_eq!(exists.count(), 8, "10h against 16h tells how many phys there are");
        }
        let outcome = |side: &Side, destination| {
            let (phys, permissions, frame) = (side.phys.clone(), side.permissions.clone(), open_frame(destination, 0));
            let (routes, frame, out) = (Vec::new(), frame.to_vec(), vec![STAYS; 28]);
            Call::Open { phys, routes, permissions, phy: 2, frame, out }.model(side.profile).fields[..2].to_vec()
        };
        assert_eq!(outcome(&pair[0], address(3)), [0, 3], "a hidden address answers ZONE VIOLATION");
        assert_eq!(outcome(&pair[1], address(3)), [0, 1], "an absent one NO DESTINATION");
    }
}
