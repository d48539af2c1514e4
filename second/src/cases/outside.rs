//! Groups from newer shelves, worked out by hand from request 02 of document 02, on both shelves.
//!
//! At start-up group 1 reaches all groups and every other group only group 1. Phy 7 of the rack is the one that
//! participates, and phy 0 is in group 1 as well.

use super::{address, open_frame, zone_phys, STAYS};
use crate::bench::{self, Event, Rack};
use crate::links::{elect, leaving};
use crate::tables::RECORD;
use crate::trial::call::{Answer, Call};
use crate::trial::profile::Profile;
use crate::Elected;

/// Bytes that are no group. Modulo 128 they are groups 0, 1, 8 and 127.
const NO_GROUPS: [u8; 4] = [128, 129, 136, 255];

const PARTICIPATING: u32 = 7;
const ELSEWHERE: [u8; 8] = [0x51, 0, 0, 0, 0, 0, 0, 1];

const NO_DESTINATION: [u64; 2] = [1, 0];
const BAD_DESTINATION: [u64; 2] = [2, 0];
const ZONE_VIOLATION: [u64; 2] = [3, 0];

/// One good request of each function, and functions that are not known.
const REQUESTS: [&[u8]; 8] = [
    &[0x40, 0x93, 0, 2, 0, 0, 2, 1, 0x00, 0x07, 0, 0],
    &[0x40, 0xc1, 0, 2, 0, 0, 0x03, 0x84, 0, 0x81, 0, 0],
    &[0x40, 0xc1, 0, 2, 0, 0, 0, 0, 0, 0x91, 2, 0],
    &[0x40, 0x51, 0, 1, 0, 0, 0, 5],
    &[0x40, 0x10, 0, 2, 0, 0, 0, 0, 0, 0, 0, 0],
    &[0x40, 0x00, 0, 0],
    &[0x40, 0x11, 0, 2, 0, 0, 0, 0, 0, 0, 0, 0],
    &[0x40, 0xff, 0, 0],
];

/// The bench rack's phys with the profile's permissions.
struct Shelf {
    profile: Profile,
    phys: Vec<u8>,
    permissions: Vec<u8>,
}

fn both() -> [Shelf; 2] {
    Profile::ALL.map(|profile| Shelf { profile, phys: Rack::default().phys, permissions: profile.fresh_table() })
}

impl Shelf {
    fn ask(&self, phy: u32, carried: u32, request: &[u8]) -> Answer {
        let (phys, permissions) = (self.phys.clone(), self.permissions.clone());
        let (response, set) = (vec![STAYS; 1020], vec![STAYS; 16]);
        let request = request.to_vec();
        let (expander_changes, phy_changes) = (0, 0);
        Call::Smp { phys, permissions, phy, carried, expander_changes, phy_changes, request, response, set }
            .model(self.profile)
    }

    /// The same, and the shelf goes on with the tables that it left behind.
    fn order(&mut self, phy: u32, carried: u32, request: &[u8]) {
        let answer = self.ask(phy, carried, request);
        assert_eq!(answer.fields[..2], [0, 0]);
        (self.phys, self.permissions) = (answer.buffers[0].clone(), answer.buffers[1].clone());
    }

    fn frame(&self, phy: u32, frame: &[u8]) -> Answer {
        let (phys, permissions) = (self.phys.clone(), self.permissions.clone());
        let (set, out) = (vec![STAYS; 16], vec![STAYS; 28]);
        Call::BroadcastFrame { phys, permissions, phy, frame: frame.to_vec(), set, out }.model(self.profile)
    }

    /// Outcome and phy, for an OPEN to an address that only these routes have.
    fn through(&self, phy: u32, routes: &[[u8; 12]]) -> [u64; 2] {
        self.open(phy, routes, &open_frame(ELSEWHERE, 0)).0
    }

    /// Outcome, phy, and byte 20 of what was written.
    fn open(&self, phy: u32, routes: &[[u8; 12]], frame: &[u8]) -> ([u64; 2], u8) {
        let (phys, permissions, out) = (self.phys.clone(), self.permissions.clone(), vec![STAYS; 28]);
        let (routes, frame) = (routes.concat(), frame.to_vec());
        let answer = Call::Open { phys, routes, permissions, phy, frame, out }.model(self.profile);
        assert_eq!(answer.refusal(), 0);
        ([answer.fields[1], answer.fields[2]], answer.buffers[0][20])
    }

    /// What stands in SMP's buffers after a call that is refused.
    fn untouched(&self) -> Vec<Vec<u8>> {
        vec![self.phys.clone(), self.permissions.clone(), vec![STAYS; 1020], vec![STAYS; 16]]
    }
}

fn forward(phy: u64) -> [u64; 2] {
    [4, phy]
}

fn long(group: u8) -> [u8; 28] {
    let mut frame = [0; 28];
    frame[0] = 0x12;
    frame[3] = group;
    frame
}

fn route(phy: u8, group: u8) -> [u8; 12] {
    routed(ELSEWHERE, phy, group, 0)
}

fn routed(address: [u8; 8], phy: u8, group: u8, priority: u8) -> [u8; 12] {
    let [a, b, c, d, e, f, g, h] = address;
    [a, b, c, d, e, f, g, h, phy, group, priority, 0]
}

#[test]
fn a_carried_byte_above_127_is_refused_5_on_a_participating_phy() {
    for shelf in both() {
        for (carried, request) in NO_GROUPS.iter().flat_map(|&byte| REQUESTS.map(|request| (byte, request))) {
            let answer = shelf.ask(PARTICIPATING, carried.into(), request);
            assert_eq!(answer.fields, [5, 0, 0, 0, 0], "{carried} carried, {request:x?}");
            assert_eq!(answer.buffers, shelf.untouched(), "a refused call writes nothing");
        }
        let refusals = (0..=255).map(|carried| shelf.ask(PARTICIPATING, carried, REQUESTS[0]).refusal());
        assert!(refusals.enumerate().all(|(byte, refusal)| refusal == if byte > 127 { 5 } else { 0 }));
    }
}

#[test]
fn a_carried_127_is_a_group() {
    let [mut large, small] = both();
    let results = |shelf: &Shelf| {
        [0x93, 0xc1, 0x51, 0x11].map(|function| {
            let answer = shelf.ask(PARTICIPATING, 127, &[0x40, function, 0, 9]);
            assert_eq!(answer.refusal(), 0);
            answer.fields[1]
        })
    };
    assert_eq!([&large, &small].map(results), [[2, 1, 1, 1]; 2], "it has no right");
    large.order(0, 0, &[0x40, 0xc1, 0, 2, 0, 0, 127, 0x82, 0, 0x80, 0, 0]);
    assert_eq!(results(&large), [3, 3, 3, 1], "now it has, and 03h is next");
}

#[test]
fn a_request_is_refused_for_all_else_before_its_group() {
    for mut shelf in both() {
        for carried in NO_GROUPS.map(u32::from) {
            let refusal = |request: &[u8]| shelf.ask(PARTICIPATING, carried, request).refusal();
            assert_eq!([&[][..], &[0x40, 0x93, 0], &[0x41, 0x93, 0]].map(refusal), [4; 3]);
            assert_eq!(refusal(&[0x41, 0x93, 0, 0]), 5);
            assert_eq!(shelf.ask(8, carried, REQUESTS[0]).refusal(), 2);
        }
        assert_eq!(leaving(&mut shelf.phys, PARTICIPATING), 0);
        assert_eq!(shelf.ask(PARTICIPATING, 136, REQUESTS[0]).refusal(), 7);
    }
}

#[test]
fn a_phy_that_is_not_participating_carries_anything() {
    for mut shelf in both() {
        for (phy, request) in [0, 2].iter().flat_map(|&phy| REQUESTS.map(|request| (phy, request))) {
            let expected = shelf.ask(phy, 0, request);
            assert_eq!(expected.refusal(), 0);
            assert!((1..=255).all(|carried| shelf.ask(phy, carried, request) == expected), "phy {phy}, {request:x?}");
        }
        for (phy, carried) in [(0, 256), (0, 264), (2, 256), (PARTICIPATING, 257), (PARTICIPATING, u32::MAX)] {
            assert_eq!(shelf.ask(phy, carried, REQUESTS[0]).refusal(), 5, "{carried} is no byte, on any phy");
        }
        shelf.order(0, 136, &zone_phys(0, &[[0x1f, 1]]));
        assert_eq!(shelf.ask(0, 136, REQUESTS[0]).refusal(), 5, "from now on phy 0 participates");
        shelf.order(0, 1, &zone_phys(0, &[[0x0f, 1]]));
        assert_eq!(shelf.ask(0, 136, REQUESTS[0]).refusal(), 0);
    }
}

#[test]
fn byte_3_above_127_is_refused_5_on_a_participating_phy() {
    for shelf in both() {
        let untouched = vec![vec![STAYS; 16], vec![STAYS; 28]];
        for group in NO_GROUPS {
            for frame in [&[0x03, 0, 0, group][..], &long(group)] {
                let answer = shelf.frame(PARTICIPATING, frame);
                assert_eq!((answer.fields, &answer.buffers), ([5, 0, 0, 0, 0], &untouched), "{frame:x?}");
                assert_eq!(shelf.frame(0, frame).refusal(), 6, "not participating");
                assert_eq!(shelf.frame(PARTICIPATING, &[frame, &[0]].concat()).refusal(), 4);
            }
            let other_type = [0x04, 0, 0, group];
            assert_eq!([0, PARTICIPATING].map(|phy| shelf.frame(phy, &other_type).refusal()), [5; 2]);
        }
    }
}

#[test]
fn byte_3_of_127_is_a_group() {
    for shelf in both() {
        for frame in [&[0x03, 0xff, 0xff, 127][..], &long(127)] {
            let answer = shelf.frame(PARTICIPATING, frame);
            assert_eq!(answer.fields, [0, 1, 0, 0, 0], "phy 0 is in group 1 and is told; phy 7 is the arriving one");
            assert_eq!((answer.buffers[0][0], answer.buffers[1][3]), (0x01, 127));
        }
    }
}

#[test]
fn a_route_of_no_group_is_skipped_and_the_search_goes_on() {
    for shelf in both() {
        assert_eq!(shelf.through(0, &[route(3, 127)]), forward(3));
        for group in NO_GROUPS {
            let none = route(3, group);
            assert_eq!(shelf.through(0, &[none]), NO_DESTINATION, "{group}");
            assert_eq!(shelf.through(0, &[none, none]), NO_DESTINATION);
            assert_eq!(shelf.through(0, &[none, route(5, 8)]), forward(5));
            assert_eq!(shelf.through(0, &[none, none, route(8, 1), route(6, 127), route(5, 1)]), forward(6));
            assert_eq!(shelf.through(0, &[route(5, 1), none]), forward(5));
            assert_eq!(shelf.through(3, &[none]), NO_DESTINATION, "it does not lead back either");
            assert_eq!(shelf.through(3, &[route(4, group), route(3, 1)]), BAD_DESTINATION);
            assert_eq!(shelf.through(2, &[none, route(4, 9), route(5, 1)]), ZONE_VIOLATION, "from group 8");
        }
    }
}

#[test]
fn a_route_of_no_group_is_no_candidate() {
    let mut phys = Rack::default().phys;
    let of = |priority, last: u64| Elected { refusal: 0, priority, address: 0x5000_0000_0000_0000 | last };
    let best = |group| routed(address(0x10), 0, group, 15);
    assert_eq!(elect(&phys, &best(127)), of(15, 0x20));
    for group in NO_GROUPS {
        assert_eq!(elect(&phys, &best(group)), of(15, 0x10), "phy 0 stays");
        let second = routed(address(8), 0, 1, 15);
        assert_eq!(elect(&phys, &[best(group), second].concat()), of(15, 0x18), "and the search goes on");
        assert_eq!(elect(&phys, &[second, best(group)].concat()), of(15, 0x18));
    }
    assert_eq!(leaving(&mut phys, 0), 0);
    let none = Elected { refusal: 0, priority: 0, address: 0 };
    assert_eq!(NO_GROUPS.map(|group| elect(&phys, &best(group))), [none; 4]);
}

/// OPEN byte 20, byte 1 of a phy record, source and target of C1h: there the highest bit is none of the group's.
#[test]
fn other_bytes_keep_their_rules() {
    for mut shelf in both() {
        shelf.phys[6 * RECORD] = 0x10;
        let sent = |byte, to| shelf.open(6, &[], &open_frame(address(to), byte));
        assert_eq!(sent(0x88, 7), (forward(7), 0x88), "group 8 reaches group 1, and bit 7 is carried on");
        assert_eq!(sent(0x88, 1), (ZONE_VIOLATION, STAYS), "it does not reach group 2");
        assert_eq!(sent(0x81, 2), (forward(2), 0), "group 1 does reach group 8");
        shelf.phys[2 * RECORD + 1] = 0x81;
        assert_eq!(shelf.open(2, &[], &open_frame(address(3), 0)).0, forward(3), "phy 2 is in group 1");
        assert_eq!(shelf.open(3, &[], &open_frame(address(2), 0)).0, forward(2), "from either side");
        assert_eq!(shelf.ask(2, 0, REQUESTS[0]).fields[..2], [0, 0]);
        let single = [0x40, 0xc1, 0, 2, 0, 0, 0x83, 0x84, 0, 0x81, 0, 0];
        assert_eq!(shelf.ask(0, 0, &single).buffers, shelf.ask(0, 0, REQUESTS[1]).buffers);
        assert_eq!(shelf.ask(0, 0, &zone_phys(1, &[[0x00, 0x87]])).fields[..2], [0, 2], "93h answers 02h");
    }
}

#[test]
fn the_bench_reads_the_same_bytes() {
    let smp = |phy, carried| Event { kind: 1, phy, carried, payload: REQUESTS[3] }.bytes();
    let frame = |phy, group| Event { kind: 4, phy, carried: 136, payload: &[0x03, 0, 0, group] }.bytes();
    let open = Event { kind: 2, phy: 7, carried: 136, payload: &open_frame(address(0), 0x88) }.bytes();
    let stream = [smp(7, 1), smp(7, 136), smp(7, 127), smp(0, 136), frame(7, 8), frame(7, 136), frame(0, 136), open];
    let expected = "rack 1\n1 S 00 92 0\n2 X 5\n3 S 01 4 0\n4 S 00 92 0\n5 B 1\n6 X 5\n7 X 6\n8 O FWD 0\n";
    assert_eq!(bench::text(&stream.concat()), expected);
}
