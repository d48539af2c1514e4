//! DISCOVER, worked out by hand from request 03 of document 02 with the places of source document 002, and the records
//! of 16 bytes that it brought.
//!
//! At start-up group 1 reaches all groups and every other group only group 1. The rack's groups are 1, 2, 8, 8, 9, 9, 0
//! and 1; case 1 switches groups 8 and 9 on for one another, but neither for itself.

use super::*;
use crate::trial::call::{Answer, Call};
use crate::trial::profile::Profile;

/// The rack's phys with the profile's permissions, and what the caller hands in.
#[derive(Clone)]
struct Shelf {
    profile: Profile,
    phys: Vec<u8>,
    permissions: Vec<u8>,
    expander_changes: u32,
    phy_changes: u32,
}

fn shelf(profile: Profile) -> Shelf {
    let (phys, permissions) = (Rack::default().phys, profile.fresh_table());
    Shelf { profile, phys, permissions, expander_changes: 0, phy_changes: 0 }
}

fn both() -> [Shelf; 2] {
    Profile::ALL.map(shelf)
}

/// The bench rack after case 1.
fn after_case_1() -> Shelf {
    let mut shelf = shelf(Profile::Large);
    let answer = shelf.ask(0, &CASE_1);
    assert_eq!(answer.fields[..2], [0, 0]);
    shelf.permissions.clone_from(&answer.buffers[1]);
    shelf
}

impl Shelf {
    fn ask(&self, phy: u32, request: &[u8]) -> Answer {
        let Shelf { profile, phys, permissions, expander_changes, phy_changes } = self.clone();
        let (response, set, request) = (vec![STAYS; 1024], vec![STAYS; 20], request.to_vec());
        let carried = 1;
        Call::Smp { phys, permissions, phy, carried, expander_changes, phy_changes, request, response, set }
            .model(profile)
    }

    /// The response and its length. No table changes, the set is empty, and no byte beyond is written.
    fn discover(&self, phy: u32, request: &[u8]) -> Vec<u8> {
        let answer = self.ask(phy, request);
        let [refusal, result, length, count, _] = answer.fields;
        assert_eq!((refusal, count), (0, 0));
        assert_eq!(answer.buffers[..2], [self.phys.clone(), self.permissions.clone()]);
        assert_eq!(answer.buffers[3], [&[0; 16][..], &[STAYS; 4]].concat());
        let (response, rest) = answer.buffers[2].split_at(length as usize);
        assert!(rest.iter().all(|&byte| byte == STAYS));
        assert_eq!(response[..3], [0x41, 0x10, result as u8]);
        response.to_vec()
    }

    /// The result.
    fn result(&self, phy: u32, request: &[u8]) -> u8 {
        self.discover(phy, request)[2]
    }

    fn record(&mut self, phy: usize) -> &mut [u8] {
        &mut self.phys[RECORD * phy..][..RECORD]
    }
}

fn request(byte_8: u8, phy: u8) -> [u8; 12] {
    [0x40, 0x10, 0, 2, 0, 0, 0, 0, byte_8, phy, 0, 0]
}

fn turned_down(result: u8) -> [u8; 4] {
    [0x41, 0x10, result, 0]
}

/// A response of 108 bytes that is zero but for these places.
fn shown(places: &[(usize, u8)]) -> Vec<u8> {
    let mut response = vec![0; 108];
    response[..4].copy_from_slice(&[0x41, 0x10, 0x00, 0x1a]);
    for &(place, byte) in places {
        response[place] = byte;
    }
    response
}

/// Phy 4 of the bench rack, whose own record has no device type.
const PHY_4: [(usize, u8); 5] = [(9, 4), (24, 0x50), (31, 0x14), (60, 0x01), (63, 9)];

#[test]
fn phy_4_from_phy_2_before_and_after_case_1() {
    let before = shelf(Profile::Large);
    assert_eq!(before.discover(2, &request(0, 4)), turned_down(0x16));
    assert_eq!(before.discover(2, &request(0, 8)), turned_down(0x10), "there is no phy 8");
    assert_eq!(before.discover(2, &request(1, 4)), shown(&PHY_4), "whatever the zoning says");
    let after = after_case_1();
    assert_eq!(after.discover(2, &request(0, 4)), shown(&PHY_4));
    assert_eq!(after.discover(2, &request(1, 4)), shown(&PHY_4));
    assert_eq!([0, 1].map(|byte_8| after.result(2, &request(byte_8, 8))), [0x10; 2]);
}

#[test]
fn what_a_member_sees_of_the_rack() {
    let results = |shelf: &Shelf, from| (0..8).map(|phy| shelf.result(from, &request(0, phy))).collect::<Vec<_>>();
    let before = [0, 0x16, 0x16, 0x16, 0x16, 0x16, 0x16, 0];
    assert_eq!(both().map(|shelf| results(&shelf, 2)), [before; 2], "not even phy 2 itself, or phy 3 of its group");
    assert_eq!(both().map(|shelf| results(&shelf, 0)), [[0; 8]; 2], "group 1 reaches all");
    assert_eq!(results(&after_case_1(), 2), [0, 0x16, 0x16, 0x16, 0, 0, 0x16, 0]);
    assert_eq!(results(&after_case_1(), 4), [0, 0x16, 0, 0, 0x16, 0x16, 0x16, 0]);
}

#[test]
fn all_fields_at_their_places() {
    for mut shelf in both() {
        shelf.record(5).copy_from_slice(&[
            0xff, 0x89, 0xfd, 0xff, 0x51, 0x52, 0x53, 0x54, 0x55, 0x56, 0x57, 0x58, 0xfd, 0xc7, 0xff, 0xff,
        ]);
        (shelf.expander_changes, shelf.phy_changes) = (0x1234, 0x56);
        let of_the_phy = [(4, 0x12), (5, 0x34), (9, 5), (42, 0x56), (60, 0x03), (63, 9)];
        let address = (24..32).zip(0x51..0x59);
        let attached = [(12, 0x50), (32, 0xc7)].into_iter().chain(address).collect::<Vec<_>>();
        assert_eq!(shelf.discover(0, &request(0, 5)), shown(&[&of_the_phy[..], &attached].concat()));
        shelf.record(5)[2] = 0xfe;
        assert_eq!(
            shelf.discover(0, &request(0, 5)),
            shown(&of_the_phy),
            "nothing is attached to one that is not ready"
        );
        shelf.record(5)[0] = 0xef;
        let not_participating = [&of_the_phy[..], &[(60, 0x01)]].concat();
        assert_eq!(shelf.discover(0, &request(0, 5)), shown(&not_participating));
    }
}

#[test]
fn a_phy_that_is_not_ready_is_hidden_and_shown_as_any() {
    let mut shelf = after_case_1();
    assert_eq!([4, 6].map(|phy| leaving(&mut shelf.phys, phy)), [0; 2]);
    assert_eq!(shelf.discover(2, &request(0, 4)), shown(&[(9, 4), (60, 0x01), (63, 9)]));
    assert_eq!(shelf.result(2, &request(0, 6)), 0x16);
    assert_eq!(shelf.discover(2, &request(1, 6)), shown(&[(9, 6), (60, 0x01)]));
}

#[test]
fn only_bit_0_of_byte_8_ignores_the_zoning() {
    let shelf = shelf(Profile::Large);
    let results = (0..=255).map(|byte_8| shelf.result(2, &request(byte_8, 4)));
    assert!(results.enumerate().all(|(byte_8, result)| result == if byte_8 % 2 == 1 { 0 } else { 0x16 }));
}

#[test]
fn lengths() {
    let shelf = shelf(Profile::Large);
    let good = request(0, 4);
    let with_byte_3 = |byte_3| [&good[..3], &[byte_3], &good[4..]].concat();
    let results: Vec<_> = (0..=255).map(|byte_3| shelf.result(0, &with_byte_3(byte_3))).collect();
    assert!((0..=255).all(|byte_3| results[byte_3] == if byte_3 == 0 || byte_3 == 2 { 0 } else { 3 }));
    for byte_3 in [0, 1, 2, 3] {
        let mut long = with_byte_3(byte_3);
        long.resize(1036, 0);
        for length in [4, 5, 8, 11, 13, 16, 1036] {
            assert_eq!(shelf.discover(2, &long[..length]), turned_down(3), "{length} bytes, byte 3 is {byte_3}");
        }
    }
    assert_eq!(shelf.result(2, &[0x40, 0x10, 0, 1, 0, 0, 0, 0, 0, 8, 0, 0]), 3, "03h comes before 10h and 16h");
}

#[test]
fn byte_9_is_the_phy_as_a_whole() {
    for shelf in both() {
        for byte_8 in [0, 1] {
            let results: Vec<_> = (0..=255).map(|phy| shelf.result(0, &request(byte_8, phy))).collect();
            assert_eq!(results, [[0; 8].to_vec(), vec![0x10; 248]].concat());
        }
        assert_eq!(shelf.result(2, &request(0, 0x84)), 0x10, "10h comes before 16h");
    }
    let mut shelf = shelf(Profile::Large);
    shelf.phys = (0..128).flat_map(|_| [0, 1, 1, 0, 0, 0, 0, 0, 0, 0, 0, 1, 0, 0, 0, 0]).collect();
    assert_eq!([127, 128, 255].map(|phy| shelf.result(0, &request(0, phy))), [0, 0x10, 0x10]);
}

#[test]
fn all_other_bytes_are_not_looked_at() {
    let shelf = after_case_1();
    for place in [2, 4, 5, 6, 7, 10, 11] {
        for byte in 1..=255 {
            let mut request = request(0, 4);
            request[place] = byte;
            assert_eq!(shelf.discover(2, &request), shown(&PHY_4));
            request[9] = 3;
            assert_eq!(shelf.result(2, &request), 0x16);
        }
    }
}

#[test]
fn the_source_group_decides_and_not_the_right() {
    let mut shelf = shelf(Profile::Large);
    // Group 8 reaches group 2, so it has the right, but not group 9. Group 9 reaches group 8.
    shelf.permissions[16 * 8 + 15] |= 1 << 2;
    shelf.permissions[16 * 9 + 14] |= 1 << 0;
    assert_eq!([1, 4].map(|phy| shelf.result(2, &request(0, phy))), [0, 0x16]);
    assert_eq!(shelf.result(4, &request(0, 2)), 0, "one way only, and without the right");
    // Phy 7 participates, and group 1 is carried there.
    shelf.record(7)[1] = 8;
    assert_eq!([2, 4].map(|phy| shelf.result(7, &request(0, phy))), [0; 2]);
}

#[test]
fn on_the_small_shelf_groups_above_7_meet_group_1_alone() {
    let mut shelf = shelf(Profile::Small);
    shelf.permissions.fill(0xff);
    let results = |from| (0..8).map(|phy| shelf.result(from, &request(0, phy))).collect::<Vec<_>>();
    assert_eq!(results(0), [0; 8]);
    assert_eq!(results(1), [0, 0, 0x16, 0x16, 0x16, 0x16, 0, 0], "groups 8 and 9 are in no table");
    assert_eq!(results(2), [0, 0x16, 0x16, 0x16, 0x16, 0x16, 0x16, 0]);
    shelf.permissions.fill(0);
    let results = |from| (0..8).map(|phy| shelf.result(from, &request(0, phy))).collect::<Vec<_>>();
    assert_eq!(results(0), [0x16, 0x16, 0, 0, 0, 0, 0x16, 0x16]);
    assert_eq!((0..8).map(|phy| shelf.result(0, &request(1, phy))).collect::<Vec<_>>(), [0; 8]);
}

#[test]
fn counts_that_do_not_fit_are_refused_whatever_is_asked() {
    let requests: [&[u8]; 6] = [
        &[0x40, 0x93, 0, 1, 0, 0, 0, 0],
        &[0x40, 0xc1, 0, 2, 0, 0, 0x03, 0x84, 0, 0x81, 0, 0],
        &[0x40, 0x51, 0, 1, 0, 0, 0, 5],
        &request(0, 4),
        &[0x40, 0x10, 0, 9],
        &[0x40, 0x11, 0, 0],
    ];
    let fits = [(0, 0), (65_535, 0), (0, 255), (65_535, 255)];
    let does_not = [(65_536, 0), (0, 256), (u32::MAX, 0), (0, u32::MAX), (65_536, 256), (1 << 16 | 5, 1 << 8 | 5)];
    for mut shelf in both() {
        for (counts, refusal) in fits.map(|counts| (counts, 0)).into_iter().chain(does_not.map(|counts| (counts, 5))) {
            (shelf.expander_changes, shelf.phy_changes) = counts;
            for (phy, asked) in [0, 2].iter().flat_map(|&phy| requests.map(|request| (phy, request))) {
                assert_eq!(shelf.ask(phy, asked).refusal(), refusal, "{counts:?}, phy {phy}, {asked:x?}");
            }
        }
        (shelf.expander_changes, shelf.phy_changes) = (65_536, 256);
        assert_eq!(shelf.ask(8, &[]).refusal(), 2);
        assert_eq!(shelf.ask(0, &[]).refusal(), 4);
        assert_eq!(shelf.ask(0, &[0x41, 0x10, 0]).refusal(), 4);
        assert_eq!(leaving(&mut shelf.phys, 0), 0);
        assert_eq!(shelf.ask(0, &[]).refusal(), 7);
        shelf.phys.pop();
        assert_eq!(shelf.ask(8, &[]).refusal(), 1);
    }
}

#[test]
fn identify_keeps_bytes_3_14_and_15() {
    let mut phys = Rack::default().phys;
    let junk = [0xe5, 0x88, 0xfe, 0x77, 0x50, 0, 0, 0, 0, 0, 0, 0x12, 0xff, 0xee, 0xdd, 0xcc];
    phys[32..48].copy_from_slice(&junk);
    assert_eq!(identify(&mut phys, 2, &address(2), 0xfa, 0x83), 0);
    let same = [0xe5, 0x88, 0x03, 0x77, 0x50, 0, 0, 0, 0, 0, 0, 0x12, 0x02, 0x83, 0xdd, 0xcc];
    assert_eq!(phys[32..48], same, "of the type only the low 3 bits are kept");
    assert_eq!(leaving(&mut phys, 2), 0);
    assert_eq!(phys[32..48], [&same[..2], &[0x02], &same[3..]].concat(), "leaving keeps all but byte 2");
    assert_eq!(identify(&mut phys, 2, &address(9), 255, 255), 0);
    assert_eq!(phys[32..48], [0, 0, 0x03, 0x77, 0x50, 0, 0, 0, 0, 0, 0, 0x19, 0x07, 0xff, 0xdd, 0xcc]);
    let others = Rack::default().phys;
    assert_eq!((&phys[..32], &phys[48..]), (&others[..32], &others[48..]));
}

#[test]
fn identify_refuses_numbers_that_do_not_fit() {
    let mut phys = Rack::default().phys;
    assert_eq!(identify(&mut phys, 2, &[0; 7], 256, 256), 7, "already ready");
    assert_eq!(leaving(&mut phys, 2), 0);
    let before = phys.clone();
    let mut refusal = |phy, address: &[u8], device_type, attached_phy| {
        let refusal = identify(&mut phys, phy, address, device_type, attached_phy);
        assert_eq!(phys, before);
        refusal
    };
    assert_eq!(refusal(8, &[0; 7], 256, 256), 2);
    assert_eq!(refusal(2, &[0; 7], 256, 256), 4);
    assert_eq!(refusal(2, &[0; 8], 256, 256), 5);
    assert_eq!(refusal(2, &[0; 8], 1, 0), 5);
    for (device_type, attached_phy) in [(256, 0), (0, 256), (257, 1), (1, 257), (u32::MAX, 0), (0, u32::MAX)] {
        assert_eq!(refusal(2, &address(2), device_type, attached_phy), 5);
    }
}

#[test]
fn the_bench_hands_in_type_1_and_counts_of_zero() {
    let mut rack = Rack::default();
    let mut line = |kind, phy, payload: &[u8]| rack.line(&Event { kind, phy, carried: 0, payload });
    assert_eq!(line(1, 2, &request(0, 4)), "S 16 4 0");
    assert_eq!(line(1, 2, &request(1, 4)), "S 00 108 0");
    assert_eq!(line(1, 2, &request(0, 8)), "S 10 4 0");
    assert_eq!(line(1, 2, &request(0, 4)[..8]), "S 03 4 0");
    assert_eq!(line(1, 0, &CASE_1), "S 00 4 8");
    assert_eq!(line(1, 2, &request(0, 4)), "S 00 108 0");
    assert_eq!([line(6, 4, &[]), line(5, 4, &address(4))], ["L", "L"]);
    let Exchange { answer, response, set } = ask(&mut rack, 2, 0, &request(0, 4));
    assert_eq!(answer, Answered { refusal: 0, result: 0, length: 108, count: 0 });
    assert_eq!(response[..108], shown(&[&PHY_4[..], &[(12, 0x10)]].concat()));
    assert_eq!((response[108], set[0], set[16]), (STAYS, 0, STAYS));
}
