//! The small shelf, worked out by hand from request 09 of document 02.
//!
//! Its permission table is eight bytes: byte a is group a's row, bit j is group j. The rack's phys are in groups 1, 2,
//! 8, 8, 9, 9, 0 and 1, so four of them are in groups above 7.

use super::{address, batch, open_frame, zone_phys, CASE_1, STAYS};
use crate::bench::Rack;
use crate::small::{broadcast_frame, open, primitive, smp, start_up};
use crate::Answered;

const START_UP: [u8; 8] = [0x02, 0xff, 0x02, 0x02, 0x02, 0x02, 0x02, 0x02];
const NOTHING: [u8; 8] = [0; 8];
const EVERYTHING: [u8; 8] = [0xff; 8];

const ZONE_VIOLATION: u32 = 3;
const FORWARD: u32 = 4;

/// The bench rack's phys with the small shelf's permissions.
#[derive(Clone, Debug, PartialEq, Eq)]
struct Small {
    phys: Vec<u8>,
    permissions: [u8; 8],
}

fn rack(permissions: [u8; 8]) -> Small {
    Small { phys: Rack::default().phys, permissions }
}

impl Small {
    fn ask(&mut self, phy: u32, carried: u32, request: &[u8]) -> (Answered, Vec<u8>, [u8; 16]) {
        let (mut response, mut set) = (vec![STAYS; 1024], [STAYS; 16]);
        let answer = smp(&mut self.phys, &mut self.permissions, phy, carried, 0, 0, request, &mut response, &mut set);
        (answer, response, set)
    }

    /// The result for phy 0, which is in group 1.
    fn result(&mut self, request: &[u8]) -> u32 {
        let (answer, response, _) = self.ask(0, 0, request);
        assert_eq!((answer.refusal, u32::from(response[2])), (0, answer.result));
        answer.result
    }

    /// The rows of a report.
    fn rows(&mut self, start: u8, rows: u8) -> Vec<[u8; 16]> {
        let (answer, response, set) = self.ask(0, 0, &[0x40, 0x51, 0, 1, 0, 0, start, rows]);
        let length = 12 + 16 * usize::from(rows);
        assert_eq!(answer, Answered { refusal: 0, result: 0, length: length as u32, count: 0 });
        assert_eq!(response[..12], [0x41, 0x51, 0, 2 + 4 * rows, 0, 0, start, rows, 0, 0, 0, 0]);
        assert_eq!((response[length], set), (STAYS, [0; 16]));
        response[12..length].as_chunks().0.to_vec()
    }

    /// The set for CHANGE, and the group in the frame. No phy of the rack is beyond byte 0.
    fn change(&self, phy: u32) -> (u8, u8) {
        let (mut set, mut out) = ([STAYS; 16], [STAYS; 28]);
        assert_eq!(primitive(&self.phys, &self.permissions, phy, 0, &mut set, &mut out).refusal, 0);
        (set[0], out[3])
    }

    /// The same for a frame that carries this byte to phy 7.
    fn frame(&self, byte: u8) -> (u8, u8) {
        let (mut set, mut out) = ([STAYS; 16], [STAYS; 28]);
        assert_eq!(
            broadcast_frame(&self.phys, &self.permissions, 7, &[0x03, 0, 0, byte], &mut set, &mut out).refusal,
            0
        );
        (set[0], out[3])
    }
}

/// A table row as a report shows it where no group above 7 is on.
fn low(byte: u8) -> [u8; 16] {
    [0, 0, 0, 0, 0, 0, 0, 0, 0, 0, 0, 0, 0, 0, 0, byte]
}

fn single(source: u8, target: u8) -> [u8; 12] {
    [0x40, 0xc1, 0, 2, 0, 0, source, target, 0, 0x81, 0, 0]
}

/// What becomes of an OPEN from a phy in one group to a phy in another.
fn between(permissions: [u8; 8], from: u8, to: u8) -> u32 {
    let phy = |group, phy| [&[0, group, 0b11, 0][..], &address(phy), &[0; 4]].concat();
    let phys = [phy(from, 0), phy(to, 1)].concat();
    open(&phys, &[], &permissions, 0, &open_frame(address(1), 0), &mut [0; 28]).outcome
}

#[test]
fn start_up_follows_document_01_for_eight_groups() {
    let mut permissions = [STAYS; 8];
    assert_eq!(start_up(&mut permissions), 0);
    assert_eq!(permissions, START_UP);
}

#[test]
fn another_size_than_8_bytes_is_refused() {
    let Small { phys, .. } = rack(START_UP);
    for size in [0, 1, 7, 9, 16, 128, 256, 2047, 2048, 2049] {
        let mut table = vec![STAYS; size];
        let (mut set, mut out, mut response) = ([0; 16], [0; 28], [0; 1020]);
        assert_eq!(start_up(&mut table), 1, "{size} bytes");
        assert_eq!(open(&phys, &[], &table, 0, &open_frame(address(1), 0), &mut out).refusal, 1);
        assert_eq!(primitive(&phys, &table, 0, 0, &mut set, &mut out).refusal, 1);
        assert_eq!(broadcast_frame(&phys, &table, 7, &[0x03, 0, 0, 1], &mut set, &mut out).refusal, 1);
        assert_eq!(smp(&mut phys.clone(), &mut table, 0, 0, 0, 0, &CASE_1, &mut response, &mut set).refusal, 1);
        assert_eq!(table, vec![STAYS; size], "a refused call writes nothing");
    }
}

#[test]
fn row_a_is_byte_a_and_bit_j_is_group_j() {
    let mut permissions = NOTHING;
    permissions[5] = 0b0000_1000;
    permissions[7] = 0b1000_0001;
    let on = |from, to| between(permissions, from, to) == FORWARD;
    let all = (0..8).flat_map(|a| (0..8).map(move |b| (a, b)));
    let pairs: Vec<_> = all.filter(|&(from, to)| on(from, to)).collect();
    assert_eq!(pairs, [(5, 3), (7, 0), (7, 7)]);
}

#[test]
fn groups_above_7_reach_only_group_1_and_are_reached_only_by_it() {
    for permissions in [NOTHING, START_UP, EVERYTHING] {
        for above in [8, 9, 10, 15, 16, 17, 63, 64, 65, 126, 127] {
            assert_eq!(between(permissions, 1, above), FORWARD, "1 to {above}");
            assert_eq!(between(permissions, above, 1), FORWARD, "{above} to 1");
            for other in [0, 2, 3, 6, 7, 8, 9, 17, 64, 127] {
                assert_eq!(between(permissions, above, other), ZONE_VIOLATION, "{above} to {other}");
                assert_eq!(between(permissions, other, above), ZONE_VIOLATION, "{other} to {above}");
            }
        }
    }
    assert_eq!(between(NOTHING, 1, 1), ZONE_VIOLATION, "both are in the table, and it says no");
}

#[test]
fn carried_groups_and_route_records_above_7() {
    let Small { phys, permissions } = rack(START_UP);
    let sent = |phy, to, byte| {
        let mut out = [STAYS; 28];
        let opened = open(&phys, &[], &permissions, phy, &open_frame(address(to), byte), &mut out);
        (opened.outcome, out[20])
    };
    assert_eq!(sent(7, 0, 0x08), (FORWARD, 0x00), "carried group 8 reaches group 1");
    assert_eq!(sent(7, 1, 0x08), (ZONE_VIOLATION, STAYS), "but not group 2, which phy 7's own group would reach");
    assert_eq!(sent(7, 2, 0x01), (FORWARD, 0x00), "carried group 1 reaches group 8");
    assert_eq!(sent(2, 7, 0x01), (FORWARD, 0x08), "towards a participating phy byte 20 has group 8");
    let elsewhere = [0x51, 0, 0, 0, 0, 0, 0, 1];
    let by_route = |phy, group: u8| {
        let route = [&elsewhere[..], &[3, group, 0, 0]].concat();
        open(&phys, &route, &permissions, phy, &open_frame(elsewhere, 0), &mut [0; 28]).outcome
    };
    assert_eq!([1, 8, 9, 127].map(|group| by_route(0, group)), [FORWARD; 4], "from group 1");
    assert_eq!(by_route(2, 1), FORWARD, "from group 8 to the route's group 1, though its phy is in group 8");
    assert_eq!([2, 8, 9].map(|group| by_route(2, group)), [ZONE_VIOLATION; 3]);
}

#[test]
fn broadcasts_from_and_to_groups_above_7() {
    let fresh = rack(START_UP);
    assert_eq!(fresh.change(0), (0xfe, 1), "group 1 reaches all");
    assert_eq!(fresh.change(2), (0x81, 8), "group 8 reaches phys 0 and 7, not phy 3 of its own group");
    assert_eq!(fresh.change(1), (0x81, 2));
    assert_eq!(fresh.frame(0x01), (0x7f, 1));
    assert_eq!(fresh.frame(0x08), (0x01, 8), "phy 0; phy 7 is the arriving one");
    let full = rack(EVERYTHING);
    assert_eq!(full.change(1), (0xc1, 2), "phys 0, 6 and 7: groups 1, 0 and 1");
    assert_eq!(full.change(4), (0x81, 9));
    assert_eq!(full.frame(127), (0x01, 127));
    assert_eq!(rack(NOTHING).change(0), (0x3c, 1), "phys 2 to 5, which are in no table");
}

#[test]
fn a_single_order_names_groups_2_to_7() {
    let mut rack = rack(START_UP);
    assert_eq!(rack.ask(0, 0, &single(0x87, 0x82)).0, Answered { refusal: 0, result: 0, length: 4, count: 8 });
    assert_eq!(rack.permissions, [0x02, 0xff, 0x82, 0x02, 0x02, 0x02, 0x02, 0x06]);
    assert_eq!(rack.result(&single(2, 7)), 0, "switched off again");
    assert_eq!(rack.permissions, START_UP);
}

#[test]
fn a_single_order_that_names_a_group_above_7_answers_02h() {
    let mut rack = rack(START_UP);
    let fresh = rack.clone();
    for (source, target) in
        [(8, 0x89), (8, 0x87), (7, 0x88), (127, 0x82), (2, 0xff), (8, 0x88), (1, 0x88), (0x88, 0x07)]
    {
        assert_eq!(rack.result(&single(source, target)), 2, "{source:02x} {target:02x}");
    }
    let mut long = [0; 16];
    long[..12].copy_from_slice(&CASE_1);
    long[3] = 3;
    assert_eq!(rack.result(&long), 3, "03h comes first");
    assert_eq!(rack.ask(2, 0, &CASE_1).0.result, 1, "no right comes first");
    assert_eq!(rack, fresh);
}

#[test]
fn a_batch_row_sets_groups_2_to_7_and_no_others() {
    let mut shelf = rack(START_UP);
    assert_eq!(shelf.result(&batch(7, &[1 << 127 | 1 << 8 | 1 << 7 | 1 << 2 | 1])), 0);
    assert_eq!(shelf.permissions, [0x02, 0xff, 0x82, 0x02, 0x02, 0x02, 0x02, 0x86], "(7,2), (2,7) and (7,7)");
    assert_eq!(shelf.result(&batch(7, &[u128::MAX << 8])), 0, "all bits for groups above 7, and no other");
    assert_eq!(shelf.permissions, START_UP);
    assert_eq!(shelf.result(&batch(2, &[u128::MAX; 6])), 0);
    assert_eq!(shelf.permissions, [0x02, 0xff, 0xfe, 0xfe, 0xfe, 0xfe, 0xfe, 0xfe], "bits for 0 and 1 are ignored");
    let mut shelf = rack(START_UP);
    assert_eq!(shelf.result(&batch(2, &[1 << 3, 0])), 0);
    assert_eq!(shelf.permissions, START_UP, "a later row overrides");
}

#[test]
fn a_batch_row_above_7_answers_02h_after_all_else() {
    let mut rack = rack(START_UP);
    let fresh = rack.clone();
    let mut result = |start, k| rack.result(&batch(start, &vec![u128::MAX; k]));
    assert_eq!([(7, 2), (2, 7), (8, 1), (127, 1), (65, 63), (1, 8)].map(|(start, k)| result(start, k)), [2; 6]);
    assert_eq!([(128, 1), (66, 63), (127, 2), (255, 1), (129, 0)].map(|(start, k)| result(start, k)), [0x11; 5]);
    assert_eq!([(8, 0), (127, 0), (128, 0), (0, 0)].map(|(start, k)| result(start, k)), [0; 4], "no rows name none");
    let mut two_rows_said = batch(8, &[0]);
    two_rows_said[11] = 2;
    assert_eq!(rack.result(&two_rows_said), 3);
    assert_eq!(rack.ask(2, 0, &batch(8, &[0])).0.result, 1);
    assert_eq!(rack, fresh);
}

#[test]
fn a_descriptor_that_names_a_group_above_7_answers_02h() {
    let mut shelf = rack(START_UP);
    let fresh = shelf.clone();
    for group in [8, 9, 127, 128, 129] {
        assert_eq!(shelf.result(&zone_phys(1, &[[0x05, 0x07], [0x00, group]])), 2, "group {group}");
    }
    assert_eq!(shelf.result(&zone_phys(7, &[[0x00, 0x09]])), 2, "document 01's case 6");
    assert_eq!(shelf.result(&zone_phys(8, &[[0x00, 0x09]])), 0x10, "10h comes first");
    assert_eq!(shelf.result(&zone_phys(7, &[[0x00, 0x09]])[..10]), 3, "03h as well");
    assert_eq!(shelf.result(&zone_phys(8, &[])), 0);
    assert_eq!(shelf, fresh);
    let mut odd = zone_phys(2, &[[0xe5, 0x07]]);
    odd[10..].copy_from_slice(&[0x00, 0x08]);
    assert_eq!(shelf.result(&odd), 0, "the fill names no group");
    assert_eq!(shelf.phys[32..34], [0x05, 0x07]);
    assert_eq!(shelf.phys[48..50], [0x00, 0x08], "phy 3 stays in group 8");
    assert_eq!(shelf.result(&zone_phys(3, &[[0x10, 0x01], [0x00, 0x00]])), 0);
}

#[test]
fn a_report_shows_all_128_groups() {
    let mut shelf = rack([0x02, 0x06, 0x82, 0x02, 0x02, 0x02, 0x02, 0x86]);
    let mut row_1 = [0xff; 16];
    row_1[15] = 0x06;
    assert_eq!(shelf.rows(0, 3), [low(0x02), row_1, low(0x82)], "group 1 reaches all groups above 7");
    assert_eq!(shelf.rows(6, 4), [low(0x02), low(0x86), low(0x02), low(0x02)], "rows 6 to 9");
    assert_eq!(shelf.rows(64, 63), [low(0x02); 63]);
    assert_eq!(shelf.rows(127, 1), [low(0x02)]);
    let mut fresh = rack(START_UP);
    let expected: Vec<_> = (0..63).map(|a| if a == 1 { [0xff; 16] } else { low(0x02) }).collect();
    assert_eq!(fresh.rows(0, 63), expected, "at start-up it is document 01's table");
    assert_eq!(fresh.ask(0, 0, &[0x40, 0x51, 0, 1, 0, 0, 127, 5]).0.length, 28, "cut at row 127");
    assert_eq!(fresh.result(&[0x40, 0x51, 0, 1, 0, 0, 128, 1]), 0x11);
}

#[test]
fn a_caller_above_7_has_no_right() {
    let requests: [&[u8]; 3] = [&[0x40, 0x93, 0, 1, 0, 0, 0, 0], &single(2, 0x83), &[0x40, 0x51, 0, 1, 0, 0, 0, 1]];
    let results = |carried| requests.map(|request| rack(EVERYTHING).ask(7, carried, request).0.result);
    assert_eq!(results(7), [0, 0, 0]);
    assert_eq!([8, 10, 127].map(results), [[2, 1, 1]; 3], "group 10 is not group 2");
}
