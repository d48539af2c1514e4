//! Cases 1 to 12 of document 01, and others worked out by hand from its text.

use crate::bench::{self, Event, Rack};
use crate::large::{broadcast_frame, elect, identify, leaving, open, primitive, smp};
use crate::tables::RECORD;
use crate::{Answered, Elected, Opened, Told};

mod alike;
mod console;
mod discover;
mod outside;
mod ports;
mod saved;
mod sheets;
mod small;

const CASE_1: [u8; 12] = [0x40, 0xc1, 0, 2, 0, 0, 0x08, 0x89, 0, 0x81, 0, 0];

/// What stands in buffers before a call, to see which bytes stay.
const STAYS: u8 = 0xa5;

struct Exchange {
    answer: Answered,
    response: [u8; 1024],
    set: [u8; 20],
}

fn ask(rack: &mut Rack, phy: u32, carried: u32, request: &[u8]) -> Exchange {
    let (mut response, mut set) = ([STAYS; 1024], [STAYS; 20]);
    let answer = smp(&mut rack.phys, &mut rack.permissions, phy, carried, 0, 0, request, &mut response, &mut set);
    Exchange { answer, response, set }
}

/// The result, for a request that must not be refused.
fn result(rack: &mut Rack, phy: u32, request: &[u8]) -> u32 {
    let Answered { refusal, result, .. } = ask(rack, phy, 0, request).answer;
    assert_eq!(refusal, 0);
    result
}

fn address(phy: u8) -> [u8; 8] {
    [0x50, 0, 0, 0, 0, 0, 0, 0x10 + phy]
}

fn open_frame(destination: [u8; 8], zone_byte: u8) -> [u8; 28] {
    let mut frame = [0x77; 28];
    frame[0] = 0xf1;
    frame[4..12].copy_from_slice(&destination);
    frame[20] = zone_byte;
    frame
}

fn send(rack: &Rack, phy: u32, frame: &[u8]) -> (Opened, [u8; 30]) {
    let mut out = [STAYS; 30];
    let opened = open(&rack.phys, &[], &rack.permissions, phy, frame, &mut out);
    (opened, out)
}

fn batch(start: u8, rows: &[u128]) -> Vec<u8> {
    let mut request = vec![0x40, 0xc1, 0, (2 + 4 * rows.len()) as u8, 0, 0, 0, 0, 0, 0x90, start, rows.len() as u8];
    request.extend(rows.iter().flat_map(|row| row.to_be_bytes()));
    request
}

/// A 93h request with its fill and lengths right.
fn zone_phys(start: u8, descriptors: &[[u8; 2]]) -> Vec<u8> {
    let k = descriptors.len();
    let mut request = vec![0x40, 0x93, 0, ((4 + 2 * (k + k % 2)) / 4) as u8, 0, 0, start, k as u8];
    request.extend(descriptors.as_flattened());
    request.resize(8 + 2 * (k + k % 2), 0);
    request
}

fn row(rack: &Rack, group: usize) -> u128 {
    u128::from_be_bytes(rack.permissions[16 * group..][..16].try_into().unwrap())
}

#[test]
fn cases_1_to_5_as_one_stream() {
    let event = |kind, phy, payload: &[u8]| Event { kind, phy, carried: 0, payload }.bytes();
    let stream = [
        event(1, 0, &CASE_1),
        event(2, 2, &open_frame(address(4), 0)),
        event(2, 2, &open_frame(address(1), 0)),
        event(3, 2, &[0]),
        event(1, 2, &CASE_1),
    ];
    let expected = "rack 1\n1 S 00 4 8\n2 O FWD 4\n3 O ZV\n4 B 4\n5 S 01 4 0\n";
    assert_eq!(bench::text(&stream.concat()), expected);
}

#[test]
fn case_1_writes_both_places_a_response_and_the_set() {
    let mut rack = Rack::default();
    let fresh = Rack::default();
    let Exchange { answer, response, set } = ask(&mut rack, 0, 0, &CASE_1);
    assert_eq!(answer, Answered { refusal: 0, result: 0, length: 4, count: 8 });
    assert_eq!(response[..5], [0x41, 0xc1, 0, 0, STAYS]);
    assert_eq!(set[..17], [0xff, 0, 0, 0, 0, 0, 0, 0, 0, 0, 0, 0, 0, 0, 0, 0, STAYS]);
    let mut expected = fresh.permissions.clone();
    expected[16 * 8 + 14] = 0x02;
    expected[16 * 9 + 14] = 0x01;
    assert_eq!(rack.permissions, expected);
    assert_eq!(rack.phys, fresh.phys);
}

#[test]
fn cases_2_and_3_the_forwarded_frame() {
    let mut rack = Rack::default();
    assert_eq!(result(&mut rack, 0, &CASE_1), 0);
    let frame = open_frame(address(4), 0xff);
    let (opened, out) = send(&rack, 2, &frame);
    assert_eq!(opened, Opened { refusal: 0, outcome: 4, phy: 4 });
    assert_eq!(out[..28], open_frame(address(4), 0), "towards a phy that is not participating byte 20 is zero");
    assert_eq!(out[28..], [STAYS; 2]);
    let (opened, out) = send(&rack, 2, &open_frame(address(1), 0));
    assert_eq!((opened, out), (Opened { refusal: 0, outcome: 3, phy: 0 }, [STAYS; 30]));
}

#[test]
fn case_4_the_set_and_the_frame() {
    let mut rack = Rack::default();
    assert_eq!(result(&mut rack, 0, &CASE_1), 0);
    let (mut set, mut out) = ([STAYS; 17], [STAYS; 29]);
    let told = primitive(&rack.phys, &rack.permissions, 2, 0, &mut set, &mut out);
    assert_eq!(told, Told { refusal: 0, count: 4 });
    assert_eq!(set[..3], [0xb1, 0, 0]);
    assert_eq!(out[..5], [0x02, 0, 0, 8, 0]);
    assert_eq!((set[16], out[28]), (STAYS, STAYS));
}

#[test]
fn case_5_turned_down_writes_four_bytes_and_a_zero_set() {
    let mut rack = Rack::default();
    let Exchange { answer, response, set } = ask(&mut rack, 2, 0, &CASE_1);
    assert_eq!(answer, Answered { refusal: 0, result: 1, length: 4, count: 0 });
    assert_eq!(response[..5], [0x41, 0xc1, 1, 0, STAYS]);
    assert_eq!(set[..17], [0, 0, 0, 0, 0, 0, 0, 0, 0, 0, 0, 0, 0, 0, 0, 0, STAYS]);
    assert_eq!(rack, Rack::default());
}

#[test]
fn case_6_descriptors_up_to_the_last_phy() {
    let mut rack = Rack::default();
    let request = [0x40, 0x93, 0, 2, 0, 0, 7, 1, 0x00, 0x09, 0, 0];
    assert_eq!(zone_phys(7, &[[0x00, 0x09]]), request);
    let Exchange { answer, set, .. } = ask(&mut rack, 0, 0, &request);
    assert_eq!(answer, Answered { refusal: 0, result: 0, length: 4, count: 8 });
    assert_eq!(set[0], 0xff);
    assert_eq!(rack.phys[112..116], [0x00, 0x09, 0x03, 0x00]);
    let mut rack = Rack::default();
    assert_eq!(ask(&mut rack, 0, 0, &zone_phys(8, &[])).answer.count, 8, "the set is all ready phys, also for k = 0");
    assert_eq!(rack, Rack::default());
}

#[test]
fn case_7_a_descriptor_beyond_the_last_phy() {
    let mut rack = Rack::default();
    assert_eq!(result(&mut rack, 0, &zone_phys(8, &[[0, 9]])), 0x10);
    assert_eq!(rack, Rack::default());
}

#[test]
fn cases_8_and_9_the_last_row_and_the_one_after() {
    let mut rack = Rack::default();
    assert_eq!(result(&mut rack, 0, &batch(127, &[1 << 8])), 0);
    assert_eq!((row(&rack, 127), row(&rack, 8)), (0b10 | 1 << 8, 0b10 | 1 << 127));
    let mut rack = Rack::default();
    assert_eq!(result(&mut rack, 0, &batch(128, &[1 << 8])), 0x11);
    assert_eq!(rack, Rack::default());
}

#[test]
fn case_10_a_later_row_overrides() {
    let mut rack = Rack::default();
    assert_eq!(result(&mut rack, 0, &batch(8, &[1 << 9, 0])), 0);
    assert_eq!((row(&rack, 8), row(&rack, 9)), (0b10, 0b10));
}

#[test]
fn case_11_a_report_is_cut_at_row_127() {
    let mut rack = Rack::default();
    let Exchange { answer, response, set } = ask(&mut rack, 0, 0, &[0x40, 0x51, 0, 1, 0, 0, 127, 5]);
    assert_eq!(answer, Answered { refusal: 0, result: 0, length: 28, count: 0 });
    assert_eq!(response[..12], [0x41, 0x51, 0, 6, 0, 0, 127, 1, 0, 0, 0, 0]);
    assert_eq!(response[12..28], rack.permissions[2032..]);
    assert_eq!((response[28], set[0], set[16]), (STAYS, 0, STAYS));
}

#[test]
fn case_12_a_single_order_may_not_name_group_1() {
    let mut rack = Rack::default();
    assert_eq!(result(&mut rack, 0, &[0x40, 0xc1, 0, 2, 0, 0, 1, 8 | 0x80, 0, 0x80, 0, 0]), 2);
    assert_eq!(rack, Rack::default());
}

#[test]
fn the_fill_is_no_descriptor() {
    let mut rack = Rack::default();
    let mut request = zone_phys(7, &[[0xe5, 0x09]]);
    request[10..].fill(0xff);
    assert_eq!(result(&mut rack, 0, &request), 0, "a fill that would be no good descriptor");
    assert_eq!(rack.phys[112..114], [0x05, 0x09], "reserved bits are written as zero");
    let even = [0x40, 0x93, 0, 2, 0, 0, 6, 2, 0x00, 0x09, 0x00, 0x08];
    let mut odd = even;
    odd[7] = 1;
    let mut none = even;
    none[7] = 0;
    assert_eq!([even, odd, none].map(|request| result(&mut Rack::default(), 0, &request)), [0, 0, 3]);
}

#[test]
fn earlier_records_stay_when_a_later_descriptor_fails() {
    let bad = [[0x00, 0x80], [0x10, 0x02], [0x10, 0x00]];
    for last in bad {
        let mut rack = Rack::default();
        assert_eq!(result(&mut rack, 0, &zone_phys(1, &[[0x10, 0x01], last])), 2);
        assert_eq!(rack, Rack::default());
    }
    let beyond = zone_phys(7, &[[0x00, 0x80], [0x00, 0x80]]);
    assert_eq!(result(&mut Rack::default(), 0, &beyond), 0x10, "10h is found before 02h");
}

#[test]
fn the_right_is_asked_before_the_length() {
    let mut rack = Rack::default();
    let cut = |function| [0x40, function, 0, 9];
    assert_eq!([0x93, 0xc1, 0x51, 0x11].map(|f| result(&mut rack, 2, &cut(f))), [2, 1, 1, 1]);
    assert_eq!([0x93, 0xc1, 0x51, 0x11].map(|f| result(&mut rack, 0, &cut(f))), [3, 3, 3, 1]);
}

#[test]
fn a_participating_phy_speaks_for_the_carried_group() {
    let mut rack = Rack::default();
    assert_eq!(ask(&mut rack, 7, 8, &CASE_1).answer.result, 1, "its own group 1 does not count");
    assert_eq!(ask(&mut rack, 7, 1, &CASE_1).answer.result, 0);
    assert_eq!(ask(&mut rack, 2, 1, &CASE_1).answer.result, 1, "phy 2 is not participating");
    assert_eq!(ask(&mut rack, 7, 0x101, &CASE_1).answer.refusal, 5, "no byte");
    assert_eq!(ask(&mut rack, 0, 0x101, &CASE_1).answer.refusal, 5, "no byte, though it would not count");
}

#[test]
fn the_operation_and_its_lengths() {
    let operation = |byte_9| [0x40, 0xc1, 0, 2, 0, 0, 8, 9, 0, byte_9, 0, 0];
    let mut rack = Rack::default();
    assert_eq!([0x70, 0x8e, 0x90, 0xa0].map(|byte| result(&mut rack, 0, &operation(byte))), [2, 0, 0, 2]);
    let mut long_single = [0; 16];
    long_single[..12].copy_from_slice(&operation(0x80));
    long_single[3] = 3;
    assert_eq!(result(&mut rack, 0, &long_single), 3);
    assert_eq!(result(&mut rack, 0, &batch(128, &[])), 0, "128 + 0 is not above 128");
    assert_eq!(result(&mut rack, 0, &batch(129, &[])), 0x11);
    assert_eq!(result(&mut rack, 0, &batch(0, &[])), 0);
    assert_eq!(result(&mut rack, 0, &batch(1, &[0])), 2);
    assert_eq!(result(&mut rack, 0, &batch(66, &[0; 63])), 0x11, "66 + 63 is above 128");
    assert_eq!(result(&mut rack, 0, &batch(65, &[0; 63])), 0);
    assert_eq!(rack, Rack::default());
}

#[test]
fn a_report_has_at_most_63_rows() {
    let mut rack = Rack::default();
    let Exchange { answer, response, .. } = ask(&mut rack, 0, 0, &[0x40, 0x51, 0, 1, 0, 0, 0, 255]);
    assert_eq!((answer.length, response[3], response[7], response[1020]), (1020, 254, 63, STAYS));
    assert_eq!(response[12..1020], rack.permissions[..1008]);
    assert_eq!(result(&mut rack, 0, &[0x40, 0x51, 0, 1, 0, 0, 128, 0]), 0x11);
    assert_eq!(result(&mut rack, 0, &[0x40, 0x51, 0, 2, 0, 0, 0, 0]), 3);
    assert_eq!(ask(&mut rack, 0, 0, &[0x40, 0x51, 0, 1, 0, 0, 0, 0]).answer.length, 12);
}

#[test]
fn byte_20_between_all_kinds_of_phys() {
    let mut rack = Rack::default();
    // Phy 6 participates as well, and group 5 is what arrives there.
    rack.phys[6 * RECORD] = 0x10;
    rack.permissions[16 * 5 + 15] |= 1 << 1;
    let zone_byte = |phy, to, carried| {
        let (opened, out) = send(&rack, phy, &open_frame(address(to), carried));
        assert_eq!((opened.refusal, opened.outcome, opened.phy), (0, 4, u32::from(to)));
        out[20]
    };
    assert_eq!(zone_byte(6, 7, 0x05), 0x05, "the carried bit is carried on");
    assert_eq!(zone_byte(6, 7, 0x85), 0x85);
    assert_eq!(zone_byte(6, 0, 0x85), 0x00);
    assert_eq!(zone_byte(0, 7, 0x05), 0x81, "phy 0 has a priority, and its own group counts");
    assert_eq!(zone_byte(2, 7, 0x85), 0x08, "phy 2 has no priority");
}

#[test]
fn searches_end_at_the_first_record_that_fits() {
    let rack = Rack::default();
    let mut phys = rack.phys.clone();
    phys[2 * RECORD + 11] = 0x10;
    phys[0] = 0;
    phys[2] = 0x02;
    let unready_first = open(&phys, &[], &[0xff; 2048], 1, &open_frame(address(0), 0), &mut [0; 28]);
    assert_eq!((unready_first.outcome, unready_first.phy), (4, 2), "phy 0 has the address but is not ready");
    let elsewhere = [0x51, 0, 0, 0, 0, 0, 0, 1];
    let route = |phy: u8, group: u8| [&elsewhere[..], &[phy, group, 0, 0]].concat();
    let through = |routes: &[Vec<u8>], phy| {
        let (routes, frame) = (routes.concat(), open_frame(elsewhere, 0));
        open(&phys, &routes, &rack.permissions, phy, &frame, &mut [0; 28])
    };
    let found = Opened { refusal: 0, outcome: 4, phy: 5 };
    assert_eq!(through(&[route(8, 8), route(0, 8), route(5, 1), route(6, 8)], 3), found, "beyond, not ready, fits");
    let outcome = |routes: &[Vec<u8>], phy| through(routes, phy).outcome;
    assert_eq!(outcome(&[route(5, 8), route(5, 1)], 3), 3, "the route's group counts, and the search is over");
    assert_eq!(outcome(&[route(3, 1), route(5, 1)], 3), 2, "a route back");
    assert_eq!(outcome(&[route(255, 1)], 3), 1);
    let zero = open_frame([0; 8], 0);
    phys[5 * RECORD + 4..][..8].fill(0);
    assert_eq!(open(&phys, &[0; 12], &[0xff; 2048], 1, &zero, &mut [0; 28]).outcome, 1, "zero matches nothing");
}

#[test]
fn broadcast_frames_by_type_and_length() {
    let mut rack = Rack::default();
    rack.permissions[16 * 8 + 15] |= 1;
    let arrive = |phy, frame: &[u8]| {
        let (mut set, mut out) = ([STAYS; 16], [STAYS; 28]);
        let told = broadcast_frame(&rack.phys, &rack.permissions, phy, frame, &mut set, &mut out);
        (told.refusal, told.count, set[0], out[0], out[3])
    };
    let mut long = [0xff; 28];
    long[0] = 0x02;
    long[3] = 8;
    assert_eq!(arrive(7, &[0xd3, 0xff, 0xff, 0x08]), (0, 2, 0x41, 0x52, 8), "group 8 reaches phys 0, 6 and 7");
    assert_eq!(arrive(7, &long), (0, 2, 0x41, 0x02, 8));
    let refused = |number| (number, 0, STAYS, STAYS, STAYS);
    assert_eq!(arrive(7, &[]), refused(4));
    assert_eq!(arrive(7, &long[..27]), refused(4));
    assert_eq!(arrive(7, &[3; 28]), refused(4));
    assert_eq!(arrive(7, &[1; 5]), refused(5));
    assert_eq!(arrive(0, &[3; 4]), refused(6));
    assert_eq!(arrive(0, &[3; 5]), refused(4));
}

#[test]
fn refusals_in_order_of_checking() {
    let rack = Rack::default();
    let mut down = rack.clone();
    assert_eq!(leaving(&mut down.phys, 2), 0);
    let bad = [0u8; 27];
    let refusal = |phys: &[u8], phy, room: usize, frame: &[u8]| {
        open(phys, &[], &rack.permissions, phy, frame, &mut vec![0; room]).refusal
    };
    assert_eq!(refusal(&down.phys[1..], 256, 27, &bad), 1);
    assert_eq!(refusal(&down.phys, 256, 27, &bad), 2);
    assert_eq!(refusal(&down.phys, 8, 27, &bad), 2);
    assert_eq!(refusal(&down.phys, 2, 27, &bad), 3);
    assert_eq!(refusal(&down.phys, 2, 28, &bad), 7);
    assert_eq!(refusal(&rack.phys, 2, 28, &bad), 4);
    assert_eq!(refusal(&rack.phys, 2, 28, &[0; 28]), 5);
}

#[test]
fn links_leave_and_come_back() {
    let mut phys = Rack::default().phys;
    phys[2 * RECORD..][..4].copy_from_slice(&[0xe5, 0x88, 0xff, 0x77]);
    assert_eq!(leaving(&mut phys, 2), 0);
    assert_eq!(phys[32..36], [0xe5, 0x88, 0x02, 0x77]);
    assert_eq!(leaving(&mut phys, 2), 7);
    assert_eq!(identify(&mut phys, 2, &[0; 8], 1, 0), 5);
    assert_eq!(identify(&mut phys, 2, &[0; 7], 1, 0), 4);
    assert_eq!(identify(&mut phys, 2, &address(2), 1, 0), 0);
    assert_eq!(phys[32..36], [0xe5, 0x88, 0x03, 0x77], "the same address keeps bytes 0 and 1");
    assert_eq!(identify(&mut phys, 2, &[0; 7], 1, 0), 7);
    assert_eq!(leaving(&mut phys, 2), 0);
    assert_eq!(identify(&mut phys, 2, &address(9), 1, 0), 0);
    assert_eq!(phys[32..44], [0, 0, 0x03, 0x77, 0x50, 0, 0, 0, 0, 0, 0, 0x19], "another one clears them");
    phys[32..35].copy_from_slice(&[0x0f, 0x08, 0xfc]);
    assert_eq!(identify(&mut phys, 2, &address(2), 1, 0), 0);
    assert_eq!(phys[32..36], [0x0f, 0x08, 0x03, 0x77], "no address was known");
}

#[test]
fn election_by_priority_and_then_by_address() {
    let mut phys = Rack::default().phys;
    let elected = |phys: &[u8], routes: &[u8]| elect(phys, routes);
    let of = |priority, address| Elected { refusal: 0, priority, address };
    assert_eq!(elected(&phys, &[]), of(15, 0x5000_0000_0000_0010));
    let route = [0x50, 0, 0, 0, 0, 0, 0, 0x20, 0xff, 0, 0x0f, 0];
    assert_eq!(elected(&phys, &route), of(15, 0x5000_0000_0000_0020), "the greater address, whatever its phy");
    phys[2] = 0;
    assert_eq!(elected(&phys, &[]), of(0, 0), "the only phy with a priority is not ready");
    let zero = [0, 0, 0, 0, 0, 0, 0, 0, 0, 0, 0x0f, 0];
    assert_eq!(elected(&phys, &zero), of(0, 0));
    assert_eq!(elected(&phys, &[0; 11]), Elected { refusal: 1, priority: 0, address: 0 });
}

#[test]
fn bench_lines_k_t_x_and_l() {
    assert_eq!(bench::text(&[]), "rack 1\n");
    assert_eq!(bench::text(&[6, 2, 0, 0]), "rack 1\n1 T\n", "a cut-off head");
    assert_eq!(bench::text(&[9, 2, 0, 0, 2, 0]), "rack 1\n1 T\n", "of any kind");
    let stream = [
        &[6, 2, 0, 0, 0][..],
        &[6, 2, 0, 0, 0],
        &[6, 3, 0, 0, 1, 0],
        &[3, 0, 0, 0, 2, 0, 0],
        &[3, 0, 0, 0, 1, 8],
        &[3, 0, 0, 0, 1, 7],
        &[0, 0, 0, 0, 1, 6],
        &[5, 2, 0, 0, 8, 0x50, 0, 0, 0, 0, 0, 0, 0x30],
        &[4, 7, 0, 0, 0],
        &[2, 0, 0, 1, 0],
    ];
    let expected = "rack 1\n1 L\n2 X 7\n3 K\n4 K\n5 X 5\n6 B 6\n7 K\n8 L\n9 X 4\n10 T\n";
    assert_eq!(bench::text(&stream.concat()), expected);
}
