//! Wide ports, worked out by hand from request 01 of document 02.
//!
//! At start-up group 1 reaches all groups and every other group only group 1. The rack's groups are 1, 2, 8, 8, 9, 9, 0
//! and 1.

use super::*;

const ZERO: [u8; 8] = [0; 8];
const ELSEWHERE: [u8; 8] = [0x51, 0, 0, 0, 0, 0, 0, 1];

/// A fresh rack on which these phys have one address attached.
fn rack_with(phys: &[usize], address: [u8; 8]) -> Rack {
    let mut rack = Rack::default();
    attach(&mut rack, phys, address);
    rack
}

fn attach(rack: &mut Rack, phys: &[usize], address: [u8; 8]) {
    for phy in phys {
        rack.phys[RECORD * phy + 4..][..8].copy_from_slice(&address);
    }
}

/// Groups 8 and 9 reach one another, but neither itself.
fn with_case_1(mut rack: Rack) -> Rack {
    assert_eq!(result(&mut rack, 0, &CASE_1), 0);
    rack
}

/// Byte 0 of the set for CHANGE. The count is that of its ones, and the frame is the one that it always is.
fn change(rack: &Rack, phy: u32) -> u8 {
    let (mut set, mut out) = ([STAYS; 17], [STAYS; 29]);
    let told = primitive(&rack.phys, &rack.permissions, phy, 0, &mut set, &mut out);
    assert_eq!(told, Told { refusal: 0, count: set[0].count_ones() });
    assert_eq!((&set[1..16], set[16]), (&[0; 15][..], STAYS));
    let source = rack.phys[RECORD * phy as usize + 1];
    assert_eq!((&out[..5], &out[5..28], out[28]), (&[0x02, 0, 0, source, 0][..], &[0; 23][..], STAYS));
    set[0]
}

/// Byte 0 of the set for a frame that carries this group to phy 7.
fn frame(rack: &Rack, group: u8) -> u8 {
    let (mut set, mut out) = ([STAYS; 16], [STAYS; 28]);
    let frame = [0x03, 0, 0, group];
    let told = broadcast_frame(&rack.phys, &rack.permissions, 7, &frame, &mut set, &mut out);
    assert_eq!(told, Told { refusal: 0, count: set[0].count_ones() });
    assert_eq!((out[0], out[3]), (0x02, group));
    set[0]
}

fn route(phy: u8, group: u8) -> [u8; 12] {
    [&ELSEWHERE[..], &[phy, group, 0, 0]].concat().try_into().unwrap()
}

/// Outcome and phy, for a frame to an address that only these routes have.
fn through(rack: &Rack, routes: &[[u8; 12]], phy: u32) -> (u32, u32) {
    let (routes, frame) = (routes.as_flattened(), open_frame(ELSEWHERE, 0));
    let opened = open(&rack.phys, routes, &rack.permissions, phy, &frame, &mut [0; 28]);
    assert_eq!(opened.refusal, 0);
    (opened.outcome, opened.phy)
}

/// Outcome and phy, for a frame to an address of the rack.
fn sent(rack: &Rack, phy: u32, to: [u8; 8]) -> (u32, u32) {
    let (opened, out) = send(rack, phy, &open_frame(to, 0));
    assert_eq!((opened.refusal, out == [STAYS; 30]), (0, opened.outcome != 4), "only FORWARD writes a frame");
    (opened.outcome, opened.phy)
}

const BAD_DESTINATION: (u32, u32) = (2, 0);
const ZONE_VIOLATION: (u32, u32) = (3, 0);

#[test]
fn of_two_sisters_the_lower_is_named() {
    let rack = rack_with(&[4, 5], address(4));
    assert_eq!(change(&Rack::default(), 0), 0xfe);
    assert_eq!(change(&rack, 0), 0xde, "all but phy 0 and phy 5");
    assert_eq!(frame(&rack, 1), 0x5f, "all but phy 7 and phy 5");
    let apart = rack_with(&[1, 3, 6], address(20));
    assert_eq!(change(&apart, 0), 0xb6, "1 for 3 and 6");
}

#[test]
fn every_other_port_names_one() {
    let mut rack = rack_with(&[1, 5], address(1));
    attach(&mut rack, &[2, 3, 6], address(2));
    assert_eq!(change(&rack, 0), 0x96, "1 for 5, 2 for 3 and 6; 4 and 7 alone");
    assert_eq!(change(&rack_with(&[0, 1, 2, 3, 4, 5, 6, 7], address(3)), 0), 0, "one port only: the arriving phy's");
}

#[test]
fn the_lowest_permitted_sister_need_not_be_the_lowest() {
    let rack = with_case_1(rack_with(&[3, 4], address(3)));
    assert_eq!(change(&rack, 2), 0xb1, "group 8 does not reach phy 3 but reaches phy 4");
    let rack = with_case_1(rack_with(&[3, 4, 5], address(3)));
    assert_eq!(change(&rack, 2), 0x91, "4, and so not 5");
    assert_eq!(frame(&rack, 8), 0x11, "the same for what phy 7 carries");
    let rack = rack_with(&[1, 3, 4], address(3));
    assert_eq!(change(&rack, 2), 0x81, "group 8 reaches no phy of the port");
}

#[test]
fn zero_addresses_are_not_one_port() {
    let mut rack = rack_with(&[3, 4, 5], ZERO);
    assert_eq!(change(&rack, 0), 0xfe);
    assert_eq!(frame(&rack, 1), 0x7f);
    rack.permissions.fill(0xff);
    assert_eq!(change(&rack, 4), 0xef, "3 and 5 are in other ports than 4");
}

#[test]
fn a_phy_that_is_not_ready_is_no_sister() {
    let mut rack = rack_with(&[2, 3], address(2));
    assert_eq!(change(&rack, 0), 0xf6);
    assert_eq!(leaving(&mut rack.phys, 2), 0);
    assert_eq!(change(&rack, 0), 0xfa, "3 is told, and 2 is not ready");
}

#[test]
fn sisters_of_the_arriving_phy_are_not_told() {
    let mut rack = rack_with(&[0, 1, 4], address(0));
    assert_eq!(change(&rack, 0), 0xec);
    rack.permissions.fill(0xff);
    assert_eq!([0, 1, 4].map(|phy| change(&rack, phy)), [0xec; 3], "whichever of them it arrives on");
    let rack = rack_with(&[0, 2, 7], address(7));
    assert_eq!(frame(&rack, 1), 0x7a, "neither 0 nor 2 nor 7");
    assert_eq!(change(&rack, 2), 0, "group 8 reaches 0 and 7 alone, and both are sisters");
}

#[test]
fn a_phy_that_leaves_ready_leaves_its_port() {
    let mut rack = rack_with(&[2, 3, 6], address(2));
    assert_eq!(change(&rack, 0), 0xb6);
    assert_eq!(leaving(&mut rack.phys, 2), 0);
    assert_eq!(change(&rack, 0), 0xba, "3 for 6");
    assert_eq!(leaving(&mut rack.phys, 3), 0);
    assert_eq!(change(&rack, 0), 0xf2, "6 alone");
    assert_eq!(identify(&mut rack.phys, 3, &address(3), 1, 0), 0);
    assert_eq!(change(&rack, 0), 0xfa, "3 is back, in another port");
    assert_eq!(identify(&mut rack.phys, 2, &address(2), 1, 0), 0);
    assert_eq!(change(&rack, 0), 0xbe, "2 for 6, and 3");
}

#[test]
fn an_open_to_a_sister_is_a_bad_destination() {
    let mut rack = rack_with(&[2, 3], address(2));
    assert_eq!(sent(&rack, 3, address(2)), BAD_DESTINATION, "2 is found; that group 8 does not reach 8 comes after");
    assert_eq!(sent(&rack, 2, address(2)), BAD_DESTINATION, "2 is found");
    assert_eq!(sent(&rack, 4, address(2)), ZONE_VIOLATION);
    assert_eq!(sent(&rack, 0, address(2)), (4, 2));
    assert_eq!(sent(&rack, 3, address(0)), (4, 0));
    rack.permissions.fill(0xff);
    assert_eq!(sent(&rack, 3, address(2)), BAD_DESTINATION, "permitted or not");
    assert_eq!(sent(&rack, 4, address(2)), (4, 2));
    assert_eq!(leaving(&mut rack.phys, 2), 0);
    assert_eq!(sent(&rack, 3, address(2)), BAD_DESTINATION, "3 itself is found");
    assert_eq!(sent(&rack, 4, address(2)), (4, 3));
}

#[test]
fn a_route_to_a_sister_is_a_bad_destination() {
    let mut rack = rack_with(&[2, 3], address(2));
    assert_eq!(through(&rack, &[route(3, 1)], 2), BAD_DESTINATION);
    assert_eq!(through(&rack, &[route(2, 9)], 3), BAD_DESTINATION, "permitted or not");
    assert_eq!(through(&rack, &[route(2, 1)], 2), BAD_DESTINATION, "a route back");
    assert_eq!(through(&rack, &[route(3, 1)], 4), (4, 3));
    assert_eq!(through(&rack, &[route(3, 1), route(5, 1)], 2), BAD_DESTINATION, "the first route ends the search");
    assert_eq!(through(&rack, &[route(5, 1), route(3, 1)], 2), (4, 5));
    assert_eq!(leaving(&mut rack.phys, 3), 0);
    assert_eq!(through(&rack, &[route(3, 1), route(5, 1)], 2), (4, 5), "3 is not ready");
}

#[test]
fn a_route_between_zero_addresses_goes_on() {
    let rack = rack_with(&[3, 4], ZERO);
    assert_eq!(through(&rack, &[route(4, 1)], 3), (4, 4));
    assert_eq!(through(&rack, &[route(3, 1)], 3), BAD_DESTINATION);
}

#[test]
fn change_notices_keep_all_ready_phys() {
    let mut rack = rack_with(&[0, 1, 2, 3], address(0));
    attach(&mut rack, &[4, 5], address(4));
    let mut notice = |request: &[u8]| {
        let Exchange { answer, set, .. } = ask(&mut rack, 0, 0, request);
        assert_eq!((answer.refusal, answer.result), (0, 0));
        (answer.count, set[0])
    };
    assert_eq!(notice(&zone_phys(8, &[])), (8, 0xff));
    assert_eq!(notice(&zone_phys(7, &[[0x10, 1]])), (8, 0xff));
    assert_eq!(notice(&CASE_1), (8, 0xff));
    assert_eq!(leaving(&mut rack.phys, 4), 0);
    assert_eq!(ask(&mut rack, 0, 0, &CASE_1).set[0], 0xef);
}

#[test]
fn four_hosts_of_32_phys() {
    let mut phys = Vec::new();
    for phy in 0..128u8 {
        phys.extend([0, 1, 1, 0]);
        phys.extend(address(phy % 4));
        phys.extend([0; 4]);
    }
    let arrive = |phy| {
        let mut set = [STAYS; 16];
        let told = primitive(&phys, &Rack::default().permissions, phy, 0, &mut set, &mut [0; 28]);
        assert_eq!((told.refusal, &set[1..]), (0, &[0; 15][..]));
        (told.count, set[0])
    };
    assert_eq!([4, 65, 66, 127].map(arrive), [(3, 0x0e), (3, 0x0d), (3, 0x0b), (3, 0x07)]);
}

#[test]
fn link_events_make_and_break_a_port_on_the_bench() {
    let event = |kind, phy, payload: &[u8]| Event { kind, phy, carried: 0, payload }.bytes();
    let stream = [
        event(6, 3, &[]),
        event(5, 3, &address(2)),
        event(3, 0, &[0]),
        event(4, 7, &[0x03, 0, 0, 1]),
        event(2, 3, &open_frame(address(2), 0)),
        event(2, 0, &open_frame(address(2), 0)),
        event(1, 0, &zone_phys(3, &[[0x00, 0x01]])),
        event(3, 3, &[0]),
        event(6, 2, &[]),
        event(3, 0, &[0]),
        event(2, 0, &open_frame(address(2), 0)),
    ];
    let expected = "rack 1\n1 L\n2 L\n3 B 6\n4 B 6\n5 O BD\n6 O FWD 2\n7 S 00 4 8\n8 B 6\n9 L\n10 B 6\n11 O FWD 3\n";
    assert_eq!(bench::text(&stream.concat()), expected);
}
