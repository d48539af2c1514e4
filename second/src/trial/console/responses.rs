//! Responses for the console: those that document 01's three functions give, and such with one thing changed.

use super::super::random::Random;
use crate::console::MOST_ROWS;
use crate::smp::{CONFIGURE_PHY_ZONE, CONFIGURE_ZONE_PERMISSION, REPORT_ZONE_PERMISSION, RESPONSE_TYPE};
use crate::tables::GROUPS;

const FUNCTIONS: [u8; 3] = [CONFIGURE_PHY_ZONE, CONFIGURE_ZONE_PERMISSION, REPORT_ZONE_PERMISSION];
const RESULTS: [u8; 7] = [0x00, 0x01, 0x02, 0x03, 0x10, 0x11, 0x16];

/// Mostly as a shelf gives it, or nearly.
pub fn response(random: &mut Random) -> Vec<u8> {
    let mut response = if random.percent(55) { any_report(random) } else { four_bytes(random) };
    if random.percent(55) {
        damage(random, &mut response);
    }
    response
}

/// Any of the three functions with any of the results, of which most pairs are possible.
fn four_bytes(random: &mut Random) -> Vec<u8> {
    vec![RESPONSE_TYPE, random.pick(&FUNCTIONS), random.pick(&RESULTS), 0]
}

/// An accepted report, often one that ends at the last group.
fn any_report(random: &mut Random) -> Vec<u8> {
    let count = match random.below(8) {
        0 => 0,
        1 => 1,
        2 => MOST_ROWS - 1,
        3 => MOST_ROWS,
        4 => random.between(0, MOST_ROWS),
        _ => random.between(1, 4),
    };
    let start = match random.below(6) {
        0 => 0,
        1 => 127.min(GROUPS - count),
        2 => GROUPS - count,
        _ => random.between(0, GROUPS - count),
    };
    report(random, start.min(127), count)
}

/// An accepted report of these rows, which need not be possible. Nobody looks at bytes 8 to 11.
fn report(random: &mut Random, start: usize, count: usize) -> Vec<u8> {
    let mut response =
        vec![RESPONSE_TYPE, REPORT_ZONE_PERMISSION, 0, (2 + 4 * count) as u8, 0, 0, start as u8, count as u8];
    response.extend(if random.percent(70) { vec![0; 4] } else { random.bytes(4) });
    response.extend(match random.below(4) {
        0 => vec![random.pick(&[0x00, 0xff]); 16 * count],
        _ => random.bytes(16 * count),
    });
    response
}

/// One thing is changed: a byte of the head, the length with or without the byte that tells it, or the rows' numbers.
fn damage(random: &mut Random, response: &mut Vec<u8>) {
    match random.below(16) {
        0..=4 => change_head(random, response),
        5 => response.truncate(response.len().saturating_sub(random.pick(&[1, 1, 4, 8, 16]))),
        6 => response.truncate(random.below(13)),
        7 => {
            // 1,024 bytes more are 256 dwords: where those are cut to a byte, the length seems to agree.
            let more = random.pick(&[1, 1, 1, 4, 16, 1024, 1024]);
            response.extend(random.bytes(more));
        }
        8 => *response = vec![RESPONSE_TYPE, REPORT_ZONE_PERMISSION, 0, 0],
        9..=10 => {
            // The length and its byte agree, but with nothing else.
            let dwords = (response.len() / 4).saturating_sub(1) + random.between(1, 3);
            let size = 4 + 4 * if random.percent(50) { dwords.min(255) } else { random.below(4) };
            response.resize(size.max(response.len().min(4)), 0);
            change(response, 3, (size / 4 - 1) as u8);
        }
        11 => *response = beyond_the_last(random),
        12 => {
            let start = random.pick(&[128, 128, 128, 129, 200, 255]);
            let count = random.pick(&[0, 1]);
            *response = report(random, start, count);
        }
        13 => {
            // Here the byte is cut: 64 rows are 258 dwords.
            let (start, count) = (random.between(0, 64), random.pick(&[64, 64, 65]));
            *response = report(random, start, count);
        }
        _ => change_result(random, response),
    }
}

fn change(response: &mut [u8], place: usize, to: u8) {
    if let Some(byte) = response.get_mut(place) {
        *byte = to;
    }
}

/// A byte of the first eight becomes another.
fn change_head(random: &mut Random, response: &mut [u8]) {
    let place = random.below(response.len().clamp(1, 8));
    if let Some(byte) = response.get_mut(place) {
        *byte = match random.below(3) {
            0 => *byte ^ 1 << random.below(8),
            1 => byte.wrapping_add(random.pick(&[1, 255])),
            _ => random.byte(),
        };
    }
}

/// Rows up to a group beyond 127, from one that there is.
fn beyond_the_last(random: &mut Random) -> Vec<u8> {
    let count = random.pick(&[2, 2, 3, 62, 63, 63]);
    let start = if random.percent(60) { GROUPS + 1 - count } else { random.between(GROUPS + 1 - count, 127) };
    report(random, start, count)
}

/// Another result or another function, with the same length.
fn change_result(random: &mut Random, response: &mut [u8]) {
    if random.percent(60) {
        let result = random.pick(&[0x00, 0x01, 0x02, 0x03, 0x04, 0x10, 0x11, 0x16, 0x80, 0xff]);
        change(response, 2, result);
    } else {
        let function = random.pick(&[0x10, 0x10, 0x10, 0x50, 0x51, 0x93, 0xc1, 0x92, 0xc0, 0x13]);
        change(response, 1, function);
    }
}
