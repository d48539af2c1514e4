//! The console, worked out by hand from request 06 of document 02 with document 01's places, and from what
//! `include/console.h` settles.

use super::*;
use crate::console::{batch, phy_zones, read, report, single, Built, Heard};
use crate::trial::profile::Profile;

/// 1,020 bytes are room enough; these are a few more, to see that they stay.
const REQUEST: usize = 1030;

/// The same for rows, of which 8,064 bytes are room enough.
const ROWS: usize = 8080;

/// What was built: a refusal, which writes nothing, or the bytes. No byte beyond is written.
fn built(build: impl Fn(&mut [u8]) -> Built) -> Result<Vec<u8>, u32> {
    let mut request = [STAYS; REQUEST];
    let Built { refusal, length } = build(&mut request);
    let (written, rest) = request.split_at(length as usize);
    assert!(rest.iter().all(|&byte| byte == STAYS));
    if refusal == 0 {
        Ok(written.to_vec())
    } else {
        assert_eq!(length, 0);
        Err(refusal)
    }
}

fn zones(first: u32, entries: &[[u8; 3]]) -> Result<Vec<u8>, u32> {
    built(|request| phy_zones(request, first, entries.as_flattened()))
}

fn order(a: u32, b: u32, on: u32, complete: u32) -> Result<Vec<u8>, u32> {
    built(|request| single(request, a, b, on, complete))
}

fn rows_from(first: u32, rows: &[[u8; 128]]) -> Result<Vec<u8>, u32> {
    built(|request| batch(request, first, rows.as_flattened(), 0))
}

fn asking(first: u32, count: u32) -> Result<Vec<u8>, u32> {
    built(|request| report(request, first, count))
}

/// A row with these groups on.
fn row(groups: &[usize]) -> [u8; 128] {
    let mut row = [0; 128];
    groups.iter().for_each(|&group| row[group] = 1);
    row
}

/// What was heard, and the rows. No byte beyond them is written.
fn heard(response: &[u8]) -> Result<(Heard, Vec<u8>), u32> {
    let mut rows = [STAYS; ROWS];
    let heard = read(response, &mut rows);
    let (written, rest) = rows.split_at(128 * heard.count as usize);
    assert!(rest.iter().all(|&byte| byte == STAYS));
    if heard.refusal == 0 {
        Ok((heard, written.to_vec()))
    } else {
        assert_eq!(heard, Heard { refusal: heard.refusal, ..Heard::default() });
        Err(heard.refusal)
    }
}

/// The function and the result of a response in four bytes.
fn answer(response: &[u8]) -> Result<[u32; 2], u32> {
    let (Heard { function, result, start, count, .. }, _) = heard(response)?;
    assert_eq!((start, count), (0, 0));
    Ok([function, result])
}

/// The start and the number of rows of an accepted report.
fn start_and_count(response: &[u8]) -> Result<[u32; 2], u32> {
    let (Heard { function, result, start, count, .. }, _) = heard(response)?;
    assert_eq!((function, result), (0x51, 0x00));
    Ok([start, count])
}

/// An accepted report with these numbers, in a length that agrees with the rows. All rows are zero.
fn reported(start: u8, count: u8) -> Vec<u8> {
    let count_of_rows = usize::from(count);
    let mut response = vec![0; 12 + 16 * count_of_rows];
    response[..2].copy_from_slice(&[0x41, 0x51]);
    response[3] = (2 + 4 * count_of_rows) as u8;
    response[6..8].copy_from_slice(&[start, count]);
    response
}

#[test]
fn case_1_of_document_01_is_built_from_plain_choices() {
    assert_eq!(order(8, 9, 1, 1), Ok(CASE_1.to_vec()));
    let off = vec![0x40, 0xc1, 0, 2, 0, 0, 8, 9, 0, 0x80, 0, 0];
    assert_eq!(order(8, 9, 0, 0), Ok(off), "NEW VALUE is byte 7 bit 7, UPDATE COMPLETE byte 9 bit 0");
    let far = vec![0x40, 0xc1, 0, 2, 0, 0, 127, 0x80 | 2, 0, 0x80, 0, 0];
    assert_eq!(order(127, 2, 1, 0), Ok(far));
    assert_eq!(order(8, 8, 0, 1), Ok(vec![0x40, 0xc1, 0, 2, 0, 0, 8, 8, 0, 0x81, 0, 0]), "a group and itself");
}

#[test]
fn any_other_number_than_0_is_yes() {
    for yes in [1, 2, 128, 255, 256, 65_536, u32::MAX] {
        assert_eq!(order(8, 9, yes, yes), Ok(CASE_1.to_vec()), "{yes}");
        let complete = built(|request| batch(request, 8, &[], yes)).unwrap();
        assert_eq!(complete, [0x40, 0xc1, 0, 2, 0, 0, 0, 0, 0, 0x91, 8, 0], "{yes}");
    }
    for yes in [1, 2, 16, 128, 255] {
        assert_eq!(zones(0, &[[yes, 0, 1]]).unwrap()[8..], [0x10, 1, 0, 0], "{yes}");
        assert_eq!(rows_from(8, &[[yes; 128]]).unwrap()[12..], [0xff; 16], "{yes}");
    }
}

#[test]
fn group_5_on_is_byte_15_of_its_row() {
    let request = rows_from(8, &[row(&[5])]).unwrap();
    assert_eq!(request[..12], [0x40, 0xc1, 0, 6, 0, 0, 0, 0, 0, 0x90, 8, 1]);
    assert_eq!(request[12..], [0, 0, 0, 0, 0, 0, 0, 0, 0, 0, 0, 0, 0, 0, 0, 0x20]);
}

#[test]
fn each_group_has_its_bit() {
    // Group j is bit j mod 8 of byte 15 - j/8.
    for (group, byte, bits) in [(0, 15, 0x01), (1, 15, 0x02), (7, 15, 0x80), (8, 14, 0x01), (9, 14, 0x02)] {
        assert_eq!(rows_from(8, &[row(&[group])]).unwrap()[12 + byte], bits, "group {group}");
    }
    for (group, byte, bits) in [(122, 0, 0x04), (127, 0, 0x80), (120, 0, 0x01), (64, 7, 0x01), (63, 8, 0x80)] {
        assert_eq!(rows_from(8, &[row(&[group])]).unwrap()[12 + byte], bits, "group {group}");
    }
    let several = rows_from(8, &[row(&[0, 1, 9, 127]), row(&[2])]).unwrap();
    assert_eq!(several[..12], [0x40, 0xc1, 0, 10, 0, 0, 0, 0, 0, 0x90, 8, 2]);
    assert_eq!(several[12..28], [0x80, 0, 0, 0, 0, 0, 0, 0, 0, 0, 0, 0, 0, 0, 0x02, 0x03], "0 and 1 as given");
    assert_eq!(several[28..], [0, 0, 0, 0, 0, 0, 0, 0, 0, 0, 0, 0, 0, 0, 0, 0x04]);
}

#[test]
fn phys_of_every_number_with_fill_where_it_is_odd() {
    assert_eq!(zones(3, &[]), Ok(vec![0x40, 0x93, 0, 1, 0, 0, 3, 0]));
    assert_eq!(zones(7, &[[0, 0, 9]]), Ok(vec![0x40, 0x93, 0, 2, 0, 0, 7, 1, 0, 9, 0, 0]));
    let two = vec![0x40, 0x93, 0, 2, 0, 0, 2, 2, 0x0f, 8, 0x15, 1];
    assert_eq!(zones(2, &[[0, 15, 8], [1, 5, 1]]), Ok(two));
    let three = vec![0x40, 0x93, 0, 3, 0, 0, 2, 3, 0, 8, 0, 8, 0x10, 1, 0, 0];
    assert_eq!(zones(2, &[[0, 0, 8], [0, 0, 8], [1, 0, 1]]), Ok(three));
}

#[test]
fn up_to_128_phys() {
    // 8 bytes, 2 for each phy, and 2 of fill for 127.
    for (count, length, dwords) in [(126, 260, 64), (127, 264, 65), (128, 264, 65)] {
        let request = zones(0, &vec![[0, 1, 127]; count]).unwrap();
        assert_eq!(request.len(), length, "{count} phys");
        assert_eq!(request[..8], [0x40, 0x93, 0, dwords, 0, 0, 0, count as u8]);
        assert!(request[8..8 + 2 * count].as_chunks().0.iter().all(|descriptor| *descriptor == [1, 127]));
        assert!(request[8 + 2 * count..].iter().all(|&fill| fill == 0));
    }
    assert_eq!(zones(0, &[[0, 0, 2]; 129]), Err(22));
    assert_eq!(zones(0, &[[0, 0, 2]; 256]), Err(22), "256 are not none");
    assert_eq!(zones(0, &[[0, 0, 2]; 257]), Err(22), "and 257 are not 1");
}

#[test]
fn up_to_63_rows() {
    let none = vec![0x40, 0xc1, 0, 2, 0, 0, 0, 0, 0, 0x90, 8, 0];
    assert_eq!(rows_from(8, &[]), Ok(none));
    // 12 bytes and 16 for each row; the longest length is 4 + 4 * 254.
    for (count, length, dwords) in [(1, 28, 6), (62, 1004, 250), (63, 1020, 254)] {
        let request = rows_from(2, &vec![[1; 128]; count]).unwrap();
        assert_eq!(request.len(), length, "{count} rows");
        assert_eq!(request[..12], [0x40, 0xc1, 0, dwords, 0, 0, 0, 0, 0, 0x90, 2, count as u8]);
        assert!(request[12..].iter().all(|&byte| byte == 0xff));
    }
    assert_eq!(rows_from(2, &[[0; 128]; 64]), Err(22));
    assert_eq!(rows_from(2, &vec![[0; 128]; 256]), Err(22));
    assert_eq!(rows_from(2, &vec![[0; 128]; 512]), Err(22), "65,536 bytes are not none");
}

#[test]
fn reports_of_up_to_63_rows() {
    for (first, count) in [(0, 0), (8, 2), (127, 1), (127, 63), (0, 62), (1, 63)] {
        assert_eq!(asking(first, count), Ok(vec![0x40, 0x51, 0, 1, 0, 0, first as u8, count as u8]));
    }
    for count in [64, 65, 128, 255, 256, 256 + 8, 65_536, u32::MAX] {
        assert_eq!(asking(8, count), Err(22), "{count} rows");
    }
}

#[test]
fn refusal_21_is_before_all_others_and_for_the_shortest_request_too() {
    let mut room = [STAYS; 1019];
    let refused = Built { refusal: 21, length: 0 };
    let room_left = &mut room;
    assert_eq!(phy_zones(room_left, 0, &[]), refused);
    assert_eq!(phy_zones(room_left, 300, &[1, 99, 200, 7]), refused, "beside 22, 23 and 24");
    assert_eq!(phy_zones(room_left, 300, &[1, 99, 200]), refused, "beside 23");
    assert_eq!(phy_zones(room_left, 0, &[1, 0, 8]), refused, "beside 24");
    assert_eq!(single(room_left, 8, 9, 1, 1), refused);
    assert_eq!(single(room_left, 128, 0, 1, 1), refused);
    assert_eq!(single(room_left, 0, 1, 1, 1), refused);
    assert_eq!(batch(room_left, 8, &[], 0), refused);
    assert_eq!(batch(room_left, 128, &[0; 8192], 0), refused);
    assert_eq!(batch(room_left, 0, &[0; 128], 0), refused);
    assert_eq!(report(room_left, 8, 2), refused);
    assert_eq!(report(room_left, 128, 64), refused);
    assert_eq!(report(&mut [], 8, 2), refused);
    assert_eq!(room, [STAYS; 1019]);
    let mut enough = [STAYS; 1020];
    assert_eq!(report(&mut enough, 8, 2), Built { refusal: 0, length: 8 });
}

#[test]
fn refusal_22_is_before_23_and_24() {
    let list = |first, bytes: &[u8]| built(|request| phy_zones(request, first, bytes));
    assert_eq!(list(0, &[0]), Err(22), "a part of an entry");
    assert_eq!(list(0, &[0, 0, 8, 0]), Err(22));
    assert_eq!(list(0, &[0, 0, 8, 0, 0]), Err(22));
    assert_eq!(list(0, &[0; 383]), Err(22));
    assert_eq!(list(0, &[0; 385]), Err(22));
    assert_eq!(list(128, &[0]), Err(22), "beside 23");
    assert_eq!(list(128, &[1, 16, 128, 0]), Err(22), "beside 23");
    assert_eq!(zones(128, &[[1, 16, 200]; 129]), Err(22), "beside 23");
    assert_eq!(list(0, &[1, 0, 8, 0]), Err(22), "beside 24");
    let rows = |first, bytes: &[u8]| built(|request| batch(request, first, bytes, 1));
    for size in [1, 127, 129, 8063, 8065, 8192] {
        for first in [0, 8, 128, u32::MAX] {
            assert_eq!(rows(first, &vec![1; size]), Err(22), "{size} bytes from {first}");
        }
    }
    assert_eq!(asking(128, 64), Err(22), "beside 23");
}

#[test]
fn refusal_23_takes_no_number_for_a_smaller_one() {
    for number in [128, 129, 136, 255, 256, 256 + 8, 65_536 + 8, 1 << 31, u32::MAX] {
        assert_eq!(zones(number, &[[0, 0, 8]]), Err(23), "{number}");
        assert_eq!(zones(number, &[]), Err(23), "{number}, no entries");
        assert_eq!(order(number, 8, 1, 0), Err(23), "{number}");
        assert_eq!(order(8, number, 1, 0), Err(23), "{number}");
        assert_eq!(rows_from(number, &[[0; 128]]), Err(23), "{number}");
        assert_eq!(rows_from(number, &[]), Err(23), "{number}, no rows");
        assert_eq!(asking(number, 1), Err(23), "{number}");
        assert_eq!(asking(number, 0), Err(23), "{number}, no rows");
    }
    assert_eq!(zones(0, &[[0, 15, 8], [0, 16, 8]]), Err(23), "a priority");
    assert_eq!(zones(0, &[[0, 255, 8]]), Err(23));
    assert_eq!(zones(0, &[[0, 15, 127], [0, 0, 128]]), Err(23), "a group");
    assert!(zones(127, &[[0, 15, 127]]).is_ok());
}

#[test]
fn refusal_23_is_before_24() {
    assert_eq!(zones(0, &[[1, 0, 8], [0, 16, 8]]), Err(23), "the first entry is unfair, the second is no entry");
    assert_eq!(zones(0, &[[1, 0, 128]]), Err(23));
    assert_eq!(zones(0, &[[1, 16, 2]]), Err(23));
    assert_eq!(zones(128, &[[1, 0, 8]]), Err(23));
    assert_eq!(order(0, 128, 1, 0), Err(23));
    assert_eq!(order(128, 0, 1, 0), Err(23));
    assert_eq!(order(1, 256, 1, 0), Err(23), "and 256 is not 0");
}

#[test]
fn refusal_24_for_a_phy_that_participates_elsewhere_than_in_group_1() {
    for group in [0, 2, 8, 127] {
        assert_eq!(zones(0, &[[1, 0, group]]), Err(24), "group {group}");
        assert!(zones(0, &[[0, 0, group]]).is_ok());
    }
    assert!(zones(0, &[[1, 0, 1]]).is_ok());
    assert_eq!(zones(0, &[[0, 0, 8], [1, 15, 1], [255, 0, 2]]), Err(24), "the last alone");
}

#[test]
fn refusal_24_only_where_some_shelf_has_the_phys() {
    let unfair = [1, 0, 8];
    assert_eq!(zones(127, &[unfair]), Err(24), "127 and 1 are 128");
    let beyond = vec![0x40, 0x93, 0, 2, 0, 0, 127, 2, 0x10, 8, 0x10, 8];
    assert_eq!(zones(127, &[unfair; 2]), Ok(beyond), "129: every shelf answers 10h");
    assert_eq!(zones(0, &[unfair; 128]), Err(24));
    assert_eq!(zones(1, &[unfair; 127]), Err(24));
    assert_eq!(zones(1, &[unfair; 128]).map(|request| request.len()), Ok(264));
    assert_eq!(zones(2, &[unfair; 127]).map(|request| request.len()), Ok(264));
}

#[test]
fn refusal_24_for_groups_0_and_1() {
    for (a, b) in [(0, 8), (1, 8), (8, 0), (8, 1), (0, 0), (1, 1), (0, 1)] {
        for on in [0, 1] {
            assert_eq!(order(a, b, on, 0), Err(24), "{a} and {b}");
        }
    }
    assert!(order(2, 2, 1, 0).is_ok());
    for first in [0, 1] {
        assert_eq!(rows_from(first, &[[0; 128]]), Err(24));
        assert_eq!(rows_from(first, &[[0; 128]; 63]), Err(24));
        let none = vec![0x40, 0xc1, 0, 2, 0, 0, 0, 0, 0, 0x90, first as u8, 0];
        assert_eq!(rows_from(first, &[]), Ok(none), "no row names a group");
        assert!(asking(first, 63).is_ok(), "a report is never refused so");
    }
}

#[test]
fn what_document_01_answers_10h_or_11h_is_not_refused() {
    assert!(zones(127, &[[0, 0, 2]; 128]).is_ok());
    assert!(rows_from(127, &[[0; 128]; 63]).is_ok());
    assert!(asking(127, 63).is_ok());
}

#[test]
fn each_function_with_each_of_its_results() {
    let results = [0x00, 0x01, 0x02, 0x03, 0x10, 0x11];
    for (function, possible) in [
        (0x93, [true, false, true, true, true, false]),
        (0xc1, [true, true, true, true, false, true]),
        (0x51, [false, true, false, true, false, true]),
    ] {
        for (result, possible) in results.into_iter().zip(possible) {
            let expected = if possible { Ok([function, result]) } else { Err(25) };
            assert_eq!(answer(&[0x41, function as u8, result as u8, 0]), expected);
        }
        for result in [0x04, 0x0f, 0x12, 0x16, 0x80, 0x90, 0xff] {
            assert_eq!(answer(&[0x41, function as u8, result, 0]), Err(25), "{function:x} {result:x}");
        }
    }
    for function in [0x00, 0x10, 0x50, 0x52, 0x92, 0x94, 0xc0, 0xc2, 0xff] {
        for result in results {
            assert_eq!(answer(&[0x41, function, result as u8, 0]), Err(25), "{function:x} {result:x}");
        }
    }
    for kind in [0x00, 0x40, 0x42, 0xc1, 0xff] {
        assert_eq!(answer(&[kind, 0x93, 0, 0]), Err(25), "{kind:x}");
    }
}

#[test]
fn a_response_of_another_length() {
    for length in 0..4 {
        assert_eq!(heard(&[0x41, 0x93, 0, 0][..length]), Err(25), "{length} bytes");
    }
    assert_eq!(heard(&[0x41, 0x93, 0, 0, 0]), Err(25));
    assert_eq!(heard(&[0x41, 0x93, 0, 1]), Err(25));
    assert_eq!(heard(&[0x41, 0x93, 0, 1, 0, 0, 0, 0]), Err(25), "byte 3 agrees, but 93h has four bytes");
    assert_eq!(heard(&[0x41, 0xc1, 0, 0, 0, 0, 0, 0]), Err(25));
    assert_eq!(heard(&[0x41, 0x51, 0, 0]), Err(25), "an accepted report has twelve bytes at least");
    assert_eq!(heard(&[0x41, 0x51, 0, 1, 0, 0, 0, 0]), Err(25));
    let mut turned_down = reported(8, 0);
    turned_down[2] = 1;
    assert_eq!(heard(&turned_down), Err(25), "01h in twelve bytes");
    let wide = [&[0x41, 0x93, 0, 0][..], &[0; 1024]].concat();
    assert_eq!(heard(&wide), Err(25), "256 dwords are not none");
}

#[test]
fn rows_as_0_or_1_for_each_group() {
    let mut response = reported(8, 2);
    response[12 + 15] = 0x20;
    response[12 + 16] = 0x80;
    response[12 + 31] = 0x03;
    let (heard, rows) = heard(&response).unwrap();
    assert_eq!(heard, Heard { refusal: 0, function: 0x51, result: 0, start: 8, count: 2 });
    assert_eq!(rows[..128], row(&[5]));
    assert_eq!(rows[128..], row(&[0, 1, 127]));
}

#[test]
fn reports_up_to_the_last_group() {
    assert_eq!(start_and_count(&reported(127, 1)), Ok([127, 1]));
    assert_eq!(start_and_count(&reported(127, 0)), Ok([127, 0]), "no rows are possible");
    assert_eq!(start_and_count(&reported(0, 0)), Ok([0, 0]));
    assert_eq!(start_and_count(&reported(0, 63)), Ok([0, 63]));
    assert_eq!(start_and_count(&reported(65, 63)), Ok([65, 63]));
    assert_eq!(start_and_count(&reported(126, 2)), Ok([126, 2]));
    for (start, count) in [(127, 2), (66, 63), (126, 3), (128, 0), (128, 1), (255, 0), (255, 1), (129, 63)] {
        assert_eq!(heard(&reported(start, count)), Err(25), "{count} rows from {start}");
    }
    assert_eq!(heard(&reported(0, 64)), Err(25), "byte 3 would be 258, and is 2");
    assert_eq!(heard(&reported(0, 255)), Err(25));
}

#[test]
fn a_report_whose_head_does_not_agree() {
    let good = reported(8, 2);
    assert_eq!(start_and_count(&good), Ok([8, 2]));
    for (place, byte) in
        [(0, 0x40), (1, 0x52), (1, 0x93), (1, 0xc1), (2, 0x01), (3, 9), (3, 11), (3, 0), (4, 1), (5, 0x80)]
    {
        let mut other = good.clone();
        other[place] = byte;
        assert_eq!(heard(&other), Err(25), "byte {place} is {byte:x}");
    }
    for (place, byte) in [(6, 127), (6, 128), (6, 255), (7, 0), (7, 1), (7, 3), (7, 64), (7, 255)] {
        let mut other = good.clone();
        other[place] = byte;
        assert_eq!(heard(&other), Err(25), "byte {place} is {byte:x}");
    }
    for length in (0..good.len()).chain([good.len() + 1, good.len() + 4, good.len() + 16, good.len() + 1024]) {
        let mut other = good.clone();
        other.resize(length, 0);
        assert_eq!(heard(&other), Err(25), "{length} bytes");
    }
    let mut longer = good.clone();
    longer.resize(good.len() + 16, 0);
    longer[3] += 4;
    assert_eq!(heard(&longer), Err(25), "byte 3 agrees with the length, byte 7 does not");
    longer[7] += 1;
    assert_eq!(start_and_count(&longer), Ok([8, 3]));
    longer[6] = 126;
    assert_eq!(heard(&longer), Err(25));
}

#[test]
fn bytes_8_to_11_are_not_looked_at() {
    let mut response = reported(8, 1);
    response[8..12].fill(0xff);
    response[12 + 15] = 0x02;
    assert_eq!(start_and_count(&response), Ok([8, 1]));
    assert_eq!(heard(&response).unwrap().1, row(&[1]));
}

#[test]
fn a_rows_buffer_under_8064_bytes_is_21_before_all_else() {
    for response in [vec![0x41, 0x93, 0, 0], reported(8, 0), reported(0, 63), vec![], vec![0x41, 0x51, 0, 0]] {
        for size in [0, 128, 8063] {
            let mut rows = vec![STAYS; size];
            assert_eq!(read(&response, &mut rows), Heard { refusal: 21, ..Heard::default() });
            assert_eq!(rows, vec![STAYS; size]);
        }
    }
    assert_eq!(read(&reported(0, 63), &mut [STAYS; 8064]).count, 63);
}

/// On the rack as at start-up row 1 is all on, and every other row has group 1 alone.
#[test]
fn a_report_of_the_rack_is_read_as_its_rows() {
    let mut rack = Rack::default();
    let request = asking(0, 3).unwrap();
    let Exchange { answer, response, .. } = ask(&mut rack, 0, 0, &request);
    let (heard, rows) = heard(&response[..answer.length as usize]).unwrap();
    assert_eq!((heard.start, heard.count), (0, 3));
    assert_eq!(rows, [row(&[1]), [1; 128], row(&[1])].concat());
}

#[test]
fn orders_that_the_console_builds_are_done() {
    let mut rack = Rack::default();
    assert_eq!(result(&mut rack, 0, &order(8, 9, 1, 0).unwrap()), 0);
    assert_eq!((rack.permissions[16 * 8 + 14], rack.permissions[16 * 9 + 14]), (0x02, 0x01));
    assert_eq!(result(&mut rack, 0, &rows_from(8, &[row(&[5])]).unwrap()), 0, "row 8 says 5 on and 9 off");
    assert_eq!(rack.permissions[16 * 8..16 * 9], [0, 0, 0, 0, 0, 0, 0, 0, 0, 0, 0, 0, 0, 0, 0, 0x22], "1 stays on");
    assert_eq!((rack.permissions[16 * 5 + 14], rack.permissions[16 * 9 + 14]), (0x01, 0x00));
    assert_eq!(result(&mut rack, 0, &zones(2, &[[0, 3, 9], [2, 0, 1], [0, 0, 127]]).unwrap()), 0);
    let zoning: Vec<&[u8]> = (1..6).map(|phy| &rack.phys[RECORD * phy..][..2]).collect();
    assert_eq!(zoning, [[0, 2], [3, 9], [0x10, 1], [0, 127], [0, 9]]);
    assert_eq!(result(&mut rack, 0, &zones(8, &[[0, 0, 9]]).unwrap()), 0x10);
    assert_eq!(result(&mut rack, 0, &rows_from(127, &[[0; 128]; 2]).unwrap()), 0x11);
    assert_eq!(result(&mut rack, 2, &order(8, 9, 1, 0).unwrap()), 0x01, "phy 2 is in group 9 and has no right");
}

/// Groups above 7 are the small shelf's own matter: the console does not refuse them, and that shelf answers 02h.
#[test]
fn a_group_above_7_is_not_refused() {
    let Rack { mut phys, .. } = Rack::default();
    let mut permissions = Profile::Small.fresh_table();
    for request in [order(2, 8, 1, 0), rows_from(8, &[[0; 128]]), zones(0, &[[0, 0, 8]])] {
        let (mut response, mut set) = ([0; 1020], [0; 16]);
        let request = request.unwrap();
        let answer = crate::small::smp(&mut phys, &mut permissions, 0, 0, 0, 0, &request, &mut response, &mut set);
        assert_eq!((answer.refusal, answer.result), (0, 0x02));
        let heard = heard(&response[..4]).unwrap().0;
        assert_eq!((heard.function, heard.result), (request[1].into(), 0x02));
    }
}
