//! The wardens' console, request 06 of document 02: SMP requests from plain choices, and responses read back to a result
//! and rows. It has one function for each call of `include/console.h`, with the same meaning for every input.
//!
//! It needs no shelf: where a byte stands, and what a response can be, is document 01's.

use crate::permission::FIRST_NAMED;
use crate::smp::{CONFIGURE_PHY_ZONE, CONFIGURE_ZONE_PERMISSION, REPORT_ZONE_PERMISSION, REQUEST_TYPE, RESPONSE_TYPE};
use crate::tables::{WireRow, GROUPS, LARGE};

/// The room that any request needs: that of the longest, a batch of 63 rows.
pub const ROOM: usize = 1020;

/// The room that any response needs: that of a report of 63 rows, a byte for each group.
pub const ROWS_ROOM: usize = MOST_ROWS * GROUPS;

/// The bytes of an entry of phy zones: participating, priority, group.
pub const ENTRY: usize = 3;

pub const MOST_PHYS: usize = 128;
pub const MOST_ROWS: usize = 63;

const HIGHEST_PRIORITY: u8 = 15;

/// The only group in which a phy may participate.
const FAIR_GROUP: u8 = 1;

const PARTICIPATING: u8 = 1 << 4;
const SINGLE: u8 = 0x80;
const BATCH: u8 = 0x90;
const UPDATE_COMPLETE: u8 = 1 << 0;
const NEW_VALUE: u8 = 1 << 7;

const ACCEPTED: u8 = 0x00;

/// In order of checking; the last is a response's.
#[derive(Clone, Copy, Debug, PartialEq, Eq)]
pub enum Refusal {
    Room = 21,
    Entries = 22,
    Number = 23,
    TurnedDown = 24,
    NoResponse = 25,
}

#[derive(Clone, Copy, Debug, Default, PartialEq, Eq)]
pub struct Built {
    pub refusal: u32,
    pub length: u32,
}

#[derive(Clone, Copy, Debug, Default, PartialEq, Eq)]
pub struct Heard {
    pub refusal: u32,
    pub function: u32,
    pub result: u32,
    pub start: u32,
    pub count: u32,
}

/// 93h: the zones of a run of phys.
pub fn phy_zones(request: &mut [u8], first_phy: u32, entries: &[u8]) -> Built {
    built(try_phy_zones(request, first_phy, entries))
}

/// C1h: one order.
pub fn single(request: &mut [u8], a: u32, b: u32, on: u32, complete: u32) -> Built {
    built(try_single(request, a, b, on != 0, complete != 0))
}

/// C1h: whole rows.
pub fn batch(request: &mut [u8], first_group: u32, choices: &[u8], complete: u32) -> Built {
    built(try_batch(request, first_group, choices, complete != 0))
}

/// 51h: a report.
pub fn report(request: &mut [u8], first_group: u32, count: u32) -> Built {
    built(try_report(request, first_group, count))
}

/// A response, whole.
pub fn read(response: &[u8], rows: &mut [u8]) -> Heard {
    try_read(response, rows).unwrap_or_else(|refusal| Heard { refusal: refusal as u32, ..Heard::default() })
}

fn built(answer: Result<usize, Refusal>) -> Built {
    match answer {
        Ok(length) => Built { refusal: 0, length: length as u32 },
        Err(refusal) => Built { refusal: refusal as u32, length: 0 },
    }
}

fn try_phy_zones(request: &mut [u8], first_phy: u32, entries: &[u8]) -> Result<usize, Refusal> {
    room(request)?;
    let entries = whole_entries::<ENTRY>(entries, MOST_PHYS)?;
    let first = below_128(first_phy)?;
    refuse_if(!entries.iter().all(has_good_numbers), Refusal::Number)?;
    // Where the phys go beyond the last that any shelf can have, every shelf answers 10h before it looks at an entry.
    let some_shelf_has_them = usize::from(first) + entries.len() <= MOST_PHYS;
    refuse_if(some_shelf_has_them && !entries.iter().all(is_fair), Refusal::TurnedDown)?;
    // An odd number of descriptors is filled up to whole dwords.
    let length = 8 + 4 * entries.len().div_ceil(2);
    let body = head(request, CONFIGURE_PHY_ZONE, length);
    body[2..4].copy_from_slice(&[first, entries.len() as u8]);
    for (descriptor, entry) in body[4..].as_chunks_mut::<2>().0.iter_mut().zip(entries) {
        *descriptor = descriptor_of(entry);
    }
    Ok(length)
}

fn try_single(request: &mut [u8], a: u32, b: u32, on: bool, complete: bool) -> Result<usize, Refusal> {
    room(request)?;
    let (a, b) = (below_128(a)?, below_128(b)?);
    refuse_if(!is_named(a) || !is_named(b), Refusal::TurnedDown)?;
    let body = head(request, CONFIGURE_ZONE_PERMISSION, 12);
    body[2..4].copy_from_slice(&[a, b | flag(on, NEW_VALUE)]);
    body[5] = SINGLE | flag(complete, UPDATE_COMPLETE);
    Ok(12)
}

fn try_batch(request: &mut [u8], first_group: u32, choices: &[u8], complete: bool) -> Result<usize, Refusal> {
    room(request)?;
    let choices = whole_entries::<GROUPS>(choices, MOST_ROWS)?;
    let first = below_128(first_group)?;
    refuse_if(!choices.is_empty() && !is_named(first), Refusal::TurnedDown)?;
    let length = 12 + LARGE * choices.len();
    let body = head(request, CONFIGURE_ZONE_PERMISSION, length);
    body[5] = BATCH | flag(complete, UPDATE_COMPLETE);
    body[6..8].copy_from_slice(&[first, choices.len() as u8]);
    for (row, choices) in body[8..].as_chunks_mut().0.iter_mut().zip(choices) {
        pack(choices, row);
    }
    Ok(length)
}

fn try_report(request: &mut [u8], first_group: u32, count: u32) -> Result<usize, Refusal> {
    room(request)?;
    let count = u8::try_from(count).ok().filter(|&count| usize::from(count) <= MOST_ROWS).ok_or(Refusal::Entries)?;
    let first = below_128(first_group)?;
    let body = head(request, REPORT_ZONE_PERMISSION, 8);
    body[2..4].copy_from_slice(&[first, count]);
    Ok(8)
}

/// 21, for a request.
fn room(request: &[u8]) -> Result<(), Refusal> {
    refuse_if(request.len() < ROOM, Refusal::Room)
}

/// 22: a list of at most so many entries, and of nothing else.
fn whole_entries<const BYTES: usize>(list: &[u8], most: usize) -> Result<&[[u8; BYTES]], Refusal> {
    match list.as_chunks() {
        (entries, []) if entries.len() <= most => Ok(entries),
        _ => Err(Refusal::Entries),
    }
}

/// 23, for a group or a first phy. The number is not cut to a byte first.
fn below_128(number: u32) -> Result<u8, Refusal> {
    u8::try_from(number).ok().filter(|&number| number < 128).ok_or(Refusal::Number)
}

/// 23, for an entry.
fn has_good_numbers(&[_, priority, group]: &[u8; ENTRY]) -> bool {
    priority <= HIGHEST_PRIORITY && usize::from(group) < GROUPS
}

/// 24, for an entry.
fn is_fair(&[participating, _, group]: &[u8; ENTRY]) -> bool {
    participating == 0 || group == FAIR_GROUP
}

/// 24, for a group that an order names.
fn is_named(group: u8) -> bool {
    usize::from(group) >= FIRST_NAMED
}

fn refuse_if(cause: bool, refusal: Refusal) -> Result<(), Refusal> {
    if cause {
        Err(refusal)
    } else {
        Ok(())
    }
}

fn flag(set: bool, bit: u8) -> u8 {
    if set {
        bit
    } else {
        0
    }
}

/// Starts a request of this length, which is one of whole dwords, and gives the bytes after its first four. They are
/// zero, and so is what an operation does not use.
fn head(request: &mut [u8], function: u8, length: usize) -> &mut [u8] {
    let (head, body) = request[..length].split_at_mut(4);
    head.copy_from_slice(&[REQUEST_TYPE, function, 0, (body.len() / 4) as u8]);
    body.fill(0);
    body
}

fn descriptor_of(&[participating, priority, group]: &[u8; ENTRY]) -> [u8; 2] {
    [flag(participating != 0, PARTICIPATING) | priority, group]
}

/// A row as document 01 packs it: group j is bit j mod 8 of byte 15 - j/8.
fn pack(choices: &[u8; GROUPS], row: &mut WireRow) {
    let bytes = row.iter_mut().rev();
    for (byte, eight) in bytes.zip(choices.as_chunks::<8>().0) {
        *byte = (0..8).fold(0, |byte, j| byte | u8::from(eight[j] != 0) << j);
    }
}

/// The other way round.
fn unpack(row: &WireRow, choices: &mut [u8; GROUPS]) {
    for (byte, eight) in row.iter().rev().zip(choices.as_chunks_mut::<8>().0) {
        *eight = std::array::from_fn(|j| byte >> j & 1);
    }
}

fn try_read(response: &[u8], rows: &mut [u8]) -> Result<Heard, Refusal> {
    refuse_if(rows.len() < ROWS_ROOM, Refusal::Room)?;
    let (&[kind, function, result, dwords], rest) = response.split_first_chunk().ok_or(Refusal::NoResponse)?;
    refuse_if(kind != RESPONSE_TYPE, Refusal::NoResponse)?;
    refuse_if(!can_give(function, result), Refusal::NoResponse)?;
    refuse_if(rest.len() != 4 * usize::from(dwords), Refusal::NoResponse)?;
    let heard = Heard { refusal: 0, function: function.into(), result: result.into(), start: 0, count: 0 };
    if (function, result) != (REPORT_ZONE_PERMISSION, ACCEPTED) {
        refuse_if(!rest.is_empty(), Refusal::NoResponse)?;
        return Ok(heard);
    }
    let (start, shown) = reported(rest)?;
    for (row, choices) in shown.iter().zip(rows.as_chunks_mut().0) {
        unpack(row, choices);
    }
    Ok(Heard { start: start.into(), count: shown.len() as u32, ..heard })
}

/// The results that a function has in document 01.
fn can_give(function: u8, result: u8) -> bool {
    match function {
        CONFIGURE_PHY_ZONE => matches!(result, ACCEPTED | 0x02 | 0x03 | 0x10),
        CONFIGURE_ZONE_PERMISSION => matches!(result, ACCEPTED | 0x01 | 0x02 | 0x03 | 0x11),
        REPORT_ZONE_PERMISSION => matches!(result, ACCEPTED | 0x01 | 0x03 | 0x11),
        _ => false,
    }
}

/// The first group and the rows of an accepted report, of which the first four bytes are read. No rows are possible; bytes 8
/// to 11 are not looked at.
fn reported(rest: &[u8]) -> Result<(u8, &[WireRow]), Refusal> {
    let (&[byte_4, byte_5, start, count, _, _, _, _], rows) = rest.split_first_chunk().ok_or(Refusal::NoResponse)?;
    refuse_if(byte_4 != 0 || byte_5 != 0, Refusal::NoResponse)?;
    let (start, count) = (below_128(start.into()).map_err(|_| Refusal::NoResponse)?, usize::from(count));
    refuse_if(count > MOST_ROWS, Refusal::NoResponse)?;
    refuse_if(usize::from(start) + count > GROUPS, Refusal::NoResponse)?;
    match rows.as_chunks() {
        (shown, []) if shown.len() == count => Ok((start, shown)),
        _ => Err(Refusal::NoResponse),
    }
}
