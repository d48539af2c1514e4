//! Streams of events for the bench program.

use super::profile::Profile;
use super::random::Random;
use super::requests::{broadcast_frame, damage_frame, group_byte, open_frame};
use super::shelf::{Shelf, BASE};
use crate::bench::{Event, Rack, BROADCAST_FRAME, IDENTIFY, LEAVING, OPEN, PRIMITIVE, SMP};
use crate::speaking::source_from_outside;
use crate::tables::PhyRecord;

/// A stream of at most so many events on a rack that they change, most of them good. Most streams leave out an event
/// after which no phy could ever zone again: in a long one hardly any phy would be permitted any more.
pub fn stream(random: &mut Random, events: usize) -> Vec<u8> {
    let mut rack = Rack::default();
    let mut shelf = Shelf::bench(random);
    let mut bytes = Vec::new();
    let lasting = random.percent(80);
    for _ in 0..events {
        let (kind, phy, carried, payload) = event(random, &shelf);
        let event = Event { kind, phy, carried, payload: &payload };
        let mut after = rack.clone();
        after.line(&event);
        if lasting && !may_zone(&after) {
            continue;
        }
        bytes.extend(event.bytes());
        rack = after;
        shelf.phys.clone_from(&rack.phys);
        shelf.permissions.clone_from(&rack.permissions);
    }
    bytes
}

/// Whether some phy may change zoning once it is ready: by its own group, or by group 1 carried to it.
fn may_zone(rack: &Rack) -> bool {
    let mut phys = rack.phys.as_chunks().0.iter().map(PhyRecord::from);
    let has_right = |source| Profile::Large.may_change_zoning(&rack.permissions, source);
    phys.any(|phy| source_from_outside(&phy, 1).is_ok_and(has_right))
}

/// Some bytes of the stream become others. Where one was a length, all events after it are others as well.
pub fn damage(random: &mut Random, stream: &mut [u8]) {
    for _ in 0..random.between(1, 4) {
        if !stream.is_empty() {
            stream[random.below(stream.len())] = random.byte();
        }
    }
}

fn event(random: &mut Random, shelf: &Shelf) -> (u8, u8, u8, Vec<u8>) {
    let (kind, phy, mut payload) = match random.below(40) {
        0..=14 => {
            let (phy, carried, request) = shelf.asks(random);
            return (SMP, unlikely_phy(random, phy), carried, request);
        }
        15..=22 => open(random, shelf),
        23..=26 => (PRIMITIVE, ready_phy(random, shelf), vec![primitive_number(random)]),
        27..=30 => broadcast(random, shelf),
        31..=34 => identify(random, shelf),
        35..=37 => (LEAVING, ready_phy(random, shelf), Vec::new()),
        38 => unknown_kind(random),
        _ => (random.pick(&[PRIMITIVE, IDENTIFY, LEAVING]), 0, wrong_payload(random)),
    };
    if kind == OPEN && random.percent(5) {
        damage_frame(random, &mut payload);
    }
    (kind, unlikely_phy(random, phy), group_byte(random, shelf.profile), payload)
}

fn ready_phy(random: &mut Random, shelf: &Shelf) -> usize {
    shelf.phy(random, |record| record.ready)
}

/// The phy, or now and then a number that the rack does not have.
fn unlikely_phy(random: &mut Random, phy: usize) -> u8 {
    if random.percent(2) {
        random.pick(&[8, 9, 127, 128, 255])
    } else {
        phy as u8
    }
}

fn primitive_number(random: &mut Random) -> u8 {
    if random.percent(10) {
        random.byte()
    } else {
        random.byte() & 0x07
    }
}

/// Mostly to an address that is found, at times to the arriving phy's own.
fn open(random: &mut Random, shelf: &Shelf) -> (u8, usize, Vec<u8>) {
    let phy = ready_phy(random, shelf);
    let destination = if random.percent(15) { shelf.record(phy).address } else { shelf.address(random) };
    (OPEN, phy, open_frame(random, shelf.profile, destination))
}

fn broadcast(random: &mut Random, shelf: &Shelf) -> (u8, usize, Vec<u8>) {
    let phy = shelf.phy(random, |record| record.ready && record.participating);
    let mut frame = broadcast_frame(random, shelf.profile);
    if random.percent(15) {
        damage_frame(random, &mut frame);
    }
    (BROADCAST_FRAME, phy, frame)
}

/// An address that other phys have as well makes a wide port; the one on the untouched rack takes a phy out of it again.
/// But another address than before takes the phy's zoning away, so phys in group 1 mostly keep theirs.
fn identify(random: &mut Random, shelf: &Shelf) -> (u8, usize, Vec<u8>) {
    let phy = shelf.phy(random, |record| !record.ready);
    let before = shelf.record(phy);
    let keep = if before.group.number() == 1 { 85 } else { 25 };
    let address = if random.percent(keep) {
        before.address
    } else if random.percent(25) {
        BASE + phy as u64
    } else {
        shelf.address(random)
    };
    (IDENTIFY, phy, address.to_be_bytes().to_vec())
}

fn unknown_kind(random: &mut Random) -> (u8, usize, Vec<u8>) {
    let kind = random.pick(&[0, 7, 8, 9, 128, 254, 255]);
    (kind, random.below(8), any_payload(random))
}

/// A payload that none of kinds 3, 5 and 6 has.
fn wrong_payload(random: &mut Random) -> Vec<u8> {
    let length = random.pick(&[2, 3, 7, 9, 255, 256]);
    random.bytes(length)
}

/// Any payload, at times as long as two bytes can tell.
fn any_payload(random: &mut Random) -> Vec<u8> {
    let length = match random.below(30) {
        0 => random.pick(&[65_535, 65_534, 32_768]),
        1 => random.below(65_536),
        _ => random.below(40),
    };
    random.bytes(length)
}

#[cfg(test)]
mod tests {
    use super::*;
    use crate::ports::same_port;
    use std::collections::BTreeMap;

    fn has_wide_port(rack: &Rack) -> bool {
        let phys = rack.phys.as_chunks().0;
        (0..8).any(|a| (0..a).any(|b| same_port(phys, a, b)))
    }

    /// Each event of ten streams with its line and the rack as it was before.
    fn for_each_event(mut seen: impl FnMut(&Rack, &Event, &str)) {
        let mut random = Random::new(1);
        for _ in 0..10 {
            let stream = stream(&mut random, 600);
            let (mut rack, mut left) = (Rack::default(), stream.as_slice());
            while let Some((event, after)) = Event::take(left) {
                let before = rack.clone();
                seen(&before, &event, &rack.line(&event));
                left = after;
            }
        }
    }

    #[test]
    fn bytes_that_are_no_group_arrive_on_both_kinds_of_phys() {
        let mut lines = BTreeMap::new();
        for_each_event(|_, event, line| {
            let byte = match event.kind {
                SMP => event.carried,
                BROADCAST_FRAME => event.payload.get(3).copied().unwrap_or(0),
                _ => 0,
            };
            let telling = if line.starts_with('S') { "S" } else { line };
            if byte > 127 {
                *lines.entry((event.kind, telling.to_string())).or_insert(0) += 1;
            }
        });
        for (kind, line) in [(SMP, "S"), (SMP, "X 5"), (BROADCAST_FRAME, "X 5"), (BROADCAST_FRAME, "X 6")] {
            assert!(lines.get(&(kind, line.to_string())).is_some_and(|&count| count > 5), "{kind} {line}: {lines:?}");
        }
    }

    #[test]
    fn most_frames_arrive_where_a_port_is_wide() {
        let (mut opens, mut broadcasts) = ([0; 2], [0; 2]);
        for_each_event(|rack, _, line| {
            let wide = usize::from(has_wide_port(rack));
            match line.as_bytes()[0] {
                b'O' => opens[wide] += 1,
                b'B' => broadcasts[wide] += 1,
                _ => {}
            }
        });
        assert!(opens[1] > opens[0], "{opens:?} OPENs without and with a wide port");
        assert!(broadcasts[1] > broadcasts[0], "{broadcasts:?} broadcasts without and with a wide port");
    }
}
