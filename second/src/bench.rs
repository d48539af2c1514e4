//! Bench rack: the fixed table, and the text that the bench program prints for a stream of events.

use crate::large::{broadcast_frame, identify, leaving, open, primitive, smp, start_up};
use crate::tables::Record;
use std::fmt::Write;

pub const FIRST_LINE: &str = "rack 1";

pub const SMP: u8 = 1;
pub const OPEN: u8 = 2;
pub const PRIMITIVE: u8 = 3;
pub const BROADCAST_FRAME: u8 = 4;
pub const IDENTIFY: u8 = 5;
pub const LEAVING: u8 = 6;

/// Groups of phys 0 to 7.
const GROUPS: [u8; 8] = [1, 2, 8, 8, 9, 9, 0, 1];

/// What the bench hands in with every IDENTIFY: the type of a device that is no expander, and its phy.
const DEVICE_TYPE: u32 = 1;
const ATTACHED_PHY: u32 = 0;

/// What it hands in with every SMP request.
const EXPANDER_CHANGES: u32 = 0;
const PHY_CHANGES: u32 = 0;

/// The bench rack's tables. It has no routes.
#[derive(Clone, Debug, PartialEq, Eq)]
pub struct Rack {
    pub phys: Vec<u8>,
    pub permissions: Vec<u8>,
}

impl Default for Rack {
    fn default() -> Rack {
        let mut permissions = vec![0; 2048];
        start_up(&mut permissions);
        Rack { phys: (0..8).flat_map(bench_phy).collect(), permissions }
    }
}

fn bench_phy(phy: u8) -> Record {
    let zoning = match phy {
        0 => 15,
        7 => 0x10,
        _ => 0,
    };
    [zoning, GROUPS[usize::from(phy)], 0b11, 0, 0x50, 0, 0, 0, 0, 0, 0, 0x10 + phy, 0, 0, 0, 0]
}

/// One event of the stream.
#[derive(Clone, Debug, PartialEq, Eq)]
pub struct Event<'a> {
    pub kind: u8,
    pub phy: u8,
    pub carried: u8,
    pub payload: &'a [u8],
}

impl<'a> Event<'a> {
    /// The event at the front of the input and the input after it; nothing where the event is cut off.
    pub fn take(input: &'a [u8]) -> Option<(Event<'a>, &'a [u8])> {
        let (&[kind, phy, carried, high, low], rest) = input.split_first_chunk()?;
        let length = usize::from(u16::from_be_bytes([high, low]));
        let (payload, rest) = rest.split_at_checked(length)?;
        Some((Event { kind, phy, carried, payload }, rest))
    }

    pub fn bytes(&self) -> Vec<u8> {
        let length = u16::try_from(self.payload.len()).expect("a payload has a length of two bytes");
        let [high, low] = length.to_be_bytes();
        [&[self.kind, self.phy, self.carried, high, low], self.payload].concat()
    }
}

/// The text that the bench program prints for this input.
pub fn text(input: &[u8]) -> String {
    let mut rack = Rack::default();
    let mut text = format!("{FIRST_LINE}\n");
    let mut rest = input;
    let mut number = 1u64;
    while !rest.is_empty() {
        let Some((event, after)) = Event::take(rest) else {
            writeln!(text, "{number} T").expect("a String takes all text");
            break;
        };
        writeln!(text, "{number} {}", rack.line(&event)).expect("a String takes all text");
        rest = after;
        number += 1;
    }
    text
}

impl Rack {
    /// Handles an event; answers its line without the number.
    pub fn line(&mut self, event: &Event) -> String {
        match (event.kind, event.payload) {
            (SMP, request) => self.smp(event, request),
            (OPEN, frame) => self.open(event, frame),
            (PRIMITIVE, &[number]) => self.primitive(event, number),
            (BROADCAST_FRAME, frame) => self.broadcast_frame(event, frame),
            (IDENTIFY, address) if address.len() == 8 => self.identify(event, address),
            (LEAVING, []) => self.leaving(event),
            _ => "K".to_string(),
        }
    }

    fn smp(&mut self, event: &Event, request: &[u8]) -> String {
        let (mut response, mut set) = ([0; 1020], [0; 16]);
        let answer = smp(
            &mut self.phys,
            &mut self.permissions,
            event.phy.into(),
            event.carried.into(),
            EXPANDER_CHANGES,
            PHY_CHANGES,
            request,
            &mut response,
            &mut set,
        );
        let line = format!("S {:02X} {} {}", answer.result, answer.length, answer.count);
        unless_refused(answer.refusal, line)
    }

    fn open(&self, event: &Event, frame: &[u8]) -> String {
        let answer = open(&self.phys, &[], &self.permissions, event.phy.into(), frame, &mut [0; 28]);
        let line = match answer.outcome {
            1 => "O ND".to_string(),
            2 => "O BD".to_string(),
            3 => "O ZV".to_string(),
            _ => format!("O FWD {}", answer.phy),
        };
        unless_refused(answer.refusal, line)
    }

    fn primitive(&self, event: &Event, number: u8) -> String {
        let (mut set, mut out) = ([0; 16], [0; 28]);
        let phy = event.phy.into();
        let answer = primitive(&self.phys, &self.permissions, phy, number.into(), &mut set, &mut out);
        unless_refused(answer.refusal, format!("B {}", answer.count))
    }

    fn broadcast_frame(&self, event: &Event, frame: &[u8]) -> String {
        let (mut set, mut out) = ([0; 16], [0; 28]);
        let answer = broadcast_frame(&self.phys, &self.permissions, event.phy.into(), frame, &mut set, &mut out);
        unless_refused(answer.refusal, format!("B {}", answer.count))
    }

    fn identify(&mut self, event: &Event, address: &[u8]) -> String {
        let refusal = identify(&mut self.phys, event.phy.into(), address, DEVICE_TYPE, ATTACHED_PHY);
        unless_refused(refusal, "L".to_string())
    }

    fn leaving(&mut self, event: &Event) -> String {
        unless_refused(leaving(&mut self.phys, event.phy.into()), "L".to_string())
    }
}

fn unless_refused(refusal: u32, line: String) -> String {
    match refusal {
        0 => line,
        number => format!("X {number}"),
    }
}
