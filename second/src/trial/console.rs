//! The console's calls: choices that become requests, and responses that are read. Some are made alone; others are steps
//! of a round trip, in which the console builds, a shelf answers, and the console reads.

use super::call::Answer;
use crate::console::{batch, phy_zones, read, report, single, Built, Heard};

pub mod choices;
pub mod classes;
pub mod responses;
pub mod trips;

#[derive(Clone, Debug)]
pub enum Console {
    PhyZones { request: Vec<u8>, first_phy: u32, entries: Vec<u8> },
    Single { request: Vec<u8>, a: u32, b: u32, on: u32, complete: u32 },
    Batch { request: Vec<u8>, first_group: u32, choices: Vec<u8>, complete: u32 },
    Report { request: Vec<u8>, first_group: u32, count: u32 },
    Read { response: Vec<u8>, rows: Vec<u8> },
}

type Numbers = Vec<(&'static str, u32)>;
type Buffers<'a> = Vec<(&'static str, &'a Vec<u8>)>;

impl Console {
    pub(super) fn parts(&self) -> (u8, Numbers, Buffers<'_>) {
        match self {
            Console::PhyZones { request, first_phy, entries } => {
                (14, vec![("first_phy", *first_phy)], vec![("request", request), ("entries", entries)])
            }
            Console::Single { request, a, b, on, complete } => {
                (15, vec![("a", *a), ("b", *b), ("on", *on), ("complete", *complete)], vec![("request", request)])
            }
            Console::Batch { request, first_group, choices, complete } => (
                16,
                vec![("first_group", *first_group), ("complete", *complete)],
                vec![("request", request), ("choices", choices)],
            ),
            Console::Report { request, first_group, count } => {
                (17, vec![("first_group", *first_group), ("count", *count)], vec![("request", request)])
            }
            Console::Read { response, rows } => (18, vec![], vec![("response", response), ("rows", rows)]),
        }
    }

    pub(super) fn model(self) -> Answer {
        match self {
            Console::PhyZones { mut request, first_phy, entries } => {
                built(phy_zones(&mut request, first_phy, &entries), request)
            }
            Console::Single { mut request, a, b, on, complete } => {
                built(single(&mut request, a, b, on, complete), request)
            }
            Console::Batch { mut request, first_group, choices, complete } => {
                built(batch(&mut request, first_group, &choices, complete), request)
            }
            Console::Report { mut request, first_group, count } => {
                built(report(&mut request, first_group, count), request)
            }
            Console::Read { response, mut rows } => {
                let Heard { refusal, function, result, start, count } = read(&response, &mut rows);
                Answer::new(&[refusal, function, result, start, count].map(u64::from), vec![rows])
            }
        }
    }
}

fn built(Built { refusal, length }: Built, request: Vec<u8>) -> Answer {
    Answer::new(&[refusal, length].map(u64::from), vec![request])
}
