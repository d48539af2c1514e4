//! A call of the shelf's header or of the console's with all its bytes: what the model answers to it, and its form on the
//! way to the driver.
//!
//! The driver's protocol, all numbers little-endian:
//! - a call: one byte, which call (its place in the shelf's header, from 0, and then in the console's); its numbers, 4
//!   bytes each; its buffers, each 4 bytes of length and then the bytes; numbers and buffers in the header's order;
//! - the byte 255 instead of a call: all answers so far are to be sent on;
//! - an answer: the call's byte; one byte, 0 where the driver found every const buffer and every byte around the buffers
//!   as before; five fields of 8 bytes (0 where the answer has fewer); then every byte of every buffer that is not const.

use super::console::Console;
use super::profile::Profile;
use crate::broadcast::{broadcast_frame, primitive};
use crate::links::{elect, identify, leaving};
use crate::open::open;
use crate::permission::start_up;
use crate::saved::{load_version_1, load_version_2, save_version_1, save_version_2, Loaded, Saved};
use crate::sheets::{export, import};
use crate::smp::smp;
use crate::tables::{LARGE, SMALL};

#[derive(Clone, Debug)]
pub enum Call {
    StartUp {
        permissions: Vec<u8>,
    },
    Leaving {
        phys: Vec<u8>,
        phy: u32,
    },
    Identify {
        phys: Vec<u8>,
        phy: u32,
        address: Vec<u8>,
        device_type: u32,
        attached_phy: u32,
    },
    Elect {
        phys: Vec<u8>,
        routes: Vec<u8>,
    },
    Open {
        phys: Vec<u8>,
        routes: Vec<u8>,
        permissions: Vec<u8>,
        phy: u32,
        frame: Vec<u8>,
        out: Vec<u8>,
    },
    Primitive {
        phys: Vec<u8>,
        permissions: Vec<u8>,
        phy: u32,
        number: u32,
        set: Vec<u8>,
        out: Vec<u8>,
    },
    BroadcastFrame {
        phys: Vec<u8>,
        permissions: Vec<u8>,
        phy: u32,
        frame: Vec<u8>,
        set: Vec<u8>,
        out: Vec<u8>,
    },
    Smp {
        phys: Vec<u8>,
        permissions: Vec<u8>,
        phy: u32,
        carried: u32,
        expander_changes: u32,
        phy_changes: u32,
        request: Vec<u8>,
        response: Vec<u8>,
        set: Vec<u8>,
    },
    Import {
        phys: Vec<u8>,
        permissions: Vec<u8>,
        phy: u32,
        carried: u32,
        sheet: Vec<u8>,
    },
    Export {
        permissions: Vec<u8>,
        sheet: Vec<u8>,
    },
    SaveVersion1 {
        permissions: Vec<u8>,
        file: Vec<u8>,
    },
    SaveVersion2 {
        phys: Vec<u8>,
        permissions: Vec<u8>,
        file: Vec<u8>,
    },
    LoadVersion1 {
        permissions: Vec<u8>,
        file: Vec<u8>,
    },
    LoadVersion2 {
        phys: Vec<u8>,
        permissions: Vec<u8>,
        file: Vec<u8>,
    },
    Console(Console),
}

/// Ends a batch: the driver sends on what it has gathered.
pub const SEND_ON: u8 = 255;

/// How many fields an answer has on its way from the driver.
pub const FIELDS: usize = 5;

/// An answer: its fields, refusal first, and the buffers that are not const, as they are after the call.
#[derive(Clone, Debug, PartialEq, Eq)]
pub struct Answer {
    pub fields: [u64; FIELDS],
    pub buffers: Vec<Vec<u8>>,
}

impl Answer {
    pub fn refusal(&self) -> u64 {
        self.fields[0]
    }

    pub(super) fn new(fields: &[u64], buffers: Vec<Vec<u8>>) -> Answer {
        let mut all = [0; FIELDS];
        all[..fields.len()].copy_from_slice(fields);
        Answer { fields: all, buffers }
    }
}

/// A call taken apart: its place in the headers, its numbers, and its buffers by name.
pub struct Parts<'a> {
    pub place: u8,
    pub name: &'static str,
    pub numbers: Vec<(&'static str, u32)>,
    pub buffers: Vec<(&'static str, &'a [u8])>,
}

pub const NAMES: [&str; 19] = [
    "start_up",
    "leaving",
    "identify",
    "elect",
    "open",
    "primitive",
    "broadcast_frame",
    "smp",
    "import",
    "export",
    "save_version_1",
    "save_version_2",
    "load_version_1",
    "load_version_2",
    "console_phy_zones",
    "console_single",
    "console_batch",
    "console_report",
    "console_read",
];

impl Call {
    pub fn parts(&self) -> Parts<'_> {
        let (place, numbers, buffers) = match self {
            Call::StartUp { permissions } => (0, vec![], vec![("permissions", permissions)]),
            Call::Leaving { phys, phy } => (1, vec![("phy", *phy)], vec![("phys", phys)]),
            Call::Identify { phys, phy, address, device_type, attached_phy } => (
                2,
                vec![("phy", *phy), ("device_type", *device_type), ("attached_phy", *attached_phy)],
                vec![("phys", phys), ("address", address)],
            ),
            Call::Elect { phys, routes } => (3, vec![], vec![("phys", phys), ("routes", routes)]),
            Call::Open { phys, routes, permissions, phy, frame, out } => (
                4,
                vec![("phy", *phy)],
                vec![("phys", phys), ("routes", routes), ("permissions", permissions), ("frame", frame), ("out", out)],
            ),
            Call::Primitive { phys, permissions, phy, number, set, out } => (
                5,
                vec![("phy", *phy), ("number", *number)],
                vec![("phys", phys), ("permissions", permissions), ("set", set), ("out", out)],
            ),
            Call::BroadcastFrame { phys, permissions, phy, frame, set, out } => (
                6,
                vec![("phy", *phy)],
                vec![("phys", phys), ("permissions", permissions), ("frame", frame), ("set", set), ("out", out)],
            ),
            Call::Smp { phys, permissions, phy, carried, expander_changes, phy_changes, request, response, set } => (
                7,
                vec![
                    ("phy", *phy),
                    ("carried", *carried),
                    ("expander_changes", *expander_changes),
                    ("phy_changes", *phy_changes),
                ],
                vec![
                    ("phys", phys),
                    ("permissions", permissions),
                    ("request", request),
                    ("response", response),
                    ("set", set),
                ],
            ),
            Call::Import { phys, permissions, phy, carried, sheet } => (
                8,
                vec![("phy", *phy), ("carried", *carried)],
                vec![("phys", phys), ("permissions", permissions), ("sheet", sheet)],
            ),
            Call::Export { permissions, sheet } => (9, vec![], vec![("permissions", permissions), ("sheet", sheet)]),
            Call::SaveVersion1 { permissions, file } => {
                (10, vec![], vec![("permissions", permissions), ("file", file)])
            }
            Call::SaveVersion2 { phys, permissions, file } => {
                (11, vec![], vec![("phys", phys), ("permissions", permissions), ("file", file)])
            }
            Call::LoadVersion1 { permissions, file } => {
                (12, vec![], vec![("permissions", permissions), ("file", file)])
            }
            Call::LoadVersion2 { phys, permissions, file } => {
                (13, vec![], vec![("phys", phys), ("permissions", permissions), ("file", file)])
            }
            Call::Console(call) => call.parts(),
        };
        let buffers = buffers.into_iter().map(|(name, bytes)| (name, bytes.as_slice())).collect();
        Parts { place, name: NAMES[usize::from(place)], numbers, buffers }
    }

    /// Appends the call as the driver reads it.
    pub fn send(&self, to: &mut Vec<u8>) {
        let parts = self.parts();
        to.push(parts.place);
        for (_, number) in parts.numbers {
            to.extend(number.to_le_bytes());
        }
        for (_, bytes) in parts.buffers {
            to.extend((bytes.len() as u32).to_le_bytes());
            to.extend(bytes);
        }
    }

    /// What the model answers, and the buffers that are not const after it.
    pub fn model(&self, profile: Profile) -> Answer {
        match profile {
            Profile::Large => self.answer::<LARGE>(),
            Profile::Small => self.answer::<SMALL>(),
        }
    }

    fn answer<const WIDTH: usize>(&self) -> Answer {
        match self.clone() {
            Call::StartUp { mut permissions } => {
                let refusal = start_up::<WIDTH>(&mut permissions);
                Answer::new(&[refusal.into()], vec![permissions])
            }
            Call::Leaving { mut phys, phy } => {
                let refusal = leaving(&mut phys, phy);
                Answer::new(&[refusal.into()], vec![phys])
            }
            Call::Identify { mut phys, phy, address, device_type, attached_phy } => {
                let refusal = identify(&mut phys, phy, &address, device_type, attached_phy);
                Answer::new(&[refusal.into()], vec![phys])
            }
            Call::Elect { phys, routes } => {
                let elected = elect(&phys, &routes);
                Answer::new(&[elected.refusal.into(), elected.priority.into(), elected.address], vec![])
            }
            Call::Open { phys, routes, permissions, phy, frame, mut out } => {
                let opened = open::<WIDTH>(&phys, &routes, &permissions, phy, &frame, &mut out);
                Answer::new(&[opened.refusal, opened.outcome, opened.phy].map(u64::from), vec![out])
            }
            Call::Primitive { phys, permissions, phy, number, mut set, mut out } => {
                let told = primitive::<WIDTH>(&phys, &permissions, phy, number, &mut set, &mut out);
                Answer::new(&[told.refusal, told.count].map(u64::from), vec![set, out])
            }
            Call::BroadcastFrame { phys, permissions, phy, frame, mut set, mut out } => {
                let told = broadcast_frame::<WIDTH>(&phys, &permissions, phy, &frame, &mut set, &mut out);
                Answer::new(&[told.refusal, told.count].map(u64::from), vec![set, out])
            }
            Call::Smp {
                mut phys,
                mut permissions,
                phy,
                carried,
                expander_changes,
                phy_changes,
                request,
                mut response,
                mut set,
            } => {
                let answer = smp::<WIDTH>(
                    &mut phys,
                    &mut permissions,
                    phy,
                    carried,
                    expander_changes,
                    phy_changes,
                    &request,
                    &mut response,
                    &mut set,
                );
                let fields = [answer.refusal, answer.result, answer.length, answer.count].map(u64::from);
                Answer::new(&fields, vec![phys, permissions, response, set])
            }
            Call::Import { phys, mut permissions, phy, carried, sheet } => {
                let imported = import::<WIDTH>(&phys, &mut permissions, phy, carried, &sheet);
                Answer::new(&[imported.refusal, imported.lines, imported.cause].map(u64::from), vec![permissions])
            }
            Call::Export { permissions, mut sheet } => {
                let exported = export::<WIDTH>(&permissions, &mut sheet);
                Answer::new(&[exported.refusal, exported.length].map(u64::from), vec![sheet])
            }
            Call::SaveVersion1 { permissions, mut file } => {
                let Saved { refusal, length } = save_version_1::<WIDTH>(&permissions, &mut file);
                Answer::new(&[refusal, length].map(u64::from), vec![file])
            }
            Call::SaveVersion2 { phys, permissions, mut file } => {
                let Saved { refusal, length } = save_version_2::<WIDTH>(&phys, &permissions, &mut file);
                Answer::new(&[refusal, length].map(u64::from), vec![file])
            }
            Call::LoadVersion1 { mut permissions, file } => {
                let Loaded { refusal, version } = load_version_1::<WIDTH>(&mut permissions, &file);
                Answer::new(&[refusal, version].map(u64::from), vec![permissions])
            }
            Call::LoadVersion2 { mut phys, mut permissions, file } => {
                let Loaded { refusal, version } = load_version_2::<WIDTH>(&mut phys, &mut permissions, &file);
                Answer::new(&[refusal, version].map(u64::from), vec![phys, permissions])
            }
            Call::Console(call) => call.model(),
        }
    }
}
