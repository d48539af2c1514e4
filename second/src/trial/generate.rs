//! Calls without end: each on a shelf that earlier calls have changed, most of them good, some damaged.

use super::call::{Answer, Call};
use super::console::{choices, trips};
use super::pairs::pair;
use super::profile::Profile;
use super::random::Random;
use super::requests::{broadcast_frame, damage_frame, open_frame};
use super::saved;
use super::sheets;
use super::shelf::Shelf;
use crate::saved::ROOM;
use crate::sheets::MOST;
use crate::tables::RECORD;

/// Of so many calls how many have a second one beside them, how many begin a round trip, how many begin calls of sheets or of
/// files that are judged together, how many are the next of the sweep over damaged files, and how many others are the console's.
const OF: usize = 200;
const PAIRS: usize = 6;
const TRIPS: usize = 4;
const SHEETS: usize = 3;
const FILES: usize = 5;
const SWEEPS: usize = 30;
const CONSOLE: usize = 8;

/// Calls that were made up together, with the model's answers.
pub struct Tried {
    pub calls: Vec<(Call, Answer)>,
    pub together: Together,
}

/// How calls are judged together, beside each by itself.
#[derive(Clone, Copy, PartialEq, Eq)]
pub enum Together {
    Alone,
    Pair,
    Trip,
    Sheets,
    Files,
}

pub struct Generator {
    random: Random,
    shelf: Shelf,
    /// How many calls the shelf still has before a new one takes its place.
    left: usize,
    /// How many damaged files of the sweep there were.
    swept: usize,
}

/// What may be wrong with a call, beside its frame or request.
#[derive(Clone, Copy, PartialEq, Eq)]
enum Damage {
    Sizes,
    Phy,
    Room,
    Readiness,
    Number,
}

impl Generator {
    pub fn new(profile: Profile, seed: u64) -> Generator {
        let mut random = Random::new(seed);
        let shelf = Shelf::random(&mut random, profile);
        Generator { random, shelf, left: 1, swept: 0 }
    }

    pub fn profile(&self) -> Profile {
        self.shelf.profile
    }

    /// The next call.
    pub fn call(&mut self) -> Call {
        if self.left == 0 {
            self.shelf = Shelf::random(&mut self.random, self.shelf.profile);
            self.left = self.random.between(1, 60);
        }
        self.left -= 1;
        let mut call = match self.random.below(54) {
            0 => self.start_up(),
            1..=3 => self.leaving(),
            4..=7 => self.identify(),
            8..=9 => self.elect(),
            10..=18 => self.open(),
            19..=22 => self.primitive(),
            23..=27 => self.broadcast_frame(),
            28..=33 => self.sheet(),
            34..=37 => saved::call(&mut self.random, &self.shelf),
            _ => self.smp(),
        };
        self.damage(&mut call);
        call
    }

    /// The next call with the model's answer, or now and then some that are judged together as well.
    pub fn tried(&mut self) -> Tried {
        let profile = self.shelf.profile;
        let alone = |call: Call| {
            let answer = call.model(profile);
            Tried { calls: vec![(call, answer)], together: Together::Alone }
        };
        let mut drawn = self.random.below(OF);
        let mut is_next = |share: usize| {
            let is_it = drawn < share;
            drawn = drawn.wrapping_sub(share);
            is_it
        };
        if is_next(PAIRS) {
            let calls = self.pair().map(|call| (call.clone(), call.model(profile))).into();
            Tried { calls, together: Together::Pair }
        } else if is_next(TRIPS) {
            Tried { calls: trips::trip(&mut self.random, &mut self.shelf), together: Together::Trip }
        } else if is_next(SHEETS) {
            Tried { calls: sheets::trips::trip(&mut self.random, &mut self.shelf), together: Together::Sheets }
        } else if is_next(FILES) {
            Tried { calls: saved::trips::trip(&mut self.random, &mut self.shelf), together: Together::Files }
        } else if is_next(SWEEPS) {
            alone(self.sweep())
        } else if is_next(CONSOLE) {
            alone(Call::Console(choices::call(&mut self.random, profile)))
        } else {
            let tried = alone(self.call());
            tried.calls.iter().for_each(|(call, answer)| self.keep(call, answer));
            tried
        }
    }

    /// The next call of the sweep, which leaves the shelf as it is.
    fn sweep(&mut self) -> Call {
        self.swept += 1;
        saved::sweep::call(self.shelf.profile, self.swept - 1)
    }

    /// The shelf goes on with the tables that an answered call left behind.
    pub fn keep(&mut self, call: &Call, after: &Answer) {
        if after.refusal() != 0 {
            return;
        }
        match (call, after.buffers.as_slice()) {
            (Call::StartUp { .. } | Call::Import { .. } | Call::LoadVersion1 { .. }, [permissions]) => {
                self.shelf.permissions.clone_from(permissions);
            }
            (Call::Leaving { .. } | Call::Identify { .. }, [phys]) => self.shelf.phys.clone_from(phys),
            (Call::Smp { .. } | Call::LoadVersion2 { .. }, [phys, permissions, ..]) => {
                self.shelf.phys.clone_from(phys);
                self.shelf.permissions.clone_from(permissions);
            }
            _ => {}
        }
    }

    fn start_up(&mut self) -> Call {
        Call::StartUp { permissions: self.shelf.permissions.clone() }
    }

    fn leaving(&mut self) -> Call {
        let phy = self.shelf.phy(&mut self.random, |record| record.ready) as u32;
        Call::Leaving { phys: self.shelf.phys.clone(), phy }
    }

    fn identify(&mut self) -> Call {
        let phy = self.shelf.phy(&mut self.random, |record| !record.ready);
        let address = match self.random.below(3) {
            0 => self.shelf.record(phy).address,
            _ => self.shelf.address(&mut self.random),
        };
        let mut address = address.to_be_bytes().to_vec();
        if self.random.percent(8) {
            let length = self.random.pick(&[0, 1, 7, 9, 16, 264]);
            address.resize(length, 0);
        }
        Call::Identify {
            phys: self.shelf.phys.clone(),
            phy: phy as u32,
            address,
            device_type: self.number(&DEVICE_TYPES, 256),
            attached_phy: self.number(&BYTES, 256),
        }
    }

    fn elect(&mut self) -> Call {
        Call::Elect { phys: self.shelf.phys.clone(), routes: self.shelf.routes.clone() }
    }

    fn open(&mut self) -> Call {
        let phy = self.ready_phy();
        let destination = match self.random.below(8) {
            0 => self.shelf.record(phy as usize).address,
            _ => self.shelf.address(&mut self.random),
        };
        let mut frame = open_frame(&mut self.random, self.shelf.profile, destination);
        if self.random.percent(8) {
            damage_frame(&mut self.random, &mut frame);
        }
        Call::Open {
            phys: self.shelf.phys.clone(),
            routes: self.shelf.routes.clone(),
            permissions: self.shelf.permissions.clone(),
            phy,
            frame,
            out: self.buffer(28),
        }
    }

    fn primitive(&mut self) -> Call {
        Call::Primitive {
            phys: self.shelf.phys.clone(),
            permissions: self.shelf.permissions.clone(),
            phy: self.ready_phy(),
            number: self.random.below(8) as u32,
            set: self.buffer(16),
            out: self.buffer(28),
        }
    }

    fn broadcast_frame(&mut self) -> Call {
        let phy = self.shelf.phy(&mut self.random, |record| record.ready && record.participating) as u32;
        let mut frame = broadcast_frame(&mut self.random, self.shelf.profile);
        if self.random.percent(15) {
            damage_frame(&mut self.random, &mut frame);
        }
        Call::BroadcastFrame {
            phys: self.shelf.phys.clone(),
            permissions: self.shelf.permissions.clone(),
            phy,
            frame,
            set: self.buffer(16),
            out: self.buffer(28),
        }
    }

    fn smp(&mut self) -> Call {
        let asks = self.shelf.asks(&mut self.random);
        self.asking(asks)
    }

    /// Exports are few: each has room for the longest.
    fn sheet(&mut self) -> Call {
        if self.random.percent(5) {
            sheets::export(&mut self.random, &self.shelf)
        } else {
            sheets::import(&mut self.random, &self.shelf)
        }
    }

    /// One DISCOVER on two shelves: on this one, which stays as it is, and on another. A few have no room or a number
    /// that does not fit.
    pub fn pair(&mut self) -> [Call; 2] {
        let asks = self.shelf.discovers(&mut self.random);
        let mut first = self.asking(asks);
        let profile = self.shelf.profile;
        if self.random.percent(8) {
            let damage = self.random.pick(&[Damage::Room, Damage::Number]);
            damage_once(&mut self.random, profile, &mut first, damage);
        }
        pair(&mut self.random, profile, first)
    }

    fn asking(&mut self, (phy, carried, request): (usize, u8, Vec<u8>)) -> Call {
        Call::Smp {
            phys: self.shelf.phys.clone(),
            permissions: self.shelf.permissions.clone(),
            phy: phy as u32,
            carried: carried.into(),
            expander_changes: self.number(&WORDS, 65_536),
            phy_changes: self.number(&BYTES, 256),
            request,
            response: self.buffer(1020),
            set: self.buffer(16),
        }
    }

    /// A number below the bound: any, or one of these edges. Now and then it is one that does not fit.
    fn number(&mut self, edges: &[u32], bound: u32) -> u32 {
        match self.random.below(100) {
            0..=1 => too_wide(&mut self.random, bound),
            2..=49 => self.random.pick(edges),
            _ => self.random.number() as u32 % bound,
        }
    }

    fn ready_phy(&mut self) -> u32 {
        self.shelf.phy(&mut self.random, |record| record.ready) as u32
    }

    /// A buffer with room enough and any bytes in it, so that a byte written or left by mistake shows.
    fn buffer(&mut self, needed: usize) -> Vec<u8> {
        let more = self.random.pick(&[0, 0, 0, 1, 4, 13]);
        self.random.bytes(needed + more)
    }

    /// Most calls stay good. Two damages at once show the order of the refusals.
    fn damage(&mut self, call: &mut Call) {
        let times = match self.random.below(100) {
            0..=79 => 0,
            80..=92 => 1,
            _ => 2,
        };
        for _ in 0..times {
            let all = [Damage::Sizes, Damage::Phy, Damage::Room, Damage::Readiness, Damage::Number];
            let damage = match call {
                // Start-up has nothing but its size that could be wrong, and an export its room as well.
                Call::StartUp { .. } => Damage::Sizes,
                Call::Export { .. } => self.random.pick(&[Damage::Sizes, Damage::Room]),
                Call::SaveVersion1 { .. } | Call::SaveVersion2 { .. } => {
                    self.random.pick(&[Damage::Sizes, Damage::Room])
                }
                Call::LoadVersion1 { .. } | Call::LoadVersion2 { .. } => Damage::Sizes,
                // A sheet that is too long takes its time.
                Call::Import { .. } if self.random.percent(50) => Damage::Number,
                _ => self.random.pick(&all),
            };
            damage_once(&mut self.random, self.shelf.profile, call, damage);
        }
    }
}

/// Edges of what IDENTIFY and SMP hand in. A device type has three bits, of a byte.
const DEVICE_TYPES: [u32; 11] = [0, 1, 1, 2, 2, 3, 7, 8, 9, 254, 255];
const BYTES: [u32; 6] = [0, 1, 127, 128, 254, 255];
const WORDS: [u32; 9] = [0, 1, 254, 255, 256, 257, 65_280, 65_534, 65_535];

/// A number that is not below the bound, at times one that would be good if it were cut.
fn too_wide(random: &mut Random, bound: u32) -> u32 {
    let [cut, cut_to_16] = [bound, 65_536].map(|more| random.below(256) as u32 + more);
    random.pick(&[bound, bound, bound + 1, cut, cut_to_16, 1 << 31, u32::MAX, u32::MAX])
}

fn damage_once(random: &mut Random, profile: Profile, call: &mut Call, damage: Damage) {
    match damage {
        Damage::Sizes => damage_size(random, profile, call),
        Damage::Phy => damage_phy(random, call),
        Damage::Room => damage_room(random, call),
        Damage::Readiness => damage_readiness(call),
        Damage::Number => damage_number(random, call),
    }
}

fn damage_size(random: &mut Random, profile: Profile, call: &mut Call) {
    let permission_sizes = match profile {
        Profile::Large => PERMISSION_SIZES,
        Profile::Small => PERMISSION_SIZES_OF_SMALL,
    };
    let mut tables: Vec<(&mut Vec<u8>, &[usize])> = match call {
        Call::StartUp { permissions }
        | Call::Export { permissions, .. }
        | Call::SaveVersion1 { permissions, .. }
        | Call::LoadVersion1 { permissions, .. } => vec![(permissions, &permission_sizes)],
        Call::Leaving { phys, .. } | Call::Identify { phys, .. } => vec![(phys, &PHY_SIZES)],
        Call::Elect { phys, routes } => vec![(phys, &PHY_SIZES), (routes, &ROUTE_SIZES)],
        Call::Open { phys, routes, permissions, .. } => {
            vec![(phys, &PHY_SIZES), (routes, &ROUTE_SIZES), (permissions, &permission_sizes)]
        }
        Call::Primitive { phys, permissions, .. }
        | Call::BroadcastFrame { phys, permissions, .. }
        | Call::Smp { phys, permissions, .. }
        | Call::Import { phys, permissions, .. }
        | Call::SaveVersion2 { phys, permissions, .. }
        | Call::LoadVersion2 { phys, permissions, .. } => vec![(phys, &PHY_SIZES), (permissions, &permission_sizes)],
        Call::Console(_) => return,
    };
    let which = random.below(tables.len());
    let (table, sizes) = &mut tables[which];
    let size = random.pick(sizes);
    if random.percent(50) {
        // A byte or a part of a record too many or missing. (A whole record leaves another good size.)
        let size = table.len().saturating_add_signed(random.pick(&[-1, 1, -16, 16, -12, 12, 8, 6, -15, -11]));
        table.resize(size, 0);
    } else {
        table.resize(size, 0xa5);
    }
}

/// Wrong sizes, and right ones at the edge. The last of each is a right one where a size is cut to 16 bits. The size that
/// stands twice is the other shelf's.
const PHY_SIZES: [usize; 9] = [0, 1, 12, 16, 2047, 2048, 2049, 2064, 65_536 + 2048];
const ROUTE_SIZES: [usize; 8] = [0, 1, 11, 12, 12_288, 12_289, 12_300, 65_536 + 12_288];
const PERMISSION_SIZES: [usize; 9] = [0, 8, 8, 16, 2032, 2047, 2049, 2064, 65_536 + 2048];
const PERMISSION_SIZES_OF_SMALL: [usize; 9] = [0, 7, 9, 16, 256, 264, 2048, 2048, 65_536 + 8];

fn damage_phy(random: &mut Random, call: &mut Call) {
    let (phys, phy) = match call {
        Call::Leaving { phys, phy }
        | Call::Identify { phys, phy, .. }
        | Call::Open { phys, phy, .. }
        | Call::Primitive { phys, phy, .. }
        | Call::BroadcastFrame { phys, phy, .. }
        | Call::Smp { phys, phy, .. }
        | Call::Import { phys, phy, .. } => (phys, phy),
        _ => return,
    };
    let count = (phys.len() / RECORD) as u32;
    let [cut_to_8, cut_to_16] = right_where_cut(*phy);
    *phy = random.pick(&[count, count + 1, 127, 128, 255, 256, cut_to_8, cut_to_16, 1 << 31, u32::MAX]);
}

/// Numbers that are as before where they are cut to 8 or to 16 bits.
fn right_where_cut(number: u32) -> [u32; 2] {
    [256, 65_536].map(|more| number.wrapping_add(more))
}

fn damage_room(random: &mut Random, call: &mut Call) {
    let (buffer, needed) = match call {
        Call::Open { out, .. } => (out, 28),
        Call::Primitive { set, out, .. } | Call::BroadcastFrame { set, out, .. } => {
            if random.percent(50) {
                (set, 16)
            } else {
                (out, 28)
            }
        }
        Call::Smp { response, set, .. } => {
            if random.percent(50) {
                (set, 16)
            } else {
                (response, 1020)
            }
        }
        Call::Import { sheet, .. } => return sheets::lines::lengthen(random, sheet),
        Call::Export { sheet, .. } => {
            // Room for the longest export of either shelf is not room enough.
            let size = random.pick(&[0, 147, 74_549, MOST - 1, MOST - 1, MOST - 1, MOST]);
            return sheet.truncate(size);
        }
        Call::SaveVersion1 { file, .. } | Call::SaveVersion2 { file, .. } => {
            let size = random.pick(&[0, 54, 440, 16_014, 16_398, ROOM - 1, ROOM - 1, ROOM]);
            return file.truncate(size);
        }
        _ => return,
    };
    let size = random.pick(&[0, 1, needed - 1, needed - 1, needed]);
    buffer.resize(size, 0x5a);
}

/// The arriving phy becomes ready where it was not, and the other way round.
fn damage_readiness(call: &mut Call) {
    match call {
        Call::Leaving { phys, phy }
        | Call::Identify { phys, phy, .. }
        | Call::Open { phys, phy, .. }
        | Call::Primitive { phys, phy, .. }
        | Call::BroadcastFrame { phys, phy, .. }
        | Call::Smp { phys, phy, .. }
        | Call::Import { phys, phy, .. } => {
            if let Some(record) = phys.as_chunks_mut::<RECORD>().0.get_mut(*phy as usize) {
                record[2] ^= 1;
            }
        }
        _ => {}
    }
}

/// What is no group, and mostly no byte.
fn no_carried_byte(random: &mut Random, carried: u32) -> u32 {
    let [cut_to_8, cut_to_16] = right_where_cut(carried);
    random.pick(&[256, 255, 128, cut_to_8, cut_to_16, 1 << 31, u32::MAX])
}

fn damage_number(random: &mut Random, call: &mut Call) {
    match call {
        Call::Primitive { number, .. } => {
            let [cut_to_8, cut_to_16] = right_where_cut(*number);
            *number = random.pick(&[8, 9, 15, 16, 128, 255, 256, cut_to_8, cut_to_16, u32::MAX]);
        }
        Call::Smp { carried, expander_changes, phy_changes, .. } => match random.below(4) {
            0 => *expander_changes = too_wide(random, 65_536),
            1 => *phy_changes = too_wide(random, 256),
            _ => *carried = no_carried_byte(random, *carried),
        },
        Call::Import { carried, .. } => *carried = no_carried_byte(random, *carried),
        Call::Open { frame, .. } | Call::BroadcastFrame { frame, .. } => damage_frame(random, frame),
        Call::Identify { address, device_type, attached_phy, .. } => match random.below(6) {
            0 => *device_type = too_wide(random, 256),
            1 => *attached_phy = too_wide(random, 256),
            2 => [*device_type, *attached_phy] = [0, 1].map(|_| too_wide(random, 256)),
            _ => address.fill(0),
        },
        _ => {}
    }
}
