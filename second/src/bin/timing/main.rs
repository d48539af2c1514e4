//! The library's time beside the model's: one process, the same inputs in the same buffers, one run.
//!
//! Both are called in alternating rounds; a time is the median of all rounds' times for one call. Before a case is
//! timed, both must give the same answer and leave the same bytes behind.

use second::chains::slot_of;
use second::console::{self, Built, Heard, ROOM, ROWS_ROOM};
use second::saved::ROOM as FILE_ROOM;
use second::sheets::MOST;
use second::tables::{Group, GROUPS, RECORD, ROUTE};
use second::trial::profile::Profile;
use second::trial::random::Random;
use second::trial::saved::files::{all_pairs as all_named, Parts};
use second::{large, small, Answered, Elected, Exported, Imported, Loaded, Opened, Saved, Told};
use std::hint::black_box;
use std::time::Instant;

mod library;

const ROUNDS: usize = 301;
const SAMPLE_NS: u128 = 20_000;

/// Everything that a call may be lent.
#[derive(Clone, Debug, PartialEq)]
struct Lent {
    phys: Vec<u8>,
    routes: Vec<u8>,
    permissions: Vec<u8>,
    message: Vec<u8>,
    response: Vec<u8>,
    set: Vec<u8>,
    out: Vec<u8>,
    /// The console's alone: choices are in `message`, and so is a response that is read.
    request: Vec<u8>,
    rows: Vec<u8>,
    /// What an export or a save writes. A sheet that is imported, or a file that is loaded, is in `message`.
    sheet: Vec<u8>,
}

impl Lent {
    /// As `other`, in the same place as before.
    fn become_again(&mut self, other: &Lent) {
        self.phys.copy_from_slice(&other.phys);
        self.routes.copy_from_slice(&other.routes);
        self.permissions.copy_from_slice(&other.permissions);
        self.message.copy_from_slice(&other.message);
        self.response.copy_from_slice(&other.response);
        self.set.copy_from_slice(&other.set);
        self.out.copy_from_slice(&other.out);
        self.request.copy_from_slice(&other.request);
        self.rows.copy_from_slice(&other.rows);
        self.sheet.copy_from_slice(&other.sheet);
    }
}

/// One call, or one for each phy; answers its fields.
type Act = fn(&mut Lent) -> [u64; 4];

/// The same call of both programs.
#[derive(Clone, Copy)]
struct Pair {
    rattle: Act,
    rust: Act,
}

/// The same act over the library and over the model, which takes the call as its last argument.
macro_rules! pair {
    ($act:ident, $library:path, $model:expr) => {
        Pair { rattle: |lent| $act(lent, $library), rust: |lent| $act(lent, $model) }
    };
}

const START_UP: Pair = pair!(start_up, library::large::start_up, large::start_up);
const ELECT: Pair = pair!(elect, library::links::elect, large::elect);
const OPEN: Pair = pair!(open, library::large::open, large::open);
const SMP: Pair = pair!(smp, library::large::smp, large::smp);
const LEAVING: Pair = pair!(leaving, library::links::leaving, large::leaving);
const IDENTIFY: Pair = pair!(identify, library::links::identify, large::identify);

// Broadcasts are timed beside the same chains in plain Rust.
const PRIMITIVE: Pair = pair!(primitive, library::large::primitive, large::primitive_by_chains);
const BROADCAST_FRAME: Pair = pair!(broadcast_frame, library::large::broadcast_frame, large::broadcast_frame_by_chains);

/// Beside the model, which reads the rule as it stands: each phy is compared with all that are lower.
const PRIMITIVE_AS_READ: Pair = pair!(primitive, library::large::primitive, large::primitive);

// Sheets are timed beside plain Rust that goes byte by byte.
const IMPORT: Pair = pair!(import, library::large::import, large::import_by_bytes);
const EXPORT: Pair = pair!(export, library::large::export, large::export_by_bytes);

/// Beside the model, which goes by whole lines and fields.
const IMPORT_AS_READ: Pair = pair!(import, library::large::import, large::import);
const EXPORT_AS_READ: Pair = pair!(export, library::large::export, large::export);

// Files are timed beside plain Rust that goes through the ones of a row and makes no lists.
const SAVE_1: Pair = pair!(save_1, library::large::save_version_1, large::save_version_1_straight);
const SAVE_2: Pair = pair!(save_2, library::large::save_version_2, large::save_version_2_straight);
const LOAD_1: Pair = pair!(load_1, library::large::load_version_1, large::load_version_1_straight);
const LOAD_2: Pair = pair!(load_2, library::large::load_version_2, large::load_version_2_straight);

const SMALL_START_UP: Pair = pair!(start_up, library::small::start_up, small::start_up);
const SMALL_OPEN: Pair = pair!(open, library::small::open, small::open);
const SMALL_PRIMITIVE: Pair = pair!(primitive, library::small::primitive, small::primitive_by_chains);
const SMALL_BROADCAST_FRAME: Pair =
    pair!(broadcast_frame, library::small::broadcast_frame, small::broadcast_frame_by_chains);
const SMALL_SMP: Pair = pair!(smp, library::small::smp, small::smp);
const SMALL_IMPORT: Pair = pair!(import, library::small::import, small::import_by_bytes);
const SMALL_EXPORT: Pair = pair!(export, library::small::export, small::export_by_bytes);
const SMALL_SAVE_1: Pair = pair!(save_1, library::small::save_version_1, small::save_version_1_straight);
const SMALL_SAVE_2: Pair = pair!(save_2, library::small::save_version_2, small::save_version_2_straight);
const SMALL_LOAD_1: Pair = pair!(load_1, library::small::load_version_1, small::load_version_1_straight);
const SMALL_LOAD_2: Pair = pair!(load_2, library::small::load_version_2, small::load_version_2_straight);

const PHY_ZONES: Pair = pair!(console_phy_zones, library::console::phy_zones, console::phy_zones);
const SINGLE: Pair = pair!(console_single, library::console::single, console::single);
const BATCH: Pair = pair!(console_batch, library::console::batch, console::batch);
const REPORT: Pair = pair!(console_report, library::console::report, console::report);
const READ: Pair = pair!(console_read, library::console::read, console::read);

/// The arriving phy of all calls but identify and leaving: the first one, in group 1.
const ARRIVING: u32 = 0;

/// What IDENTIFY hands in beside the address.
const DEVICE: u32 = 1;
const ATTACHED_PHY: u32 = 3;

/// The counts that SMP hands in.
const EXPANDER_CHANGES: u32 = 0x1234;
const PHY_CHANGES: u32 = 0x56;

#[inline]
fn start_up(lent: &mut Lent, start_up: impl Fn(&mut [u8]) -> u32) -> [u64; 4] {
    [start_up(&mut lent.permissions).into(), 0, 0, 0]
}

#[inline]
fn elect(lent: &mut Lent, elect: impl Fn(&[u8], &[u8]) -> Elected) -> [u64; 4] {
    let elected = elect(&lent.phys, &lent.routes);
    [elected.refusal.into(), elected.priority.into(), elected.address, 0]
}

#[inline]
fn open(lent: &mut Lent, open: impl Fn(&[u8], &[u8], &[u8], u32, &[u8], &mut [u8]) -> Opened) -> [u64; 4] {
    let opened = open(&lent.phys, &lent.routes, &lent.permissions, ARRIVING, &lent.message, &mut lent.out);
    [opened.refusal.into(), opened.outcome.into(), opened.phy.into(), 0]
}

#[inline]
fn primitive(lent: &mut Lent, primitive: impl Fn(&[u8], &[u8], u32, u32, &mut [u8], &mut [u8]) -> Told) -> [u64; 4] {
    let told = primitive(&lent.phys, &lent.permissions, ARRIVING, 0, &mut lent.set, &mut lent.out);
    [told.refusal.into(), told.count.into(), 0, 0]
}

#[inline]
fn broadcast_frame(
    lent: &mut Lent,
    broadcast_frame: impl Fn(&[u8], &[u8], u32, &[u8], &mut [u8], &mut [u8]) -> Told,
) -> [u64; 4] {
    let Lent { phys, permissions, message, set, out, .. } = lent;
    let told = broadcast_frame(phys, permissions, ARRIVING, message, set, out);
    [told.refusal.into(), told.count.into(), 0, 0]
}

#[inline]
fn smp(
    lent: &mut Lent,
    smp: impl Fn(&mut [u8], &mut [u8], u32, u32, u32, u32, &[u8], &mut [u8], &mut [u8]) -> Answered,
) -> [u64; 4] {
    let Lent { phys, permissions, message, response, set, .. } = lent;
    let answer = smp(phys, permissions, ARRIVING, 0, EXPANDER_CHANGES, PHY_CHANGES, message, response, set);
    [answer.refusal, answer.result, answer.length, answer.count].map(u64::from)
}

#[inline]
fn import(lent: &mut Lent, import: impl Fn(&[u8], &mut [u8], u32, u32, &[u8]) -> Imported) -> [u64; 4] {
    let imported = import(&lent.phys, &mut lent.permissions, ARRIVING, 0, &lent.message);
    [imported.refusal, imported.lines, imported.cause, 0].map(u64::from)
}

#[inline]
fn export(lent: &mut Lent, export: impl Fn(&[u8], &mut [u8]) -> Exported) -> [u64; 4] {
    let exported = export(&lent.permissions, &mut lent.sheet);
    [exported.refusal, exported.length, 0, 0].map(u64::from)
}

#[inline]
fn save_1(lent: &mut Lent, save: impl Fn(&[u8], &mut [u8]) -> Saved) -> [u64; 4] {
    let saved = save(&lent.permissions, &mut lent.sheet);
    [saved.refusal, saved.length, 0, 0].map(u64::from)
}

#[inline]
fn save_2(lent: &mut Lent, save: impl Fn(&[u8], &[u8], &mut [u8]) -> Saved) -> [u64; 4] {
    let saved = save(&lent.phys, &lent.permissions, &mut lent.sheet);
    [saved.refusal, saved.length, 0, 0].map(u64::from)
}

#[inline]
fn load_1(lent: &mut Lent, load: impl Fn(&mut [u8], &[u8]) -> Loaded) -> [u64; 4] {
    let loaded = load(&mut lent.permissions, &lent.message);
    [loaded.refusal, loaded.version, 0, 0].map(u64::from)
}

#[inline]
fn load_2(lent: &mut Lent, load: impl Fn(&mut [u8], &mut [u8], &[u8]) -> Loaded) -> [u64; 4] {
    let loaded = load(&mut lent.phys, &mut lent.permissions, &lent.message);
    [loaded.refusal, loaded.version, 0, 0].map(u64::from)
}

/// One leaving for each phy.
#[inline]
fn leaving(lent: &mut Lent, leaving: impl Fn(&mut [u8], u32) -> u32) -> [u64; 4] {
    let phys = 0..(lent.phys.len() / RECORD) as u32;
    [phys.map(|phy| u64::from(leaving(&mut lent.phys, phy))).sum(), 0, 0, 0]
}

/// One IDENTIFY with the same, other address for each phy.
#[inline]
fn identify(lent: &mut Lent, identify: impl Fn(&mut [u8], u32, &[u8], u32, u32) -> u32) -> [u64; 4] {
    let phys = 0..(lent.phys.len() / RECORD) as u32;
    let one = |phy| u64::from(identify(&mut lent.phys, phy, &lent.message, DEVICE, ATTACHED_PHY));
    [phys.map(one).sum(), 0, 0, 0]
}

/// Of a built request.
fn built(Built { refusal, length }: Built) -> [u64; 4] {
    [refusal.into(), length.into(), 0, 0]
}

#[inline]
fn console_phy_zones(lent: &mut Lent, phy_zones: impl Fn(&mut [u8], u32, &[u8]) -> Built) -> [u64; 4] {
    built(phy_zones(&mut lent.request, 0, &lent.message))
}

#[inline]
fn console_single(lent: &mut Lent, single: impl Fn(&mut [u8], u32, u32, u32, u32) -> Built) -> [u64; 4] {
    built(single(&mut lent.request, 8, 9, 1, 1))
}

/// Up to the last row.
#[inline]
fn console_batch(lent: &mut Lent, batch: impl Fn(&mut [u8], u32, &[u8], u32) -> Built) -> [u64; 4] {
    let rows = lent.message.len() / GROUPS;
    built(batch(&mut lent.request, (GROUPS - rows) as u32, &lent.message, 1))
}

#[inline]
fn console_report(lent: &mut Lent, report: impl Fn(&mut [u8], u32, u32) -> Built) -> [u64; 4] {
    built(report(&mut lent.request, 0, 63))
}

#[inline]
fn console_read(lent: &mut Lent, read: impl Fn(&[u8], &mut [u8]) -> Heard) -> [u64; 4] {
    let Heard { refusal, function, result, start, count } = read(&lent.message, &mut lent.rows);
    [refusal.into(), u64::from(function) << 8 | u64::from(result), start.into(), count.into()]
}

/// The addresses of one maker differ in their last bytes only.
fn address(number: usize) -> [u8; 8] {
    (0x5000_c500_1234_0000 + number as u64).to_be_bytes()
}

const NOWHERE: usize = 0xffff;

/// A shelf of this size. All phys are ready, and phy 0 is in group 1, which reaches all groups.
fn shelf(phys: usize, routes: usize) -> Lent {
    let phy = |i: usize| [&[i as u8 % 16, 1 + (i % 100) as u8, 0b11, 0][..], &address(i), &[1, i as u8, 0, 0]].concat();
    let route = |i: usize| [&address(128 + i)[..], &[(i % phys) as u8, (i % 128) as u8, i as u8 % 16, 0]].concat();
    Lent {
        phys: (0..phys).flat_map(phy).collect(),
        routes: (0..routes).flat_map(route).collect(),
        permissions: Profile::Large.fresh_table(),
        message: Vec::new(),
        response: vec![0; 1020],
        set: vec![0; 16],
        out: vec![0; 28],
        request: Vec::new(),
        rows: Vec::new(),
        sheet: Vec::new(),
    }
}

/// The same with the small shelf's permissions, which have few of its phys' groups, and without routes.
fn small_shelf(phys: usize) -> Lent {
    Lent { permissions: Profile::Small.fresh_table(), ..shelf(phys, 0) }
}

/// With a route to the phy with the highest number as the last one.
fn open_to(mut lent: Lent, destination: usize) -> Lent {
    let last_phy = (lent.phys.len() / RECORD - 1) as u8;
    if let Some(last) = lent.routes.as_chunks_mut::<ROUTE>().0.last_mut() {
        last[8] = last_phy;
    }
    lent.message = vec![0x01; 28];
    lent.message[4..12].copy_from_slice(&address(destination));
    lent
}

/// Ports of so many phys each, side by side, whose addresses are one maker's and in no order.
fn ports_of(mut lent: Lent, width: usize) -> Lent {
    let mut random = Random::new(3);
    for port in lent.phys.as_chunks_mut::<RECORD>().0.chunks_mut(width) {
        let address = 0x5000_c500_0000_0000 | random.number() >> 24;
        port.iter_mut().for_each(|record| record[4..12].copy_from_slice(&address.to_be_bytes()));
    }
    lent
}

/// No phy has an address, so each is a port by itself.
fn no_addresses(mut lent: Lent) -> Lent {
    lent.phys.as_chunks_mut::<RECORD>().0.iter_mut().for_each(|record| record[4..12].fill(0));
    lent
}

/// The worst that addresses can do: all are different and go to one slot, so each phy is compared with all that are
/// lower.
fn one_slot(mut lent: Lent) -> Lent {
    let mut addresses = (0x5000_c500_0000_0000..).filter(|&address: &u64| slot_of(address) == 7);
    for record in lent.phys.as_chunks_mut::<RECORD>().0 {
        record[4..12].copy_from_slice(&addresses.next().unwrap().to_be_bytes());
    }
    lent
}

/// Half of the phys, in no order that a processor could guess, are in a group that is not reached.
fn half_told(mut lent: Lent) -> Lent {
    let mut random = Random::new(1);
    lent.permissions[16..32].fill(0);
    lent.permissions[31] = 0b110;
    for record in lent.phys.as_chunks_mut::<RECORD>().0.iter_mut().skip(1) {
        record[1] = if random.percent(50) { 1 } else { 3 };
    }
    lent
}

/// Group 1, which is speaking, reaches no group.
fn none_told(mut lent: Lent) -> Lent {
    lent.permissions[16..32].fill(0);
    lent
}

/// Phy 0 participates, and what arrives there carries group 1.
fn frame_arrives(mut lent: Lent) -> Lent {
    lent.phys[0] |= 0x10;
    lent.message = vec![0x03, 0, 0, 1];
    lent
}

fn single(mut lent: Lent, source: u8, target: u8) -> Lent {
    lent.message = vec![0x40, 0xc1, 0, 2, 0, 0, source, target | 0x80, 0, 0x81, 0, 0];
    lent
}

/// A batch of k rows up to the last.
fn batch(mut lent: Lent, k: usize, last: usize) -> Lent {
    lent.message = vec![0x40, 0xc1, 0, 2 + 4 * k as u8, 0, 0, 0, 0, 0, 0x91, (last + 1 - k) as u8, k as u8];
    lent.message.extend(Random::new(2).bytes(16 * k));
    lent
}

/// Descriptors with groups from 1 up to the last and again. They leave phy 0 in group 1, so that the next call has the
/// right again.
fn configure_phys(mut lent: Lent, k: usize, last: usize) -> Lent {
    lent.message = vec![0x40, 0x93, 0, (1 + k.div_ceil(2)) as u8, 0, 0, 0, k as u8];
    lent.message.extend((0..k).flat_map(|i| [i as u8 % 16, 1 + (i % last) as u8]));
    lent.message.resize(8 + 4 * k.div_ceil(2), 0);
    lent
}

fn report(mut lent: Lent, rows: usize) -> Lent {
    lent.message = vec![0x40, 0x51, 0, 1, 0, 0, 0, rows as u8];
    lent
}

/// The last phy is asked for. It is in another group than phy 0, whose group 1 reaches it, unless it reaches no group.
fn discover(mut lent: Lent) -> Lent {
    let last_phy = (lent.phys.len() / RECORD - 1) as u8;
    lent.message = vec![0x40, 0x10, 0, 2, 0, 0, 0, 0, 0, last_phy, 0, 0];
    lent
}

/// The same on the small shelf from group 2, which does not reach group 3 at start-up.
fn hidden_on_small(mut lent: Lent) -> Lent {
    let last_phy = (lent.phys.len() / RECORD - 1) as u8;
    lent.phys[1] = 2;
    lent.phys[RECORD * usize::from(last_phy) + 1] = 3;
    discover(lent)
}

/// Paper enough, and a table with every pair on.
fn all_pairs(mut lent: Lent) -> Lent {
    lent.permissions.fill(0xff);
    lent.sheet = vec![0; MOST];
    lent
}

/// A sheet that switches so many pairs on: the first of all a <= b from 2 to the last group.
fn sheet(mut lent: Lent, last: usize, lines: usize) -> Lent {
    let pairs = (2..=last).flat_map(|a| (a..=last).map(move |b| (a, b)));
    lent.message = pairs.take(lines).flat_map(|(a, b)| format!("{a},{b},1\r\n").into_bytes()).collect();
    lent
}

/// So many pairs of all, spread over the groups, and the zones of all phys: in the tables, with room for a file of them.
fn to_save(mut lent: Lent, profile: Profile, pairs: usize) -> Lent {
    let groups = profile.groups_of_table();
    for record in lent.phys.as_chunks_mut::<RECORD>().0 {
        record[1] %= groups as u8;
    }
    for [a, b] in spread(profile, pairs) {
        let [a, b] = [a, b].map(Group::low_7_bits);
        profile.write(&mut lent.permissions, a, b, true);
        profile.write(&mut lent.permissions, b, a, true);
    }
    lent.sheet = vec![0; FILE_ROOM];
    lent
}

fn spread(profile: Profile, pairs: usize) -> Vec<[u8; 2]> {
    let all = all_named(profile);
    (0..pairs).map(|place| all[place * all.len() / pairs]).collect()
}

/// The same as a file, of version 2 where the phys are in it. The tables lent are others.
fn to_load(lent: Lent, profile: Profile, pairs: usize, with_phys: bool) -> Lent {
    let saved = to_save(lent.clone(), profile, pairs);
    let records = saved.phys.as_chunks::<RECORD>().0.iter().enumerate();
    let zones = records.map(|(phy, record)| [phy as u8, record[0], record[1]]).collect();
    let file = Parts { pairs: spread(profile, pairs), zones: with_phys.then_some(zones) };
    Lent { message: file.bytes(), ..lent }
}

fn other_address(mut lent: Lent) -> Lent {
    lent.phys.as_chunks_mut::<RECORD>().0.iter_mut().for_each(|record| record[2] = 0b10);
    lent.message = address(NOWHERE).to_vec();
    lent
}

/// What the console is lent, and no shelf.
fn desk(message: Vec<u8>) -> Lent {
    Lent {
        phys: Vec::new(),
        routes: Vec::new(),
        permissions: Vec::new(),
        message,
        response: Vec::new(),
        set: Vec::new(),
        out: Vec::new(),
        request: vec![0; ROOM],
        rows: vec![0; ROWS_ROOM],
        sheet: Vec::new(),
    }
}

/// Entries for so many phys, every fourth of which participates.
fn entries(count: usize) -> Lent {
    let entry = |i: usize| {
        let participating = i.is_multiple_of(4);
        [participating.into(), i as u8 % 16, if participating { 1 } else { 1 + (i % 100) as u8 }]
    };
    desk((0..count).flat_map(entry).collect::<Vec<u8>>())
}

/// So many rows in which half of the groups, in no order, are on.
fn choices(rows: usize) -> Lent {
    desk(Random::new(2).bytes(GROUPS * rows).iter().map(|byte| byte & 1).collect())
}

/// An accepted report of so many rows.
fn reported(rows: usize) -> Lent {
    let mut response = vec![0x41, 0x51, 0, (2 + 4 * rows) as u8, 0, 0, 0, rows as u8, 0, 0, 0, 0];
    response.extend(Random::new(2).bytes(16 * rows));
    desk(response)
}

/// Which of an act's runs may follow one another without new buffers.
#[derive(Clone, Copy, PartialEq)]
enum Runs {
    Many,
    /// The act is as many calls as there are phys, and changes what the next one would find.
    OneForEachPhy,
}

/// The median times of one case, in nanoseconds for one call.
struct Row {
    name: String,
    rattle: f64,
    rust: f64,
}

impl Row {
    /// The same for one of so many lines.
    fn a_line(&self, lines: usize) -> Row {
        let each = |time| time / lines as f64;
        Row { name: format!("{}, a line", self.name), rattle: each(self.rattle), rust: each(self.rust) }
    }
}

/// The number of runs is the first argument, else 1. What is printed of several runs is each row's median, for other
/// work on the machine disturbs some of them.
fn main() {
    let runs: usize = std::env::args().nth(1).map_or(1, |runs| runs.parse().expect("a number of runs"));
    println!("median ns for one call, {ROUNDS} rounds, {runs} runs{:18}Rattle     Rust    ratio", "");
    print((0..runs).map(|_| hardest()).collect());
    println!();
    print((0..runs).map(|_| growth()).collect());
    println!();
    print((0..runs).map(|_| on_small_shelf()).collect());
    println!();
    print((0..runs).map(|_| at_the_console()).collect());
    println!();
    print((0..runs).map(|_| of_sheets()).collect());
    println!();
    print((0..runs).map(|_| of_files()).collect());
}

fn print(runs: Vec<Vec<Row>>) {
    for (i, Row { name, .. }) in runs[0].iter().enumerate() {
        let rattle = median(runs.iter().map(|rows| rows[i].rattle).collect());
        let rust = median(runs.iter().map(|rows| rows[i].rust).collect());
        let ratio = median(runs.iter().map(|rows| rows[i].rattle / rows[i].rust).collect());
        println!("{name:50} {rattle:12.1} {rust:8.1} {ratio:8.2}");
    }
}

fn hardest() -> Vec<Row> {
    let full = || shelf(128, 1024);
    vec![
        case("OPEN, 128 phys, 1,024 routes, the last fits", OPEN, open_to(full(), 128 + 1023), Runs::Many),
        case("OPEN, 128 phys, 1,024 routes, none fits", OPEN, open_to(full(), NOWHERE), Runs::Many),
        case("primitive, 128 phys and ports, all told", PRIMITIVE, ports_of(full(), 1), Runs::Many),
        case("primitive, 128 phys and ports, half told", PRIMITIVE, half_told(ports_of(full(), 1)), Runs::Many),
        case("primitive, 128 phys in 32 ports", PRIMITIVE, ports_of(full(), 4), Runs::Many),
        case("primitive, 128 phys, no addresses", PRIMITIVE, no_addresses(full()), Runs::Many),
        case("primitive, 128 phys and ports, one slot", PRIMITIVE, one_slot(full()), Runs::Many),
        case("primitive, 128 phys and ports, beside the model", PRIMITIVE_AS_READ, ports_of(full(), 1), Runs::Many),
        case("broadcast frame, 128 phys and ports", BROADCAST_FRAME, frame_arrives(ports_of(full(), 1)), Runs::Many),
        case("C1h single", SMP, single(full(), 8, 9), Runs::Many),
        case("C1h batch of 63 rows", SMP, batch(full(), 63, 127), Runs::Many),
        case("93h of 128 descriptors", SMP, configure_phys(full(), 128, 100), Runs::Many),
        case("51h of 63 rows", SMP, report(full(), 63), Runs::Many),
        case("DISCOVER of a ready phy, 108 bytes", SMP, discover(full()), Runs::Many),
        case("DISCOVER of a hidden phy, 16h", SMP, discover(none_told(full())), Runs::Many),
        case("election over 128 phys and 1,024 routes", ELECT, full(), Runs::Many),
        case("IDENTIFY, another address", IDENTIFY, other_address(full()), Runs::OneForEachPhy),
        case("leaving", LEAVING, full(), Runs::OneForEachPhy),
        case("start-up", START_UP, full(), Runs::Many),
    ]
}

fn growth() -> Vec<Row> {
    let mut rows = Vec::new();
    for phys in [8, 32, 128] {
        let lent = open_to(shelf(phys, 0), NOWHERE);
        rows.push(case(&format!("OPEN, {phys} phys, no routes, none fits"), OPEN, lent, Runs::Many));
    }
    for routes in [64, 256, 1024] {
        let lent = open_to(shelf(128, routes), NOWHERE);
        rows.push(case(&format!("OPEN, 128 phys, {routes} routes, none fits"), OPEN, lent, Runs::Many));
    }
    for phys in [8, 32, 128] {
        let lent = ports_of(shelf(phys, 0), 1);
        rows.push(case(&format!("primitive, {phys} phys and ports, all told"), PRIMITIVE, lent.clone(), Runs::Many));
        rows.push(case(
            &format!("primitive, {phys} phys and ports, none told"),
            PRIMITIVE,
            none_told(lent),
            Runs::Many,
        ));
    }
    for k in [1, 4, 16, 63] {
        rows.push(case(&format!("C1h batch, rows {k}"), SMP, batch(shelf(128, 0), k, 127), Runs::Many));
    }
    for k in [1, 8, 32, 128] {
        rows.push(case(&format!("93h, descriptors {k}"), SMP, configure_phys(shelf(128, 0), k, 100), Runs::Many));
    }
    for k in [1, 16, 63] {
        rows.push(case(&format!("51h, rows {k}"), SMP, report(shelf(128, 0), k), Runs::Many));
    }
    for routes in [0, 256, 1024] {
        rows.push(case(&format!("election, 128 phys, {routes} routes"), ELECT, shelf(128, routes), Runs::Many));
    }
    rows
}

fn on_small_shelf() -> Vec<Row> {
    let mut rows = vec![case("small: start-up", SMALL_START_UP, small_shelf(8), Runs::Many)];
    for phys in [8, 128] {
        let (to_last, ports) = (open_to(small_shelf(phys), phys - 1), ports_of(small_shelf(phys), 1));
        rows.extend([
            case(&format!("small: OPEN, {phys} phys, the last fits"), SMALL_OPEN, to_last, Runs::Many),
            case(&format!("small: primitive, {phys} phys and ports"), SMALL_PRIMITIVE, ports.clone(), Runs::Many),
            case(
                &format!("small: broadcast frame, {phys} phys and ports"),
                SMALL_BROADCAST_FRAME,
                frame_arrives(ports),
                Runs::Many,
            ),
        ]);
    }
    let full = || small_shelf(128);
    rows.extend([
        case("small: C1h single", SMALL_SMP, single(full(), 6, 7), Runs::Many),
        case("small: C1h batch of 6 rows", SMALL_SMP, batch(full(), 6, 7), Runs::Many),
        case("small: 93h of 128 descriptors", SMALL_SMP, configure_phys(full(), 128, 7), Runs::Many),
        case("small: 51h of 63 rows", SMALL_SMP, report(full(), 63), Runs::Many),
        case("small: DISCOVER of a ready phy, 108 bytes", SMALL_SMP, discover(full()), Runs::Many),
        case("small: DISCOVER of a hidden phy, 16h", SMALL_SMP, hidden_on_small(full()), Runs::Many),
    ]);
    rows
}

fn at_the_console() -> Vec<Row> {
    let mut rows = vec![
        case("console: phy zones, 128 phys", PHY_ZONES, entries(128), Runs::Many),
        case("console: a single order", SINGLE, desk(Vec::new()), Runs::Many),
        case("console: a batch of 63 rows", BATCH, choices(63), Runs::Many),
        case("console: a report asked for", REPORT, desk(Vec::new()), Runs::Many),
        case("console: a report of 63 rows read", READ, reported(63), Runs::Many),
        case("console: a response of four bytes read", READ, desk(vec![0x41, 0xc1, 0x11, 0]), Runs::Many),
    ];
    for k in [1, 8, 32] {
        rows.push(case(&format!("console: phy zones, phys {k}"), PHY_ZONES, entries(k), Runs::Many));
    }
    for k in [1, 16] {
        rows.push(case(&format!("console: a batch, rows {k}"), BATCH, choices(k), Runs::Many));
        rows.push(case(&format!("console: a report read, rows {k}"), READ, reported(k), Runs::Many));
    }
    rows
}

/// Each with its cost a line.
fn of_sheets() -> Vec<Row> {
    let (full, small) = (|| shelf(128, 0), || small_shelf(128));
    let cases = [
        ("import of 8,001 lines", IMPORT, sheet(full(), 127, 8_001), 8_001),
        ("export of 8,001 lines", EXPORT, all_pairs(full()), 8_001),
        ("import of 8,001 lines, beside the model", IMPORT_AS_READ, sheet(full(), 127, 8_001), 8_001),
        ("export of 8,001 lines, beside the model", EXPORT_AS_READ, all_pairs(full()), 8_001),
        ("import of 1,000 lines", IMPORT, sheet(full(), 127, 1_000), 1_000),
        ("import of 100 lines", IMPORT, sheet(full(), 127, 100), 100),
        ("small: import of 21 lines", SMALL_IMPORT, sheet(small(), 7, 21), 21),
        ("small: export of 21 lines", SMALL_EXPORT, all_pairs(small()), 21),
    ];
    let both = |(name, pair, lent, lines)| {
        let row = case(name, pair, lent, Runs::Many);
        let each = row.a_line(lines);
        [row, each]
    };
    cases.into_iter().flat_map(both).collect()
}

/// Of every pair and of few, with 128 phys.
fn of_files() -> Vec<Row> {
    let shelves = [
        ("", Profile::Large, [SAVE_1, SAVE_2, LOAD_1, LOAD_2], [8_001, 100]),
        ("small: ", Profile::Small, [SMALL_SAVE_1, SMALL_SAVE_2, SMALL_LOAD_1, SMALL_LOAD_2], [21, 5]),
    ];
    let mut rows = Vec::new();
    for (shelf_name, profile, [save_1, save_2, load_1, load_2], counts) in shelves {
        let lent = || match profile {
            Profile::Large => shelf(128, 0),
            Profile::Small => small_shelf(128),
        };
        for pairs in counts {
            let name = |call| format!("{shelf_name}{call}, {pairs} pairs");
            rows.extend([
                case(&name("save version 1"), save_1, to_save(lent(), profile, pairs), Runs::Many),
                case(&name("save version 2"), save_2, to_save(lent(), profile, pairs), Runs::Many),
                case(&name("load version 1"), load_1, to_load(lent(), profile, pairs, false), Runs::Many),
                case(&name("load version 2"), load_2, to_load(lent(), profile, pairs, true), Runs::Many),
                case(&name("load version 1 by reader 2"), load_2, to_load(lent(), profile, pairs, false), Runs::Many),
            ]);
        }
    }
    rows
}

fn case(name: &str, pair: Pair, lent: Lent, runs: Runs) -> Row {
    agree(name, pair, &lent);
    let mut work = lent.clone();
    let (repeat, calls) = match runs {
        Runs::Many => {
            let repeat = repeats(pair, &mut work, &lent);
            (repeat, repeat)
        }
        Runs::OneForEachPhy => (1, lent.phys.len() / RECORD),
    };
    let mut times = [const { Vec::new() }; 2];
    for round in 0..ROUNDS {
        let acts = [(0, pair.rattle), (1, pair.rust)];
        let in_turn = if round % 2 == 0 { [0, 1] } else { [1, 0] };
        for (which, act) in in_turn.map(|which| acts[which]) {
            work.become_again(&lent);
            times[which].push(sample(act, &mut work, repeat) as f64 / calls as f64);
        }
    }
    let [rattle, rust] = times.map(median);
    Row { name: name.to_string(), rattle, rust }
}

/// Both programs must do the same and must not refuse.
fn agree(name: &str, pair: Pair, lent: &Lent) {
    let (mut left, mut right) = (lent.clone(), lent.clone());
    let answers = [(pair.rattle)(&mut left), (pair.rust)(&mut right)];
    assert_eq!(answers[0], answers[1], "{name}: the answers differ");
    assert_eq!(answers[0][0], 0, "{name}: refused");
    assert!(left == right, "{name}: the buffers differ");
}

/// How many calls make a sample that the clock can tell.
fn repeats(pair: Pair, work: &mut Lent, lent: &Lent) -> usize {
    let mut repeat = 1;
    loop {
        work.become_again(lent);
        if sample(pair.rust, work, repeat) >= SAMPLE_NS {
            return repeat;
        }
        repeat *= 2;
    }
}

/// The nanoseconds of so many runs.
fn sample(act: Act, work: &mut Lent, repeat: usize) -> u128 {
    let act = black_box(act);
    let began = Instant::now();
    for _ in 0..repeat {
        black_box(act(black_box(work)));
    }
    began.elapsed().as_nanos()
}

fn median(mut times: Vec<f64>) -> f64 {
    times.sort_by(f64::total_cmp);
    times[times.len() / 2]
}
