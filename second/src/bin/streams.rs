//! The bench program's text against the model's, on many streams of events.
//!
//! streams BENCH-COMMAND [STREAMS] [SEED]
//!
//! The fixed streams (document 01's cases, all their beginnings, wide ports, bytes that are no group, DISCOVER, and
//! edges) come first, then so many random ones. Exits with 0 where all texts were equal and every kind of line was printed.

use second::bench::{self, Event};
use second::trial::events::{damage, stream};
use second::trial::random::Random;
use std::collections::BTreeMap;
use std::io::{Read, Write};
use std::process::{Command, ExitCode, Stdio};
use std::thread;

const DEFAULT_STREAMS: usize = 200;
const DEFAULT_SEED: u64 = 6_201;

/// Every kind of line. The bench lends tables and buffers of the right sizes, so 1 and 3 never occur, nor does 8.
const LINES: [&str; 20] = [
    "S 00", "S 01", "S 02", "S 03", "S 10", "S 11", "S 16", "O ND", "O BD", "O ZV", "O FWD", "B", "L", "X 2", "X 4",
    "X 5", "X 6", "X 7", "K", "T",
];

struct Trial {
    name: String,
    stream: Vec<u8>,
}

fn main() -> ExitCode {
    let mut arguments = std::env::args().skip(1);
    let (command, rest) = (arguments.next(), arguments.map(|text| text.parse::<u64>()));
    let (Some(command), Ok(numbers)) = (command, rest.collect::<Result<Vec<_>, _>>()) else {
        eprintln!("streams BENCH-COMMAND [STREAMS] [SEED]");
        return ExitCode::from(2);
    };
    let count = numbers.first().map_or(DEFAULT_STREAMS, |&count| count as usize);
    let seed = numbers.get(1).copied().unwrap_or(DEFAULT_SEED);
    println!("seed {seed}, {count} random streams");
    match compare_all(&command, fixed().into_iter().chain(random(seed, count))) {
        Ok(lines) => judge(&lines),
        Err(disagreement) => {
            println!("{disagreement}");
            ExitCode::FAILURE
        }
    }
}

fn judge(lines: &BTreeMap<String, u64>) -> ExitCode {
    for (class, count) in lines {
        println!("{class:8} {count:9}");
    }
    let missing: Vec<_> = LINES.iter().filter(|class| !lines.contains_key(**class)).collect();
    if missing.is_empty() {
        println!("all texts are equal");
        ExitCode::SUCCESS
    } else {
        println!("never printed: {missing:?}");
        ExitCode::FAILURE
    }
}

fn compare_all(command: &str, trials: impl Iterator<Item = Trial>) -> Result<BTreeMap<String, u64>, String> {
    let mut lines = BTreeMap::new();
    let (mut streams, mut bytes) = (0, 0);
    for trial in trials {
        let model = bench::text(&trial.stream);
        let printed = run(command, &trial.stream).map_err(|why| format!("{}: {why}", trial.name))?;
        if printed != model.as_bytes() {
            return Err(difference(&trial, &model, &String::from_utf8_lossy(&printed)));
        }
        model.lines().skip(1).for_each(|line| *lines.entry(class(line)).or_default() += 1);
        streams += 1;
        bytes += trial.stream.len();
    }
    println!("{streams} streams, {bytes} bytes");
    Ok(lines)
}

/// A line without its numbers, but with a result or refusal.
fn class(line: &str) -> String {
    let words: Vec<_> = line.split(' ').skip(1).collect();
    let telling = match words[0] {
        "S" | "O" | "X" => 2,
        _ => 1,
    };
    words[..telling].join(" ")
}

fn run(command: &str, stream: &[u8]) -> Result<Vec<u8>, String> {
    let mut child = Command::new("sh")
        .arg("-c")
        .arg(format!("exec {command}"))
        .stdin(Stdio::piped())
        .stdout(Stdio::piped())
        .spawn()
        .map_err(|error| error.to_string())?;
    let mut stdin = child.stdin.take().expect("it is piped");
    let mut stdout = child.stdout.take().expect("it is piped");
    let mut text = Vec::new();
    thread::scope(|scope| {
        // A program that stops reading early shows in its text.
        scope.spawn(move || drop(stdin.write_all(stream)));
        stdout.read_to_end(&mut text)
    })
    .map_err(|error| error.to_string())?;
    let status = child.wait().map_err(|error| error.to_string())?;
    if status.success() {
        Ok(text)
    } else {
        Err(format!("the bench program ended with {status}"))
    }
}

fn difference(trial: &Trial, model: &str, printed: &str) -> String {
    let [left, right] = [model, printed].map(|text| text.split_inclusive('\n').collect::<Vec<_>>());
    let at = (0..left.len().max(right.len())).find(|&at| left.get(at) != right.get(at)).unwrap_or(0);
    let (left, right) = (left.get(at), right.get(at));
    let hex: String = trial.stream.iter().map(|byte| format!("{byte:02x}")).collect();
    format!(
        "{}: the two disagree in line {}\nmodel   {left:?}\nprogram {right:?}\nthe stream: {hex}",
        trial.name,
        at + 1
    )
}

fn event(kind: u8, phy: u8, payload: &[u8]) -> Vec<u8> {
    Event { kind, phy, carried: 0, payload }.bytes()
}

fn open_to(phy: u8) -> [u8; 28] {
    let mut frame = [0; 28];
    frame[0] = 0x01;
    frame[4] = 0x50;
    frame[11] = 0x10 + phy;
    frame
}

const SINGLE: [u8; 12] = [0x40, 0xc1, 0, 2, 0, 0, 0x08, 0x89, 0, 0x81, 0, 0];

fn cases_1_to_5() -> Vec<u8> {
    [event(1, 0, &SINGLE), event(2, 2, &open_to(4)), event(2, 2, &open_to(1)), event(3, 2, &[0]), event(1, 2, &SINGLE)]
        .concat()
}

/// Requests of cases 6 to 12, each from phy 0 of a fresh rack; what follows shows what became of the tables.
fn cases_6_to_12() -> Vec<(&'static str, Vec<u8>)> {
    let batch = |start, rows: &[u128]| {
        let head = vec![0x40, 0xc1, 0, 2 + 4 * rows.len() as u8, 0, 0, 0, 0, 0, 0x91, start, rows.len() as u8];
        let rows = rows.iter().flat_map(|row| row.to_be_bytes());
        head.into_iter().chain(rows).collect::<Vec<u8>>()
    };
    vec![
        ("case 6", vec![0x40, 0x93, 0, 2, 0, 0, 7, 1, 0, 9, 0, 0]),
        ("case 6, k 0", vec![0x40, 0x93, 0, 1, 0, 0, 8, 0]),
        ("case 7", vec![0x40, 0x93, 0, 2, 0, 0, 8, 1, 0, 9, 0, 0]),
        ("case 8", batch(127, &[1 << 8])),
        ("case 9", batch(128, &[1 << 8])),
        ("case 10", batch(8, &[1 << 9, 0])),
        ("case 11", vec![0x40, 0x51, 0, 1, 0, 0, 127, 5]),
        ("case 12", vec![0x40, 0xc1, 0, 2, 0, 0, 1, 0x88, 0, 0x80, 0, 0]),
    ]
}

fn aftermath() -> Vec<u8> {
    let opens = (0..8).flat_map(|from| (0..8).map(move |to| event(2, from, &open_to(to))));
    let primitives = (0..8).map(|phy| event(3, phy, &[phy]));
    let frames = [0, 1, 2, 8, 9].map(|group| event(4, 7, &[0x03, 0, 0, group]));
    let discovers = (0..8).flat_map(|from| (0..8).map(move |asked| event(1, from, &discover(0, asked))));
    opens.chain(primitives).chain(frames).chain(discovers).flatten().collect()
}

/// These phys leave and come back with phy `to`'s address; then phy 0 gives each its bytes 0 and 1 again.
fn attach(to: u8, phys: &[(u8, [u8; 2])]) -> Vec<u8> {
    let one = |&(phy, [zoning, group]): &(u8, [u8; 2])| {
        let zone = [0x40, 0x93, 0, 2, 0, 0, phy, 1, zoning, group, 0, 0];
        [event(6, phy, &[]), event(5, phy, &[0x50, 0, 0, 0, 0, 0, 0, 0x10 + to]), event(1, 0, &zone)].concat()
    };
    phys.iter().flat_map(one).collect()
}

/// Racks with wide ports.
fn wide_ports() -> Vec<(&'static str, Vec<u8>)> {
    let (g2, g8, g9) = ([0, 2], [0, 8], [0, 9]);
    let on = event(1, 0, &SINGLE);
    let mixed = [on.clone(), attach(3, &[(4, g9), (5, g9)])].concat();
    vec![
        ("two sisters", attach(2, &[(3, g8)])),
        ("two sisters, the higher one named first", attach(5, &[(4, g9)])),
        ("two sisters, the lower one not ready", [attach(2, &[(3, g8)]), event(6, 2, &[])].concat()),
        ("sisters without zoning", [event(6, 3, &[]), event(5, 3, &open_to(2)[4..12])].concat()),
        ("sisters of two groups", mixed.clone()),
        ("sisters of two groups, one not ready", [mixed, event(6, 4, &[])].concat()),
        ("two wide ports", [on.clone(), attach(2, &[(3, g8)]), attach(4, &[(5, g9)])].concat()),
        ("sisters of the participating phy", [on.clone(), attach(7, &[(3, g8), (4, g9)])].concat()),
        ("sisters of phy 0", [on.clone(), attach(0, &[(1, g2), (4, g9), (7, [0x10, 1])])].concat()),
        ("one port", [on, attach(0, &[1, 2, 3, 4, 5, 6, 7].map(|phy| (phy, [0x10, 1])))].concat()),
    ]
}

/// Every byte as the carried group of an order on the participating phy 7 and on phy 0, as byte 3 of both frames and as
/// byte 20 of an OPEN. The orders switch groups 8 and 9 on and off, so that one too many or too few shows.
fn every_byte() -> Vec<u8> {
    let one = |byte: u8| {
        let mut order = SINGLE;
        order[7] ^= (byte & 1) << 7;
        let (mut long, mut open) = ([0; 28], open_to(4));
        (long[0], long[3], open[20]) = (0x02, byte, byte);
        let smp = |phy| Event { kind: 1, phy, carried: byte, payload: &order }.bytes();
        let frames = [7, 0].map(|phy| [event(4, phy, &[0x03, 0, 0, byte]), event(4, phy, &long)].concat());
        [smp(7), event(2, 2, &open_to(4)), smp(0), frames.concat(), event(2, 7, &open)].concat()
    };
    (0..=255).flat_map(one).collect()
}

fn discover(byte_8: u8, asked: u8) -> [u8; 12] {
    [0x40, 0x10, 0, 2, 0, 0, 0, 0, byte_8, asked, 0, 0]
}

/// DISCOVER of every byte as the asked phy, with both ignore bits, from phys of several groups and by what phy 7 carries.
fn every_phy() -> Vec<u8> {
    let from = [(0, 0), (2, 0), (4, 0), (6, 0), (7, 1), (7, 8), (7, 0), (7, 136)];
    let one = |asked, byte_8| {
        let request = discover(byte_8, asked);
        from.map(|(phy, carried)| Event { kind: 1, phy, carried, payload: &request }.bytes()).concat()
    };
    (0..=255).flat_map(|asked| [0, 1].map(|byte_8| one(asked, byte_8))).flatten().collect()
}

/// DISCOVER of phys 4 and 2 from phy 2 with every byte 3, every byte 8, and lengths up to 20 bytes.
fn every_length() -> Vec<u8> {
    let of = |asked: u8| {
        let by_byte_3 = (0..=255).map(move |byte_3| [0x40, 0x10, 0, byte_3, 0, 0, 0, 0, 0, asked, 0, 0].to_vec());
        let by_byte_8 = (0..=255).map(move |byte_8| discover(byte_8, asked).to_vec());
        let by_length = (0..=20).flat_map(move |length| {
            [0, 1, 2, 3, 4].map(|byte_3| {
                let mut request = [0x40, 0x10, 0, byte_3, 0, 0, 0, 0, 0, asked, 0, 0].to_vec();
                request.resize(length, 0);
                request
            })
        });
        by_byte_3.chain(by_byte_8).chain(by_length)
    };
    [4, 2].into_iter().flat_map(of).flat_map(|request| event(1, 2, &request)).collect()
}

/// What is done before every phy is asked for. IDENTIFY with the same address brings a device type and keeps the zoning;
/// with another address it takes the zoning away.
fn before_discover() -> Vec<(&'static str, Vec<u8>)> {
    let on = event(1, 0, &SINGLE);
    let leave = |phy| event(6, phy, &[]);
    let come = |phy: u8, to| [leave(phy), event(5, phy, &open_to(to)[4..12])].concat();
    let all_again: Vec<u8> = (0..8).flat_map(|phy| come(phy, phy)).collect();
    vec![
        ("on the untouched rack", Vec::new()),
        ("after case 1", on.clone()),
        ("after IDENTIFY on all phys", [all_again.clone(), on.clone()].concat()),
        ("of phys that are not ready", [all_again, on.clone(), leave(3), leave(5), leave(1)].concat()),
        ("of phys with other addresses", [on, come(3, 4), come(5, 20), come(1, 1)].concat()),
    ]
}

fn fixed() -> Vec<Trial> {
    let trial = |name: &str, stream| Trial { name: name.to_string(), stream };
    let cases = cases_1_to_5();
    let mut trials = vec![trial("the empty stream", Vec::new()), trial("the untouched rack", aftermath())];
    trials.extend((1..=cases.len()).map(|cut| trial(&format!("cases 1 to 5, {cut} bytes"), cases[..cut].to_vec())));
    for (name, request) in cases_6_to_12() {
        trials.push(trial(name, [event(1, 0, &request), aftermath()].concat()));
    }
    for (name, events) in wide_ports() {
        trials.push(trial(name, [events, aftermath()].concat()));
    }
    trials.push(trial("every group byte", [every_byte(), aftermath()].concat()));
    for (name, events) in before_discover() {
        trials.push(trial(&format!("DISCOVER {name}"), [events, every_phy(), every_length(), aftermath()].concat()));
    }
    for kind in [0, 3, 5, 6, 7, 255] {
        let lengths = [0, 1, 2, 7, 8, 9].map(|length| event(kind, 1, &vec![1; length]));
        trials.push(trial(&format!("kind {kind} of several lengths"), [lengths.concat(), aftermath()].concat()));
        trials.push(trial(&format!("kind {kind}, cut off"), [&[kind, 1, 0, 0xff, 0xff][..], &[0; 65_534]].concat()));
        trials.push(trial(&format!("kind {kind}, longest"), event(kind, 1, &[0; 65_535])));
    }
    trials
}

fn random(seed: u64, count: usize) -> impl Iterator<Item = Trial> {
    let mut random = Random::new(seed);
    (0..count).map(move |number| {
        let events = match random.below(20) {
            0 => random.between(8_000, 12_000),
            1..=4 => random.between(1, 20),
            _ => random.between(100, 1_500),
        };
        let mut stream = stream(&mut random, events);
        let kind = random.pick(&["valid", "valid", "damaged", "cut"]);
        match kind {
            "damaged" => damage(&mut random, &mut stream),
            "cut" => stream.truncate(random.below(stream.len() + 1)),
            _ => {}
        }
        Trial { name: format!("seed {seed}, random stream {number}, {kind}"), stream }
    })
}
