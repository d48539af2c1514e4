//! The text of sheets: good lines, and lines with something wrong in them.

use super::super::profile::Profile;
use super::super::random::Random;
use crate::sheets::MOST;
use crate::tables::Group;

/// Groups of one, two and three digits, and those at the edges of these.
const OFTEN: [usize; 12] = [2, 3, 7, 8, 8, 9, 10, 64, 99, 100, 126, 127];

const ENDS: [&str; 2] = ["\r\n", "\n"];

/// Numbers that are no group which an order may name, on either shelf: at the edges, and those that would be group 8 or 2
/// if they were cut to 8, 16, 32, 64 or 128 bits.
const FAR: [&str; 22] = [
    "0",
    "0",
    "1",
    "1",
    "128",
    "128",
    "129",
    "255",
    "256",
    "258",
    "264",
    "264",
    "1000",
    "65538",
    "65544",
    "4294967298",
    "4294967304",
    "18446744073709551618",
    "18446744073709551624",
    "340282366920938463463374607431768211458",
    "340282366920938463463374607431768211464",
    "999999999999999999999999999999",
];

/// Those that the small shelf does not have either. Modulo 8 some are groups of its own.
const FAR_ON_SMALL: [&str; 8] = ["8", "8", "9", "10", "11", "64", "126", "127"];

/// What a third field must not be.
const NO_SWITCHES: [&str; 20] = [
    "2", "2", "10", "10", "01", "01", "", "", "00", "11", "9", "-1", "+1", " 1", "1 ", "\"1\"", "on", "true", "1.0",
    "256",
];

/// Lines that are no three fields, and such as only look like three.
const NO_FIELDS: [&str; 15] = [
    "8,9", "2,3", "8", "3,4,1,", "3,4,1,1", "3,4,1,0", ",3,4,1", "3;4;1", "3 4 1", "3\t4\t1", ",,", ",", "3.4.1",
    "3,,4,1", "341",
];

const HEADERS: [&str; 8] = [
    "group,group,permitted",
    "a,b,on",
    "\"group\",\"group\",\"on\"",
    "\u{feff}3,4,1",
    "#3,4,1",
    "\"3\",\"4\",\"1\"",
    "from,to,1",
    "sep=,",
];

const EMPTY: [&str; 7] = ["\n", "\n", "\r\n", "\r\n", "\r\r\n", " \n", "\0\n"];

/// What may stand before a line end that is none of it, or in its place.
const NO_ENDS: [&str; 12] =
    ["\r\r\n", "\r\r\n", "\r\r\r\n", "\r", "\r", "\n\r", "\n\r", "\n\r\n", "\u{85}\n", "\u{b}\n", "\0\n", ""];

/// Any sheet. Of those with a line that fails most have good lines before and after it.
pub fn sheet(random: &mut Random, profile: Profile) -> Vec<u8> {
    match random.below(200) {
        0..=7 => Vec::new(),
        8..=79 => {
            let count = count(random);
            good_lines(random, profile, count)
        }
        80..=81 => long_sheet(random, profile),
        82..=89 => without_last_end(random, profile),
        90..=103 => with_a_byte_changed(random, profile),
        _ => with_a_bad_line(random, profile),
    }
}

fn count(random: &mut Random) -> usize {
    match random.below(20) {
        0..=4 => 1,
        5..=17 => random.between(2, 9),
        _ => random.between(10, 40),
    }
}

/// A group that an order may name.
pub fn named(random: &mut Random, profile: Profile) -> usize {
    let last = profile.groups_of_table() - 1;
    match (profile, random.below(4)) {
        (Profile::Large, 1..) => random.pick(&OFTEN),
        _ => random.between(2, last),
    }
}

fn switch(random: &mut Random) -> &'static str {
    random.pick(&["1", "1", "1", "0", "0"])
}

pub fn line(a: usize, b: usize, switch: &str, end: &str) -> Vec<u8> {
    format!("{a},{b},{switch}{end}").into_bytes()
}

/// So many good lines, all with one end or with either. Now and then a line names the pair of the one before.
pub fn good_lines(random: &mut Random, profile: Profile, count: usize) -> Vec<u8> {
    let ends = random.pick(&[[ENDS[0]; 2], [ENDS[1]; 2], ENDS]);
    let mut pair = [0, 1].map(|_| named(random, profile));
    let mut sheet = Vec::new();
    for _ in 0..count {
        match random.below(12) {
            0 => {}
            1 => pair.reverse(),
            2 => pair = [named(random, profile); 2],
            _ => pair = [0, 1].map(|_| named(random, profile)),
        }
        sheet.extend(line(pair[0], pair[1], switch(random), random.pick(&ends)));
    }
    sheet
}

/// A few lines, or none.
fn some_lines(random: &mut Random, profile: Profile) -> Vec<u8> {
    let count = random.pick(&[0, 0, 1, 1, 2, 3, 5, 9]);
    good_lines(random, profile, count)
}

fn with_a_bad_line(random: &mut Random, profile: Profile) -> Vec<u8> {
    let before = if random.percent(1) { good_lines(random, profile, 300) } else { some_lines(random, profile) };
    let bad = bad_line(random, profile);
    let mut after = some_lines(random, profile);
    if random.percent(10) {
        after = bad_line(random, profile);
    }
    [before, bad, after].concat()
}

/// The last byte is gone, or the last two: what is left of the last line has no end, or a CR alone.
fn without_last_end(random: &mut Random, profile: Profile) -> Vec<u8> {
    let count = random.between(1, 4);
    let mut sheet = good_lines(random, profile, count);
    sheet.pop();
    if random.percent(60) {
        sheet.pop_if(|byte| *byte == b'\r');
    }
    sheet
}

/// One byte of a good sheet becomes another, is left out or comes twice.
fn with_a_byte_changed(random: &mut Random, profile: Profile) -> Vec<u8> {
    let count = random.between(1, 5);
    let mut sheet = good_lines(random, profile, count);
    let place = random.below(sheet.len());
    match random.below(6) {
        0 => drop(sheet.remove(place)),
        1 => sheet.insert(place, sheet[place]),
        2 => sheet.insert(place, random.pick(b"0123456789,,\r\n \"")),
        3 => sheet[place] ^= 1 << random.below(8),
        4 => sheet[place] = random.byte(),
        _ => sheet[place] = random.pick(b"0123456789,,\r\r\n\n \"+-./:;"),
    }
    sheet
}

/// A line that fails, with what it has for an end. Some fail for two reasons.
pub fn bad_line(random: &mut Random, profile: Profile) -> Vec<u8> {
    let [mut a, mut b] = [0, 1].map(|_| named(random, profile).to_string());
    let mut on = switch(random).to_string();
    let mut end = random.pick(&ENDS);
    match random.below(24) {
        0..=4 => spoil(random, [&mut a, &mut b]),
        5..=10 => go_too_far(random, profile, [&mut a, &mut b]),
        11..=12 => on = random.pick(&NO_SWITCHES).to_string(),
        13..=14 => return format!("{}{end}", random.pick(&NO_FIELDS)).into_bytes(),
        15 => return format!("{}{end}", random.pick(&HEADERS)).into_bytes(),
        16 => return random.pick(&EMPTY).into(),
        17..=19 => end = random.pick(&NO_ENDS),
        20 => carriage_return(random, [&mut a, &mut b, &mut on]),
        // Bad text comes first, whatever the groups are.
        21..=22 => {
            go_too_far(random, profile, [&mut a, &mut b]);
            on = random.pick(&NO_SWITCHES).to_string();
        }
        _ => {
            go_too_far(random, profile, [&mut a, &mut b]);
            spoil(random, [&mut b, &mut on]);
        }
    }
    format!("{a},{b},{on}{end}").into_bytes()
}

/// Which of two fields are meant: mostly one of them.
const WHICH: [[bool; 2]; 5] = [[true, false], [true, false], [false, true], [false, true], [true, true]];

/// One of two fields, or both, gets what no number may have.
fn spoil(random: &mut Random, fields: [&mut String; 2]) {
    for (field, is_meant) in fields.into_iter().zip(random.pick(&WHICH)) {
        if is_meant {
            *field = spoiled(random, field);
        }
    }
}

fn spoiled(random: &mut Random, number: &str) -> String {
    let leading = random.pick(&["0", "0", "0", "00", "0000000000000000000000000000000"]);
    let other = random.pick(&["+", "+", "+", "-", " ", " ", "\t", "\"", "0x", "\u{feff}", "\0"]);
    // The bytes before 0 and after 9 are / and :
    let after = random.pick(&[" ", "/", ":", ".0", "h", "\"", "e0", "\0", "\u{a0}", "_", "'"]);
    match random.below(12) {
        0..=2 => format!("{leading}{number}"),
        3..=4 => random.pick(&["00", "00", "01", "02", "02"]).to_string(),
        5..=6 => format!("{other}{number}"),
        7..=8 => format!("{number}{after}"),
        9 => format!("\"{number}\""),
        10 => String::new(),
        _ => random.pick(&["/", ":", "x", "\u{ff18}", "\u{0668}", ".", "8 8", "eight", "A"]).to_string(),
    }
}

/// One of two groups, or both, is none that an order may name.
fn go_too_far(random: &mut Random, profile: Profile, groups: [&mut String; 2]) {
    for (group, is_meant) in groups.into_iter().zip(random.pick(&WHICH)) {
        if is_meant {
            *group = far(random, profile);
        }
    }
}

fn far(random: &mut Random, profile: Profile) -> String {
    match random.below(20) {
        0..=6 if profile == Profile::Small => random.pick(&FAR_ON_SMALL).to_string(),
        0 => {
            let digits = random.pick(&[4, 20, 40, 255, 256, 1000]);
            (0..digits).map(|place| random.pick(if place == 0 { b"129" } else { b"028" }) as char).collect()
        }
        1 => format!("1{}", "0".repeat(random.between(2, 70))),
        2 => random.between(128, 999).to_string(),
        _ => random.pick(&FAR).to_string(),
    }
}

/// A CR somewhere in a line, beside its end.
fn carriage_return(random: &mut Random, fields: [&mut String; 3]) {
    let which = random.below(3);
    let before = random.percent(50);
    for (place, field) in fields.into_iter().enumerate() {
        if place == which {
            // The last field has its CR before it: after it, it may be that of the end.
            *field = if before || place == 2 { format!("\r{field}") } else { format!("{field}\r") };
        }
    }
}

/// Lines of a caller in this group, which has the right by P(source, 2) alone: one of them takes it away, and others follow.
pub fn taking_right(random: &mut Random, profile: Profile, source: Group) -> Vec<u8> {
    let source = source.index();
    let mut sheet = some_lines(random, profile);
    let [a, b] = random.pick(&[[2, source], [source, 2]]);
    let end = random.pick(&ENDS);
    sheet.extend(line(a, b, "0", end));
    sheet.extend(match random.below(10) {
        0 => Vec::new(),
        1 => bad_line(random, profile),
        2 => line(b, a, "1", end),
        _ => {
            let count = random.between(1, 4);
            good_lines(random, profile, count)
        }
    });
    sheet
}

/// Sheets about as long as may be, with the most lines that a shelf can read or fewer, or with one number in them.
fn long_sheet(random: &mut Random, profile: Profile) -> Vec<u8> {
    match random.below(10) {
        0..=1 => exactly(random, profile, MOST),
        2..=3 => of_equal_lines(random, MOST),
        4 => exactly(random, profile, MOST + 1),
        5 => {
            // A whole sheet but for its last byte.
            let mut sheet = exactly(random, profile, MOST + 1);
            sheet.pop();
            sheet
        }
        6 => {
            let more = random.below(40);
            exactly(random, profile, 65_536 + more)
        }
        7 => [b"8".repeat(MOST - 5), b",2,1\n".to_vec()].concat(),
        8 => [b"2,1".to_vec(), b"0".repeat(MOST - 7), b"8,0\n".to_vec()].concat(),
        _ => [b"2,".to_vec(), b"0".repeat(MOST - 6), b"3,1\n".to_vec()].concat(),
    }
}

/// Good lines of so many bytes in all, at least 100.
fn exactly(random: &mut Random, profile: Profile, size: usize) -> Vec<u8> {
    let mut sheet = good_lines(random, profile, 1);
    while sheet.len() + 300 < size {
        let lines = good_lines(random, profile, 10);
        sheet.extend(lines);
    }
    // The rest is lines of six bytes, and of seven.
    let left = size - sheet.len();
    let sevens = left % 6;
    let sixes = (left - 7 * sevens) / 6;
    sheet.extend(b"2,3,1\r\n".repeat(sevens));
    sheet.extend(b"2,3,0\n".repeat(sixes));
    sheet
}

/// As many lines as so many bytes can have, all but one or two with as few bytes as possible.
fn of_equal_lines(random: &mut Random, size: usize) -> Vec<u8> {
    let sevens = size % 6;
    let sixes = (size - 7 * sevens) / 6;
    let six = random.pick(&[b"2,3,1\n", b"7,7,1\n", b"2,2,0\n", b"5,4,1\n"]);
    [six.repeat(sixes), b"6,7,1\r\n".repeat(sevens)].concat()
}

/// About as many bytes as a sheet may have or more, with lines as before at its front.
pub fn lengthen(random: &mut Random, sheet: &mut Vec<u8>) {
    let size = random.pick(&[MOST, MOST + 1, MOST + 1, MOST + 1, MOST + 2, 100_000, 131_072]);
    sheet.extend(b"2,3,1\n".repeat(size / 6));
    sheet.truncate(size);
}
