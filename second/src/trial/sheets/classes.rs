//! Classes of imports and exports. An answer may be in several of these classes.
//!
//! What is wrong with a line is told by what would make it right: a line has a leading zero where it is a line without it.

use super::super::arrival::{that_apply, Classes};
use super::super::call::{Answer, Call};
use super::super::profile::Profile;
use super::trips;
use crate::sheets::MOST;
use crate::speaking::source_from_outside;
use crate::tables::{Group, PhyRecord};
use std::str::from_utf8;

/// All classes that a run must reach on either shelf, by call.
pub const REQUIRED: [(&str, &[&str]); 9] = [
    ("import", &REFUSED),
    ("import", &DONE),
    ("import", &STOPPED),
    ("import", &BAD_TEXT),
    ("import", &NO_SUCH_GROUP),
    ("import", &NO_RIGHT),
    ("import", &trips::ORDERED),
    ("export", &EXPORT),
    ("export", &trips::BACK),
];

/// Those that a run on one of the two must reach as well.
pub const REQUIRED_OF_LARGE: [(&str, &[&str]); 1] = [(
    "import",
    &["done, group 8", "done, group 100", "done, group 127", "done, 8,001 lines or more and 11 bytes in one"],
)];
pub const REQUIRED_OF_SMALL: [(&str, &[&str]); 1] = [(
    "import",
    &[
        "done, group 7",
        "no such group, 8 alone",
        "no such group, 9 alone",
        "no such group, 10 alone",
        "no such group, 127 alone",
        "no right, source group above 7",
    ],
)];

const REFUSED: [&str; 24] = [
    "refused 1",
    "refused 1, and 3",
    "refused 2",
    "refused 2, and 3",
    "refused 3",
    "refused 3, 88,012 bytes of good lines",
    "refused 3, 88,012 bytes",
    "refused 3, and 7",
    "refused 3, and 5",
    "refused 7",
    "refused 7, and 5",
    "refused 7, and bad text",
    "refused 5, no group",
    "refused 5, no byte",
    "refused 5, no lines",
    "refused 5, and bad text",
    "refused 5, carried 128",
    "refused 5, carried 255",
    "refused 5, carried 256",
    "refused 5, carried 256 or more, not participating",
    "refused 5, a right modulo 128",
    "refused 5, right where it is cut",
    "refused 5, carried 4,294,967,295",
    "refused 5, no such group",
];

const DONE: [&str; 29] = [
    "done",
    "done, no lines",
    "done, no lines, without the right",
    "done, 1 line",
    "done, several lines",
    "done, over 255 lines",
    "done, LF alone",
    "done, CR LF alone",
    "done, either end",
    "done, on",
    "done, off",
    "done, group 2",
    "done, a group and itself",
    "done, the higher group first",
    "done, a pair on and then off",
    "done, a pair off and then on",
    "done, changed",
    "done, changed nothing",
    "done, the last line took the right away",
    "done, 88,011 bytes",
    "done, over 8,001 lines",
    "done, 65,536 bytes and more",
    "done, participating",
    "done, participating, its own group without the right",
    "done, not participating",
    "done, not participating, carried 128",
    "done, not participating, carried 255",
    "done, from another group than 1",
    "done, from a phy, byte 1 above 127",
];

const STOPPED: [&str; 11] = [
    "stopped, bad text",
    "stopped, no such group",
    "stopped, no right",
    "stopped at line 1",
    "stopped at a line over 255",
    "stopped at the last line",
    "stopped, the lines before it changed the table",
    "stopped, the lines before it changed nothing",
    "stopped, a good line after it",
    "stopped, a bad line after it",
    "stopped, 88,011 bytes",
];

const BAD_TEXT: [&str; 44] = [
    "bad text, leading zero of the first number alone",
    "bad text, leading zero of the second number alone",
    "bad text, several leading zeros",
    "bad text, 00",
    "bad text, 02",
    "bad text, leading zeros over 80,000",
    "bad text, no line end alone",
    "bad text, no line end alone, one line",
    "bad text, a CR alone at the end of the sheet",
    "bad text, CR CR LF",
    "bad text, LF CR",
    "bad text, a CR alone between two lines",
    "bad text, a CR before a comma",
    "bad text, a CR after a comma",
    "bad text, an empty line by LF",
    "bad text, an empty line by CR LF",
    "bad text, an empty line at the end",
    "bad text, an empty line at the front",
    "bad text, spaces alone",
    "bad text, quotes alone",
    "bad text, all fields in quotes",
    "bad text, a sign alone",
    "bad text, a / for a digit",
    "bad text, a : for a digit",
    "bad text, a header",
    "bad text, a byte order mark",
    "bad text, a NUL",
    "bad text, no ASCII",
    "bad text, no UTF-8",
    "bad text, an empty first number alone",
    "bad text, an empty second number alone",
    "bad text, one field",
    "bad text, two fields",
    "bad text, four fields",
    "bad text, an empty field more",
    "bad text, third field 2 alone",
    "bad text, third field 10 alone",
    "bad text, third field 01 alone",
    "bad text, third field 00 alone",
    "bad text, third field 11 alone",
    "bad text, third field empty alone",
    "bad text, and no such group",
    "bad text, and no right",
    "bad text, and the right lost before",
];

const NO_SUCH_GROUP: [&str; 26] = [
    "no such group, the first alone",
    "no such group, the second alone",
    "no such group, both",
    "no such group, 0 alone",
    "no such group, 1 alone",
    "no such group, 128 alone",
    "no such group, 129 alone",
    "no such group, 255 alone",
    "no such group, 256 alone",
    "no such group, 256 + 8 alone",
    "no such group, 65,536 + 8 alone",
    "no such group, 2^32 + 8 alone",
    "no such group, 2^64 + 8 alone",
    "no such group, 2^128 + 8 alone",
    "no such group, 256 + 2 alone",
    "no such group, 65,536 + 2 alone",
    "no such group, 2^32 + 2 alone",
    "no such group, 2^64 + 2 alone",
    "no such group, 2^128 + 2 alone",
    "no such group, 1000 alone",
    "no such group, thirty nines alone",
    "no such group, over 255 digits",
    "no such group, over 80,000 digits",
    "no such group, off",
    "no such group, and no right",
    "no such group, and the right lost before",
];

const NO_RIGHT: [&str; 10] = [
    "no right, at line 1",
    "no right, lost on the way",
    "no right, lost on the way, 2 first",
    "no right, lost on the way, 2 second",
    "no right, lost on the way, changed",
    "no right, lost, and the line gives it back",
    "no right, participating",
    "no right, not participating",
    "no right, the lines after it good",
    "no right, it reaches the source alone",
];

const EXPORT: [&str; 21] = [
    "no pairs",
    "some pairs",
    "all pairs",
    "one pair",
    "a group and itself",
    "the last group and itself",
    "on in the lower group's row alone",
    "on in the higher group's row alone",
    "no pairs, but for the higher groups' rows",
    "groups 0 and 1 on in other rows",
    "no mutual table",
    "a mutual table, some pairs",
    "room for 88,011 bytes",
    "more room",
    "refused 1",
    "refused 1, and 3",
    "refused 3",
    "refused 3, a byte too few",
    "refused 3, room for what there is",
    "refused 3, no pairs",
    "refused 3, no room",
];

/// The classes of an answer beside what it says of all.
pub fn classes(profile: Profile, call: &Call, answer: &Answer) -> Classes {
    match call {
        Call::Import { phys, permissions, phy, carried, sheet } => match answer.refusal() {
            0 => Import::new(profile, phys, permissions, *phy, *carried, sheet, answer).classes(),
            refusal => refused(profile, refusal, phys, permissions, [*phy, *carried], sheet),
        },
        Call::Export { permissions, sheet } => match answer.refusal() {
            0 => exported(profile, permissions, sheet.len(), answer),
            refusal => unexported(profile, refusal, permissions, sheet.len()),
        },
        _ => Vec::new(),
    }
}

/// What is said of all answers that are no refusal.
pub fn imported(answer: &Answer) -> &'static str {
    match answer.fields[2] {
        0 => "done",
        1 => "stopped, bad text",
        2 => "stopped, no such group",
        _ => "stopped, no right",
    }
}

fn refused(
    profile: Profile,
    refusal: u64,
    phys: &[u8],
    permissions: &[u8],
    [phy, carried]: [u32; 2],
    sheet: &[u8],
) -> Classes {
    let is = |number| refusal == number;
    let arriving = phys.as_chunks().0.get(phy as usize).map(PhyRecord::from);
    let is_participating = arriving.is_some_and(|record| record.participating);
    let no_group = carried > 255 || is_participating && carried > 127;
    let is_long = sheet.len() > MOST;
    let first = lines_of(sheet).next().unwrap_or_default();
    let right_if_cut = profile.may_change_zoning(permissions, Group::low_7_bits(carried as u8));
    let names_far = numbers_of(first).is_some_and(|numbers| numbers.iter().any(|number| !is_group(profile, number)));
    that_apply(&[
        ("refused 1, and 3", is(1) && is_long),
        ("refused 2, and 3", is(2) && is_long),
        ("refused 3, 88,012 bytes of good lines", is(3) && sheet.len() == MOST + 1 && lines_of(sheet).all(is_line)),
        ("refused 3, 88,012 bytes", is(3) && sheet.len() == MOST + 1),
        ("refused 3, and 7", is(3) && arriving.is_some_and(|record| !record.ready)),
        ("refused 3, and 5", is(3) && no_group),
        ("refused 7, and 5", is(7) && no_group),
        ("refused 7, and bad text", is(7) && !sheet.is_empty() && !is_line(first)),
        ("refused 5, no lines", is(5) && sheet.is_empty()),
        ("refused 5, and bad text", is(5) && !sheet.is_empty() && !is_line(first)),
        ("refused 5, no such group", is(5) && is_line(first) && names_far),
        ("refused 5, carried 128", is(5) && carried == 128),
        ("refused 5, carried 255", is(5) && carried == 255),
        ("refused 5, carried 256", is(5) && carried == 256),
        ("refused 5, carried 256 or more, not participating", is(5) && carried > 255 && !is_participating),
        ("refused 5, a right modulo 128", is(5) && carried <= 255 && right_if_cut),
        ("refused 5, right where it is cut", is(5) && carried > 255 && carried % 256 < 128 && right_if_cut),
        ("refused 5, carried 4,294,967,295", is(5) && carried == u32::MAX),
    ])
}

/// The lines of a sheet with their ends. The last may have none.
fn lines_of(sheet: &[u8]) -> impl Iterator<Item = &[u8]> {
    sheet.split_inclusive(|&byte| byte == b'\n')
}

/// The three fields of a line that has an end.
fn fields_of(line: &[u8]) -> Option<[&str; 3]> {
    let text = from_utf8(line).ok()?.strip_suffix('\n')?;
    let mut fields = text.strip_suffix('\r').unwrap_or(text).splitn(3, ',');
    let three = [fields.next()?, fields.next()?, fields.next()?];
    (!three[2].contains(',')).then_some(three)
}

/// Whether a text has the form of a line. Any number of digits will do.
fn is_line(line: &[u8]) -> bool {
    fields_of(line).is_some_and(|[a, b, on]| is_number(a) && is_number(b) && (on == "1" || on == "0"))
}

/// A number is one that has nothing else before its digits than its first digit.
fn is_number(field: &str) -> bool {
    field == "0" || field.starts_with(|first| ('1'..='9').contains(&first)) && field.chars().all(|c| c.is_ascii_digit())
}

/// The numbers of a text that is a line.
fn numbers_of(line: &[u8]) -> Option<[&str; 2]> {
    fields_of(line).filter(|_| is_line(line)).map(|[a, b, _]| [a, b])
}

/// Whether an order may name the group that a number names.
fn is_group(profile: Profile, number: &str) -> bool {
    is_number(number) && number.parse().is_ok_and(|group| (2..profile.groups_of_table()).contains(&group))
}

/// An import that was not refused.
struct Import<'a> {
    profile: Profile,
    arriving: PhyRecord,
    /// Byte 1 of the arriving phy's record.
    group_byte: u8,
    carried: u32,
    source: Group,
    before: &'a [u8],
    after: &'a [u8],
    sheet: &'a [u8],
    /// The lines up to the one that failed, which is the last then.
    lines: Vec<&'a [u8]>,
    rest: Vec<&'a [u8]>,
    cause: u64,
}

impl<'a> Import<'a> {
    fn new(
        profile: Profile,
        phys: &[u8],
        before: &'a [u8],
        phy: u32,
        carried: u32,
        sheet: &'a [u8],
        answer: &'a Answer,
    ) -> Import<'a> {
        let record = &phys.as_chunks().0[phy as usize];
        let arriving = PhyRecord::from(record);
        let source = source_from_outside(&arriving, carried as u8).unwrap_or(arriving.group);
        let mut lines: Vec<&[u8]> = lines_of(sheet).collect();
        let rest = lines.split_off(lines.len().min(answer.fields[1] as usize));
        let (after, cause) = (answer.buffers[0].as_slice(), answer.fields[2]);
        Import { profile, arriving, group_byte: record[1], carried, source, before, after, sheet, lines, rest, cause }
    }

    fn classes(&self) -> Classes {
        let Some(last) = self.lines.last().filter(|_| self.cause != 0) else {
            return self.done();
        };
        let mut classes = self.stopped();
        classes.extend(match self.cause {
            1 => self.bad_text(last),
            2 => self.no_such_group(last),
            _ => self.no_right(last),
        });
        classes
    }

    fn had_right(&self) -> bool {
        self.profile.may_change_zoning(self.before, self.source)
    }

    /// After the lines before the one that failed, which itself does nothing.
    fn has_right(&self) -> bool {
        self.profile.may_change_zoning(self.after, self.source)
    }

    fn lost_right(&self) -> bool {
        self.had_right() && !self.has_right()
    }

    fn changed(&self) -> bool {
        self.before != self.after
    }

    fn done(&self) -> Classes {
        let (count, changed) = (self.lines.len(), self.changed());
        let crlf = self.lines.iter().filter(|line| line.ends_with(b"\r\n")).count();
        let named: Vec<[&str; 3]> = self.lines.iter().filter_map(|line| fields_of(line)).collect();
        let any = |is: &dyn Fn(&[&str; 3]) -> bool| named.iter().any(is);
        let names = |group: &str| any(&|fields| fields[..2].contains(&group));
        let (participating, some) = (self.arriving.participating, count > 0);
        let unread = |carried| some && !participating && self.carried == carried;
        let own_right = self.profile.may_change_zoning(self.before, self.arriving.group);
        let [on_and_off, off_and_on] = [["1", "0"], ["0", "1"]].map(|order| switches(&named, order));
        let has_eleven = self.lines.iter().any(|line| line.len() == 11);
        that_apply(&[
            ("done, no lines", count == 0),
            ("done, no lines, without the right", count == 0 && !self.had_right()),
            ("done, 1 line", count == 1),
            ("done, several lines", count > 1),
            ("done, over 255 lines", count > 255),
            ("done, LF alone", some && crlf == 0),
            ("done, CR LF alone", some && crlf == count),
            ("done, either end", crlf > 0 && crlf < count),
            ("done, on", any(&|fields| fields[2] == "1")),
            ("done, off", any(&|fields| fields[2] == "0")),
            ("done, group 2", names("2")),
            ("done, group 7", names("7")),
            ("done, group 8", names("8")),
            ("done, group 100", names("100")),
            ("done, group 127", names("127")),
            ("done, a group and itself", any(&|fields| fields[0] == fields[1])),
            ("done, the higher group first", any(&|[a, b, _]| (a.len(), a) > (b.len(), b))),
            ("done, a pair on and then off", on_and_off),
            ("done, a pair off and then on", off_and_on),
            ("done, changed", changed),
            ("done, changed nothing", some && !changed),
            ("done, the last line took the right away", self.lost_right()),
            ("done, 88,011 bytes", self.sheet.len() == MOST),
            ("done, over 8,001 lines", count > 8_001),
            ("done, 8,001 lines or more and 11 bytes in one", count >= 8_001 && has_eleven),
            ("done, 65,536 bytes and more", self.sheet.len() >= 65_536),
            ("done, participating", some && participating),
            ("done, participating, its own group without the right", some && participating && !own_right),
            ("done, not participating", some && !participating),
            ("done, not participating, carried 128", unread(128)),
            ("done, not participating, carried 255", unread(255)),
            ("done, from another group than 1", some && self.source.number() != 1),
            ("done, from a phy, byte 1 above 127", some && !participating && self.group_byte > 127),
        ])
    }

    fn stopped(&self) -> Classes {
        let number = self.lines.len();
        let changed = self.changed();
        let is_good = |line: &&[u8]| numbers_of(line).is_some_and(|[a, b]| self.is_group(a) && self.is_group(b));
        that_apply(&[
            ("stopped at line 1", number == 1),
            ("stopped at a line over 255", number > 255),
            ("stopped at the last line", number > 1 && self.rest.is_empty()),
            ("stopped, the lines before it changed the table", changed),
            ("stopped, the lines before it changed nothing", number > 1 && !changed),
            ("stopped, a good line after it", self.rest.iter().any(is_good)),
            ("stopped, a bad line after it", self.rest.iter().any(|line| !is_line(line))),
            ("stopped, 88,011 bytes", self.sheet.len() == MOST),
        ])
    }

    fn is_group(&self, number: &str) -> bool {
        is_group(self.profile, number)
    }

    fn bad_text(&self, line: &[u8]) -> Classes {
        let number = self.lines.len();
        let fields = fields_of(line);
        let is_far = |field: &str| is_number(field) && !self.is_group(field);
        let (is_first, is_last) = (number == 1, self.rest.is_empty());
        let alone = |third: &str| fields.is_some_and(|[a, b, on]| on == third && self.is_group(a) && self.is_group(b));
        let mut classes = zeros(line);
        classes.extend(ends(line, number, is_last));
        classes.extend(letters(line, is_first));
        classes.extend(counts(line));
        classes.extend(that_apply(&[
            ("bad text, an empty line at the front", is_first && is_empty(line) && !is_last),
            ("bad text, an empty line at the end", !is_first && is_empty(line) && is_last),
            ("bad text, third field 2 alone", alone("2")),
            ("bad text, third field 10 alone", alone("10")),
            ("bad text, third field 01 alone", alone("01")),
            ("bad text, third field 00 alone", alone("00")),
            ("bad text, third field 11 alone", alone("11")),
            ("bad text, third field empty alone", alone("")),
            ("bad text, and no such group", fields.is_some_and(|[a, b, _]| is_far(a) || is_far(b))),
            ("bad text, and no right", !self.had_right()),
            ("bad text, and the right lost before", self.lost_right()),
        ]));
        classes
    }

    fn no_such_group(&self, line: &[u8]) -> Classes {
        let Some([a, b, on]) = fields_of(line) else {
            return Vec::new();
        };
        let [first, second] = [a, b].map(|number| !self.is_group(number));
        let far = if first { a } else { b };
        let alone = |number: &str| far == number && first != second;
        that_apply(&[
            ("no such group, the first alone", first && !second),
            ("no such group, the second alone", !first && second),
            ("no such group, both", first && second),
            ("no such group, 0 alone", alone("0")),
            ("no such group, 1 alone", alone("1")),
            ("no such group, 8 alone", alone("8")),
            ("no such group, 9 alone", alone("9")),
            ("no such group, 10 alone", alone("10")),
            ("no such group, 127 alone", alone("127")),
            ("no such group, 128 alone", alone("128")),
            ("no such group, 129 alone", alone("129")),
            ("no such group, 255 alone", alone("255")),
            ("no such group, 256 alone", alone("256")),
            ("no such group, 256 + 8 alone", alone("264")),
            ("no such group, 65,536 + 8 alone", alone("65544")),
            ("no such group, 2^32 + 8 alone", alone("4294967304")),
            ("no such group, 2^64 + 8 alone", alone("18446744073709551624")),
            ("no such group, 2^128 + 8 alone", alone("340282366920938463463374607431768211464")),
            ("no such group, 256 + 2 alone", alone("258")),
            ("no such group, 65,536 + 2 alone", alone("65538")),
            ("no such group, 2^32 + 2 alone", alone("4294967298")),
            ("no such group, 2^64 + 2 alone", alone("18446744073709551618")),
            ("no such group, 2^128 + 2 alone", alone("340282366920938463463374607431768211458")),
            ("no such group, 1000 alone", alone("1000")),
            ("no such group, thirty nines alone", alone(&"9".repeat(30))),
            ("no such group, over 255 digits", far.len() > 255),
            ("no such group, over 80,000 digits", far.len() > 80_000),
            ("no such group, off", on == "0"),
            ("no such group, and no right", !self.had_right()),
            ("no such group, and the right lost before", self.lost_right()),
        ])
    }

    fn no_right(&self, line: &[u8]) -> Classes {
        let (source, lost) = (self.source.number().to_string(), self.lost_right());
        let takes = |pair: [&str; 2]| {
            let taken = |line: &&[u8]| fields_of(line) == Some([pair[0], pair[1], "0"]);
            lost && pair[0] != pair[1] && self.lines.iter().any(taken)
        };
        let gives_back = fields_of(line).is_some_and(|fields| {
            let [a, b, on] = fields;
            on == "1" && ([a, b] == ["2", source.as_str()] || [b, a] == ["2", source.as_str()])
        });
        let reached = self.profile.permitted(self.before, Group::low_7_bits(2), self.source);
        that_apply(&[
            ("no right, at line 1", self.lines.len() == 1),
            ("no right, lost on the way", lost),
            ("no right, lost on the way, 2 first", takes(["2", &source])),
            ("no right, lost on the way, 2 second", takes([&source, "2"])),
            ("no right, lost on the way, changed", lost && self.lines.len() > 2),
            ("no right, lost, and the line gives it back", lost && gives_back),
            ("no right, participating", self.arriving.participating),
            ("no right, not participating", !self.arriving.participating),
            ("no right, the lines after it good", !self.rest.is_empty() && self.rest.iter().all(|line| is_line(line))),
            ("no right, it reaches the source alone", reached && !self.had_right()),
            ("no right, source group above 7", self.source.number() > 7),
        ])
    }
}

/// Whether one of a few lines switches a pair in the first way, and the next line the same pair in the second.
fn switches(named: &[[&str; 3]], [first, second]: [&str; 2]) -> bool {
    let is_it = |one: &[&str; 3], other: &[&str; 3]| {
        let same = one[..2] == other[..2] || one[0] == other[1] && one[1] == other[0];
        same && one[2] == first && other[2] == second
    };
    named.iter().zip(named.iter().skip(1)).any(|(one, other)| is_it(one, other))
}

fn is_empty(line: &[u8]) -> bool {
    line == b"\n" || line == b"\r\n"
}

/// Of a line that would be one without the zeros before its numbers.
fn zeros(line: &[u8]) -> Classes {
    let Some([a, b, on]) = fields_of(line) else {
        return Vec::new();
    };
    let plain = |field: &str| match field.trim_start_matches('0') {
        "" if field.is_empty() => String::new(),
        "" => "0".to_string(),
        digits => digits.to_string(),
    };
    let [first, second] = [a, b].map(plain);
    let right = is_line(format!("{first},{second},{on}\n").as_bytes());
    let (of_first, of_second) = (right && first != a, right && second != b);
    let most = (a.len() - first.len()).max(b.len() - second.len());
    that_apply(&[
        ("bad text, leading zero of the first number alone", of_first && !of_second),
        ("bad text, leading zero of the second number alone", !of_first && of_second),
        ("bad text, several leading zeros", right && most > 1),
        ("bad text, 00", right && [a, b].contains(&"00")),
        ("bad text, 02", right && [a, b].contains(&"02")),
        ("bad text, leading zeros over 80,000", b.len() > 80_000),
    ])
}

/// Of a line that would be one with another end, or that has a CR elsewhere.
fn ends(line: &[u8], number: usize, is_last: bool) -> Classes {
    let without =
        |bytes: &[u8]| is_line(&line.iter().copied().filter(|byte| !bytes.contains(byte)).collect::<Vec<_>>());
    let has = |part: &[u8]| line.windows(part.len()).any(|window| window == part);
    let with_end = is_line(&[line, b"\n"].concat());
    let cr_alone = line.ends_with(b"\r");
    let cut: Vec<Vec<u8>> = line.split(|&byte| byte == b'\r').map(|part| [part, b"\n"].concat()).collect();
    let two_lines = cut.len() > 1
        && cut[..2].iter().enumerate().all(|(i, part)| {
            let text = if i + 1 == cut.len() { &part[..part.len() - 1] } else { part };
            is_line(text)
        });
    that_apply(&[
        ("bad text, no line end alone", is_last && with_end && !cr_alone),
        ("bad text, no line end alone, one line", is_last && with_end && !cr_alone && number == 1),
        ("bad text, a CR alone at the end of the sheet", is_last && with_end && cr_alone),
        ("bad text, CR CR LF", line.ends_with(b"\r\r\n") && without(b"\r")),
        ("bad text, LF CR", number > 1 && line.starts_with(b"\r") && is_line(&line[1..])),
        ("bad text, a CR alone between two lines", two_lines),
        ("bad text, a CR before a comma", has(b"\r,") && without(b"\r")),
        ("bad text, a CR after a comma", has(b",\r") && without(b"\r")),
        ("bad text, an empty line by LF", line == b"\n"),
        ("bad text, an empty line by CR LF", line == b"\r\n"),
    ])
}

/// Of a line with bytes in it that no line has.
fn letters(line: &[u8], is_first: bool) -> Classes {
    let without = |bytes: &[u8]| {
        let rest: Vec<u8> = line.iter().copied().filter(|byte| !bytes.contains(byte)).collect();
        rest.len() < line.len() && is_line(&rest)
    };
    let for_a_digit = |byte: u8| {
        let digits: Vec<u8> = line.iter().map(|&other| if other == byte { b'8' } else { other }).collect();
        digits != line && is_line(&digits)
    };
    let is_header = line.iter().filter(|byte| byte.is_ascii_alphabetic()).count() > 3;
    that_apply(&[
        ("bad text, spaces alone", without(b" ")),
        ("bad text, quotes alone", without(b"\"")),
        ("bad text, all fields in quotes", without(b"\"") && line.iter().filter(|&&byte| byte == b'"').count() == 6),
        ("bad text, a sign alone", without(b"+-")),
        ("bad text, a / for a digit", for_a_digit(b'/')),
        ("bad text, a : for a digit", for_a_digit(b':')),
        ("bad text, a header", is_first && is_header),
        ("bad text, a byte order mark", line.starts_with("\u{feff}".as_bytes()) && is_line(&line[3..])),
        ("bad text, a NUL", without(b"\0")),
        ("bad text, no ASCII", !line.is_ascii()),
        ("bad text, no UTF-8", from_utf8(line).is_err()),
    ])
}

/// Of a line with fewer or more fields, or with one that is empty.
fn counts(line: &[u8]) -> Classes {
    let plain = line.iter().all(|byte| byte.is_ascii_digit() || b",\r\n".contains(byte));
    let commas = line.iter().filter(|&&byte| byte == b',').count();
    let has = |count| plain && commas + 1 == count && !is_empty(line);
    let empty = |place: usize| fields_of(line).is_some_and(|fields| plain && fields[place].is_empty());
    let text = line.trim_ascii_end();
    that_apply(&[
        ("bad text, an empty first number alone", empty(0) && is_line(&[b"8", line].concat())),
        ("bad text, an empty second number alone", empty(1) && !empty(0) && !empty(2)),
        ("bad text, one field", has(1)),
        ("bad text, two fields", has(2)),
        ("bad text, four fields", has(4)),
        ("bad text, an empty field more", has(4) && text.ends_with(b",")),
    ])
}

/// The pairs a <= b of groups that an order may name, each with what the rows of both groups say.
fn pairs(profile: Profile, permissions: &[u8]) -> Vec<(usize, usize, [bool; 2])> {
    let groups = profile.groups_of_table();
    let reaches =
        |a: usize, b: usize| profile.permitted(permissions, Group::low_7_bits(a as u8), Group::low_7_bits(b as u8));
    let all = (2..groups).flat_map(|a| (a..groups).map(move |b| (a, b)));
    all.map(|(a, b)| (a, b, [reaches(a, b), reaches(b, a)])).collect()
}

/// What is said of all exports that are no refusal.
pub fn how_many_exported(profile: Profile, answer: &Answer) -> &'static str {
    let longest = match profile {
        Profile::Large => 74_549,
        Profile::Small => 147,
    };
    match answer.fields[1] {
        0 => "no pairs",
        length if length == longest => "all pairs",
        _ => "some pairs",
    }
}

fn exported(profile: Profile, permissions: &[u8], room: usize, answer: &Answer) -> Classes {
    let (width, groups) = (profile.width(), profile.groups_of_table());
    let pairs = pairs(profile, permissions);
    let on = pairs.iter().filter(|(_, _, rows)| rows[0]).count();
    let any = |rows: [bool; 2]| pairs.iter().any(|pair| pair.2 == rows);
    let itself: Vec<usize> = pairs.iter().filter(|(a, b, rows)| a == b && rows[0]).map(|pair| pair.0).collect();
    let is_mutual = !any([true, false]) && !any([false, true]);
    let unnamed = (2..groups).any(|a| permissions[width * a + width - 1] & 0b11 == 0b11);
    that_apply(&[
        ("one pair", on == 1),
        ("a group and itself", !itself.is_empty()),
        ("the last group and itself", itself.last() == Some(&(groups - 1))),
        ("on in the lower group's row alone", any([true, false])),
        ("on in the higher group's row alone", any([false, true])),
        ("no pairs, but for the higher groups' rows", answer.fields[1] == 0 && any([false, true])),
        ("groups 0 and 1 on in other rows", unnamed),
        ("no mutual table", !is_mutual),
        ("a mutual table, some pairs", is_mutual && on > 0 && on < pairs.len()),
        ("room for 88,011 bytes", room == MOST),
        ("more room", room > MOST),
    ])
}

fn unexported(profile: Profile, refusal: u64, permissions: &[u8], room: usize) -> Classes {
    let is = |number| refusal == number;
    let none = is(3) && pairs(profile, permissions).iter().all(|(_, _, rows)| !rows[0]);
    that_apply(&[
        ("refused 1, and 3", is(1) && room < MOST),
        ("refused 3, a byte too few", is(3) && room == MOST - 1),
        ("refused 3, room for what there is", is(3) && (74_549..MOST - 1).contains(&room)),
        ("refused 3, no pairs", none),
        ("refused 3, no room", is(3) && room == 0),
    ])
}
