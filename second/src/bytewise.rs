//! The same rules on sheets byte by byte, for timing only. The model that judges is the one that goes by whole fields.
//!
//! What is timed beside it should have to be fast: so this is inlined where that was measured to pay.

use crate::permission::{may_change_zoning, permitted, write_pair, FIRST_NAMED};
use crate::sheets::{exported, imported, try_export, try_import, Cause, Exported, Imported};
use crate::tables::{groups_of_table, Group, Row, GROUPS};

/// A sheet of orders is given by a phy.
pub fn import<const WIDTH: usize>(
    phys: &[u8],
    permissions: &mut [u8],
    phy: u32,
    carried: u32,
    sheet: &[u8],
) -> Imported {
    imported(try_import(phys, permissions, phy, carried, sheet, obey_lines::<WIDTH>))
}

/// The permitted pairs are written as a sheet.
pub fn export<const WIDTH: usize>(permissions: &[u8], sheet: &mut [u8]) -> Exported {
    exported(try_export(permissions, sheet, write_pairs::<WIDTH>))
}

struct Line {
    a: u32,
    b: u32,
    on: bool,
}

fn obey_lines<const WIDTH: usize>(rows: &mut [Row<WIDTH>], source: Group, mut sheet: &[u8]) -> Imported {
    let mut lines = 0;
    while !sheet.is_empty() {
        lines += 1;
        let obeyed = match read_line(sheet) {
            None => Err(Cause::BadText),
            Some((line, rest)) => {
                sheet = rest;
                obey(rows, source, &line)
            }
        };
        if let Err(cause) = obeyed {
            return Imported { refusal: 0, lines, cause: cause as u32 };
        }
    }
    Imported { refusal: 0, lines, cause: 0 }
}

#[inline(always)]
fn obey<const WIDTH: usize>(rows: &mut [Row<WIDTH>], source: Group, line: &Line) -> Result<(), Cause> {
    let named = FIRST_NAMED as u32..groups_of_table(WIDTH) as u32;
    if !named.contains(&line.a) || !named.contains(&line.b) {
        return Err(Cause::NoSuchGroup);
    }
    if !may_change_zoning(rows, source) {
        return Err(Cause::NoRight);
    }
    write_pair(rows, Group::low_7_bits(line.a as u8), Group::low_7_bits(line.b as u8), line.on);
    Ok(())
}

/// The first line, and what is left after its end.
#[inline(always)]
fn read_line(sheet: &[u8]) -> Option<(Line, &[u8])> {
    let (a, sheet) = read_number(sheet)?;
    let (b, sheet) = read_number(sheet)?;
    let (on, sheet) = match sheet {
        [b'1', rest @ ..] => (true, rest),
        [b'0', rest @ ..] => (false, rest),
        _ => return None,
    };
    match sheet {
        [b'\r', b'\n', rest @ ..] | [b'\n', rest @ ..] => Some((Line { a, b, on }, rest)),
        _ => None,
    }
}

/// A number up to its comma, and what is left after that. It does not grow beyond what can be told from a group.
#[inline(always)]
fn read_number(sheet: &[u8]) -> Option<(u32, &[u8])> {
    let (&first @ b'0'..=b'9', mut sheet) = sheet.split_first()? else {
        return None;
    };
    let mut number = u32::from(first - b'0');
    loop {
        match sheet {
            [b',', rest @ ..] => return Some((number, rest)),
            [digit @ b'0'..=b'9', rest @ ..] if number != 0 => {
                if number < 1000 {
                    number = 10 * number + u32::from(digit - b'0');
                }
                sheet = rest;
            }
            _ => return None,
        }
    }
}

/// A number with its comma, and how many bytes they are.
type Field = ([u8; 4], usize);

const FIELDS: [Field; GROUPS] = {
    let mut fields = [([0; 4], 0); GROUPS];
    let mut number = 0;
    while number < GROUPS {
        fields[number] = field(number);
        number += 1;
    }
    fields
};

const fn field(number: usize) -> Field {
    let [ones, tens, hundreds] = [number % 10, number / 10 % 10, number / 100];
    let [ones, tens, hundreds] = [b'0' + ones as u8, b'0' + tens as u8, b'0' + hundreds as u8];
    match number {
        0..10 => ([ones, b',', 0, 0], 2),
        10..100 => ([tens, ones, b',', 0], 3),
        _ => ([hundreds, tens, ones, b','], 4),
    }
}

/// Each field is written with four bytes: what is too many of them the next part of the line writes over.
#[allow(clippy::needless_range_loop, reason = "by numbers it takes a third of the time on the small shelf")]
fn write_pairs<const WIDTH: usize>(rows: &[Row<WIDTH>], sheet: &mut [u8]) -> usize {
    let mut at = 0;
    for a in FIRST_NAMED..groups_of_table(WIDTH) {
        for b in a..groups_of_table(WIDTH) {
            if permitted(rows, Group::low_7_bits(a as u8), Group::low_7_bits(b as u8)) {
                for (field, length) in [FIELDS[a], FIELDS[b]] {
                    sheet[at..at + 4].copy_from_slice(&field);
                    at += length;
                }
                sheet[at..at + 3].copy_from_slice(b"1\r\n");
                at += 3;
            }
        }
    }
    at
}

#[cfg(test)]
mod tests {
    use super::*;
    use crate::tables::{LARGE, SMALL};
    use crate::trial::call::{Answer, Call};
    use crate::trial::generate::Generator;
    use crate::trial::profile::Profile;

    /// Where the call is one of a sheet.
    fn by_bytes<const WIDTH: usize>(call: Call) -> Option<Answer> {
        match call {
            Call::Import { phys, mut permissions, phy, carried, sheet } => {
                let Imported { refusal, lines, cause } = import::<WIDTH>(&phys, &mut permissions, phy, carried, &sheet);
                let fields = [refusal.into(), lines.into(), cause.into(), 0, 0];
                Some(Answer { fields, buffers: vec![permissions] })
            }
            Call::Export { permissions, mut sheet } => {
                let Exported { refusal, length } = export::<WIDTH>(&permissions, &mut sheet);
                Some(Answer { fields: [refusal.into(), length.into(), 0, 0, 0], buffers: vec![sheet] })
            }
            _ => None,
        }
    }

    fn says_what_the_model_says<const WIDTH: usize>(profile: Profile) {
        let mut generator = Generator::new(profile, 1);
        let mut sheets = 0;
        while sheets < 4_000 {
            let call = generator.call();
            let answer = call.model(profile);
            generator.keep(&call, &answer);
            if let Some(by_bytes) = by_bytes::<WIDTH>(call) {
                assert_eq!(by_bytes, answer);
                sheets += 1;
            }
        }
    }

    #[test]
    fn says_what_the_model_says_on_both_shelves() {
        says_what_the_model_says::<LARGE>(Profile::Large);
        says_what_the_model_says::<SMALL>(Profile::Small);
    }
}
