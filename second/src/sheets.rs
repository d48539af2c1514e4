//! Zone sheets, request 07 of document 02: orders as lines of comma-separated text, and the permitted pairs as such lines.
//!
//! A sheet is cut after each LF, and a line at its commas. Each field is then held against what it may be, as text: a number
//! has no most digits, so it is read as a group only once it is known to be a number.

use crate::permission::{may_change_zoning, permitted, write_pair, FIRST_NAMED};
use crate::refusals::{arriving_phy, ready, refuse_if, room, Refusal};
use crate::speaking::source_from_outside;
use crate::tables::{groups_of_table, permission_table, permission_table_mut, phy_table, Group, Row};
use std::ops::Range;

/// The most bytes that a sheet may have, and the room that an export asks for: 8,001 lines of eleven bytes.
pub const MOST: usize = 88_011;

const LF: u8 = b'\n';

/// Why a line fails, in order of checking.
#[derive(Clone, Copy, Debug, PartialEq, Eq)]
pub enum Cause {
    BadText = 1,
    NoSuchGroup = 2,
    NoRight = 3,
}

/// What became of the lines: how many there are where there is no cause, else the number of the one that failed.
#[derive(Clone, Copy, Debug, Default, PartialEq, Eq)]
pub struct Imported {
    pub refusal: u32,
    pub lines: u32,
    pub cause: u32,
}

#[derive(Clone, Copy, Debug, Default, PartialEq, Eq)]
pub struct Exported {
    pub refusal: u32,
    pub length: u32,
}

/// A sheet of orders is given by a phy; `carried` is the group that the caller took from the connection's OPEN.
pub fn import<const WIDTH: usize>(
    phys: &[u8],
    permissions: &mut [u8],
    phy: u32,
    carried: u32,
    sheet: &[u8],
) -> Imported {
    imported(try_import(phys, permissions, phy, carried, sheet, obey_lines::<WIDTH>))
}

/// The permitted pairs are written as a sheet.
pub fn export<const WIDTH: usize>(permissions: &[u8], sheet: &mut [u8]) -> Exported {
    exported(try_export(permissions, sheet, write_pairs::<WIDTH>))
}

pub(crate) fn imported(answer: Result<Imported, Refusal>) -> Imported {
    answer.unwrap_or_else(|refusal| Imported { refusal: refusal.number(), ..Imported::default() })
}

pub(crate) fn exported(answer: Result<usize, Refusal>) -> Exported {
    match answer {
        Ok(length) => Exported { refusal: 0, length: length as u32 },
        Err(refusal) => Exported { refusal: refusal.number(), length: 0 },
    }
}

/// With the lines obeyed in this way, one after the other.
pub(crate) fn try_import<const WIDTH: usize>(
    phys: &[u8],
    permissions: &mut [u8],
    phy: u32,
    carried: u32,
    sheet: &[u8],
    obey: impl Fn(&mut [Row<WIDTH>], Group, &[u8]) -> Imported,
) -> Result<Imported, Refusal> {
    let (phys, rows) = (phy_table(phys)?, permission_table_mut::<WIDTH>(permissions)?);
    let place = arriving_phy(phys, phy)?;
    refuse_if(sheet.len() > MOST, Refusal::Room)?;
    let arriving = ready(&phys[place])?;
    let carried = u8::try_from(carried).map_err(|_| Refusal::Kind)?;
    let source = source_from_outside(&arriving, carried)?;
    Ok(obey(rows, source, sheet))
}

/// The first line that fails ends it. That is no refusal: what the lines before it did stays.
fn obey_lines<const WIDTH: usize>(rows: &mut [Row<WIDTH>], source: Group, sheet: &[u8]) -> Imported {
    let mut lines = 0;
    for line in sheet.split_inclusive(|&byte| byte == LF) {
        lines += 1;
        if let Err(cause) = obey_line(rows, source, line) {
            return Imported { refusal: 0, lines, cause: cause as u32 };
        }
    }
    Imported { refusal: 0, lines, cause: 0 }
}

/// One single order. The right is asked for here, by the table as the lines before left it.
fn obey_line<const WIDTH: usize>(rows: &mut [Row<WIDTH>], source: Group, line: &[u8]) -> Result<(), Cause> {
    let [a, b, on] = fields(line).ok_or(Cause::BadText)?;
    let on = switch(on).ok_or(Cause::BadText)?;
    fail_if(!is_number(a) || !is_number(b), Cause::BadText)?;
    let (a, b) = (named_group::<WIDTH>(a)?, named_group::<WIDTH>(b)?);
    fail_if(!may_change_zoning(rows, source), Cause::NoRight)?;
    write_pair(rows, a, b, on);
    Ok(())
}

/// The three fields of a line with its end: LF, or CR LF. Another CR is a byte of a field.
fn fields(line: &[u8]) -> Option<[&str; 3]> {
    let text = str::from_utf8(line).ok()?.strip_suffix('\n')?;
    let text = text.strip_suffix('\r').unwrap_or(text);
    let mut fields = text.split(',');
    let three = [fields.next()?, fields.next()?, fields.next()?];
    fields.next().is_none().then_some(three)
}

fn switch(field: &str) -> Option<bool> {
    match field {
        "1" => Some(true),
        "0" => Some(false),
        _ => None,
    }
}

/// Decimal digits, as many as there are, and no zero before others.
fn is_number(field: &str) -> bool {
    let digits = !field.is_empty() && field.bytes().all(|byte| byte.is_ascii_digit());
    digits && (field == "0" || !field.starts_with('0'))
}

/// The group that a number names. One that does not fit into a byte is above all groups.
fn named_group<const WIDTH: usize>(number: &str) -> Result<Group, Cause> {
    let group = number.parse().ok().and_then(Group::from_outside);
    group.filter(|group| named::<WIDTH>().contains(&group.index())).ok_or(Cause::NoSuchGroup)
}

/// The groups that an order may name.
fn named<const WIDTH: usize>() -> Range<usize> {
    FIRST_NAMED..groups_of_table(WIDTH)
}

fn fail_if(fails: bool, cause: Cause) -> Result<(), Cause> {
    if fails {
        Err(cause)
    } else {
        Ok(())
    }
}

/// With the pairs written in this way.
pub(crate) fn try_export<const WIDTH: usize>(
    permissions: &[u8],
    sheet: &mut [u8],
    write: impl Fn(&[Row<WIDTH>], &mut [u8]) -> usize,
) -> Result<usize, Refusal> {
    let rows = permission_table(permissions)?;
    room(sheet, MOST)?;
    Ok(write(rows, sheet))
}

/// A line for each pair, by the row of its lower group. Answers how many bytes they are.
fn write_pairs<const WIDTH: usize>(rows: &[Row<WIDTH>], sheet: &mut [u8]) -> usize {
    let reaches = |a: usize, b: usize| permitted(rows, Group::low_7_bits(a as u8), Group::low_7_bits(b as u8));
    let pairs = named::<WIDTH>().flat_map(|a| (a..groups_of_table(WIDTH)).map(move |b| (a, b)));
    let lines = pairs.filter(|&(a, b)| reaches(a, b)).map(|(a, b)| format!("{a},{b},1\r\n"));
    let text: String = lines.collect();
    sheet[..text.len()].copy_from_slice(text.as_bytes());
    text.len()
}
