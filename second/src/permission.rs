//! The permission table: reading it, start-up, and writing orders into it.
//!
//! Group j is bit j mod 8 of byte 15 - j/8 of a row. So a row, read as one big-endian number, has group j at bit j:
//! whole rows are handled as such numbers, single bits by their place. A row of the small shelf is the last byte of
//! such a row.

use crate::refusals::{number, Refusal};
use crate::tables::{permission_table_mut, Group, Row, WireRow, LARGE};

/// Bits of a row for groups 0 and 1, which no order names.
const UNNAMED: u128 = 0b11;

/// The first group that an order may name.
pub const FIRST_NAMED: usize = 2;

/// A caller may change zoning exactly if its group reaches this one.
const MANAGEMENT: u8 = 2;

/// The group that reaches every group which the table does not have, and the only one that those reach.
const GROUP_1: usize = 1;

/// A row in which only group 1 is on.
pub(crate) const GROUP_1_ALONE: u128 = 1 << GROUP_1;

/// Start-up: group 1 reaches all groups, every other group only group 1.
pub fn start_up<const WIDTH: usize>(permissions: &mut [u8]) -> u32 {
    number(try_start_up::<WIDTH>(permissions))
}

fn try_start_up<const WIDTH: usize>(permissions: &mut [u8]) -> Result<(), Refusal> {
    let rows = permission_table_mut::<WIDTH>(permissions)?;
    rows.fill(row_of(GROUP_1_ALONE));
    rows[GROUP_1] = row_of(u128::MAX);
    Ok(())
}

/// P(a, b): the table's bit where it has both groups. Groups that it does not have reach only group 1 and are reached
/// only by it.
pub fn permitted<const WIDTH: usize>(rows: &[Row<WIDTH>], a: Group, b: Group) -> bool {
    match rows.get(a.index()) {
        Some(row) if b.is_in_table(WIDTH) => is_on(row, b.index()),
        _ => a.index() == GROUP_1 || b.index() == GROUP_1,
    }
}

/// Rows of P from `start` on, as a report shows them: those of the table, and then those of groups that it does not
/// have. Of the first only row 1 reaches such groups.
pub fn show_rows<const WIDTH: usize>(rows: &[Row<WIDTH>], start: usize, shown: &mut [WireRow]) {
    let in_table = rows.get(start..).unwrap_or_default();
    let (first, others) = shown.split_at_mut(shown.len().min(in_table.len()));
    for (shown, row) in first.iter_mut().zip(in_table) {
        *shown = number_of(row).to_be_bytes();
    }
    others.fill(GROUP_1_ALONE.to_be_bytes());
    if let Some(row_1) = GROUP_1.checked_sub(start).and_then(|place| first.get_mut(place)) {
        row_1[..LARGE - WIDTH].fill(0xff);
    }
}

/// Whether a caller of this group may change zoning.
pub fn may_change_zoning<const WIDTH: usize>(rows: &[Row<WIDTH>], source: Group) -> bool {
    permitted(rows, source, Group::low_7_bits(MANAGEMENT))
}

/// A single order: the new value goes to both places.
pub fn write_pair<const WIDTH: usize>(rows: &mut [Row<WIDTH>], a: Group, b: Group, on: bool) {
    write_one(&mut rows[a.index()], b.index(), on);
    write_one(&mut rows[b.index()], a.index(), on);
}

/// One row of a batch: for every j from 2 to the table's last group both (r, j) and (j, r). The row's bits for groups
/// that the table does not have are ignored.
pub fn write_row<const WIDTH: usize>(rows: &mut [Row<WIDTH>], r: usize, new: &WireRow) {
    let new = new.last_chunk().expect("no table is wider");
    let [old, named] = [&rows[r], new].map(number_of);
    rows[r] = row_of(named & !UNNAMED | old & UNNAMED);
    for (j, row) in rows.iter_mut().enumerate().skip(FIRST_NAMED) {
        write_one(row, r, is_on(new, j));
    }
}

/// A row as a number, with group j at bit j.
fn number_of<const WIDTH: usize>(row: &Row<WIDTH>) -> u128 {
    let mut wide = [0; LARGE];
    wide[LARGE - WIDTH..].copy_from_slice(row);
    u128::from_be_bytes(wide)
}

/// The other way round. Bits for groups that the row does not have are lost.
pub(crate) fn row_of<const WIDTH: usize>(number: u128) -> Row<WIDTH> {
    *number.to_be_bytes().last_chunk().expect("no table is wider")
}

fn is_on<const WIDTH: usize>(row: &Row<WIDTH>, group: usize) -> bool {
    let (byte, bit) = place::<WIDTH>(group);
    row[byte] >> bit & 1 == 1
}

fn write_one<const WIDTH: usize>(row: &mut Row<WIDTH>, group: usize, on: bool) {
    let (byte, bit) = place::<WIDTH>(group);
    row[byte] = row[byte] & !(1 << bit) | u8::from(on) << bit;
}

/// Where a group's bit is in a row.
pub(crate) fn place<const WIDTH: usize>(group: usize) -> (usize, usize) {
    (WIDTH - 1 - group / 8, group % 8)
}

#[cfg(test)]
mod tests {
    use super::*;
    use crate::tables::GROUPS;

    fn group(number: u8) -> Group {
        Group::low_7_bits(number)
    }

    fn fresh() -> [Row<LARGE>; GROUPS] {
        let mut table = [0xaa; 2048];
        assert_eq!(start_up::<LARGE>(&mut table), 0);
        table.as_chunks().0.try_into().unwrap()
    }

    #[test]
    fn start_up_rows_as_written_in_the_text() {
        let rows = fresh();
        let mut plain = [0; 16];
        plain[15] = 0x02;
        for (number, row) in rows.iter().enumerate() {
            assert_eq!(*row, if number == 1 { [0xff; 16] } else { plain }, "row {number}");
        }
    }

    #[test]
    fn start_up_refuses_another_size_and_writes_nothing() {
        let mut short = [0xaa; 2047];
        assert_eq!(start_up::<LARGE>(&mut short), 1);
        assert_eq!(short, [0xaa; 2047]);
    }

    #[test]
    fn byte_0_bit_7_is_group_127_and_byte_15_bit_0_is_group_0() {
        let mut rows = [[0; 16]; GROUPS];
        rows[5][0] = 0x80;
        rows[6][15] = 0x01;
        assert!(permitted(&rows, group(5), group(127)));
        assert!(!permitted(&rows, group(5), group(0)));
        assert!(permitted(&rows, group(6), group(0)));
        assert!(!permitted(&rows, group(6), group(127)));
    }

    #[test]
    fn no_group_but_1_reaches_itself_at_start_up() {
        let rows = fresh();
        let reflexive = (0..128).filter(|&a| permitted(&rows, group(a), group(a)));
        assert_eq!(reflexive.collect::<Vec<_>>(), [1]);
    }

    #[test]
    fn a_pair_is_written_in_both_places_and_nowhere_else() {
        let mut rows = fresh();
        write_pair(&mut rows, group(8), group(127), true);
        let mut expected = fresh();
        expected[8][0] = 0x80;
        expected[127][14] = 0x01;
        assert_eq!(rows, expected);
        write_pair(&mut rows, group(127), group(8), false);
        assert_eq!(rows, fresh());
    }

    #[test]
    fn a_row_leaves_groups_0_and_1_alone() {
        let mut rows = fresh();
        write_row(&mut rows, 9, &[0xff; 16]);
        assert_eq!(rows[9], (u128::MAX - 1).to_be_bytes(), "bit 0 stays off, bit 1 stays on");
        assert_eq!(rows[0], fresh()[0]);
        assert_eq!(rows[1], [0xff; 16]);
        for j in (2..128).filter(|&j| j != 9) {
            assert_eq!(u128::from_be_bytes(rows[j]), 0b10 | 1 << 9, "row {j}");
        }
        write_row(&mut rows, 9, &[0; 16]);
        assert_eq!(rows, fresh());
    }
}
