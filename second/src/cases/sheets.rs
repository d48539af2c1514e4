//! Zone sheets, worked out by hand from request 07 of document 02 and from what `include/shelf.h` and `include/small.h` settle.
//!
//! Groups 2 to 7 are on both shelves, so most cases are the same on both. The rack's phys 0 and 7 are in group 1, which has the
//! right; phy 7 participates. Phy 1 is in group 2, phy 2 in group 8.

use super::*;
use crate::trial::profile::Profile;
use crate::{large, small, Exported, Imported};

/// 88,011 bytes are room enough; these are a few more, to see that they stay.
const PAPER: usize = 88_020;

const BAD_TEXT: u32 = 1;
const NO_SUCH_GROUP: u32 = 2;
const NO_RIGHT: u32 = 3;

#[derive(Clone, Debug, PartialEq, Eq)]
struct Shelf {
    profile: Profile,
    phys: Vec<u8>,
    permissions: Vec<u8>,
}

/// The bench rack's phys, with either shelf's permissions as at start-up.
fn fresh(profile: Profile) -> Shelf {
    Shelf { profile, phys: Rack::default().phys, permissions: profile.fresh_table() }
}

fn both(case: impl Fn(Shelf)) {
    Profile::ALL.map(fresh).into_iter().for_each(case);
}

impl Shelf {
    fn import(&mut self, phy: u32, carried: u32, sheet: &[u8]) -> Imported {
        let import = match self.profile {
            Profile::Large => large::import,
            Profile::Small => small::import,
        };
        import(&self.phys, &mut self.permissions, phy, carried, sheet)
    }

    /// From phy 0.
    fn give(&mut self, sheet: &str) -> Imported {
        self.import(0, 0, sheet.as_bytes())
    }

    /// A sheet that is done with, of so many lines.
    fn obey(&mut self, sheet: &str, lines: u32) {
        assert_eq!(self.give(sheet), done(lines), "{sheet:?}");
    }

    fn export(&self, sheet: &mut [u8]) -> Exported {
        match self.profile {
            Profile::Large => large::export(&self.permissions, sheet),
            Profile::Small => small::export(&self.permissions, sheet),
        }
    }

    /// What is exported. No byte beyond it is written.
    fn text(&self) -> String {
        let mut sheet = vec![STAYS; PAPER];
        let Exported { refusal, length } = self.export(&mut sheet);
        let (written, rest) = sheet.split_at(length as usize);
        assert_eq!(refusal, 0);
        assert!(rest.iter().all(|&byte| byte == STAYS));
        str::from_utf8(written).unwrap().to_string()
    }

    /// The result of a single order without UPDATE COMPLETE.
    fn single(&mut self, phy: u32, [a, b, on]: [u8; 3]) -> u32 {
        let request = [0x40, 0xc1, 0, 2, 0, 0, a, b | on << 7, 0, 0x80, 0, 0];
        let (mut response, mut set) = ([0; 1020], [0; 16]);
        let Shelf { profile, phys, permissions } = self;
        let smp = match profile {
            Profile::Large => large::smp,
            Profile::Small => small::smp,
        };
        let answer = smp(phys, permissions, phy, 0, 0, 0, &request, &mut response, &mut set);
        assert_eq!((answer.refusal, answer.count), (0, 0));
        answer.result
    }

    /// The last byte of a row: groups 0 to 7, group j in bit j, on both shelves.
    fn low(&mut self, group: usize) -> &mut u8 {
        let width = self.profile.width();
        &mut self.permissions[width * group + width - 1]
    }

    /// Each of these fails in its only line for this cause, and changes nothing.
    fn fails(&self, cause: u32, sheets: &[&str]) {
        for sheet in sheets {
            let mut shelf = self.clone();
            assert_eq!(shelf.give(sheet), failed(1, cause), "{}: {sheet:?}", self.profile);
            assert_eq!(shelf, *self);
        }
    }
}

fn done(lines: u32) -> Imported {
    Imported { refusal: 0, lines, cause: 0 }
}

fn failed(line: u32, cause: u32) -> Imported {
    Imported { refusal: 0, lines: line, cause }
}

fn refused(refusal: u32) -> Imported {
    Imported { refusal, lines: 0, cause: 0 }
}

#[test]
fn a_line_switches_both_places() {
    both(|mut shelf| {
        let before = shelf.clone();
        shelf.obey("3,5,1\r\n", 1);
        assert_eq!((*shelf.low(3), *shelf.low(5)), (0x22, 0x0a));
        let mut expected = before.clone();
        (*expected.low(3), *expected.low(5)) = (0x22, 0x0a);
        assert_eq!(shelf, expected, "and nothing else");
        shelf.obey("5,3,0\n", 1);
        assert_eq!(shelf, before);
        shelf.obey("4,4,1\n", 1);
        assert_eq!(*shelf.low(4), 0x12, "a group and itself");
    });
}

#[test]
fn case_1_of_document_01_as_a_line() {
    let mut shelf = fresh(Profile::Large);
    shelf.obey("8,9,1\r\n", 1);
    let mut expected = fresh(Profile::Large);
    expected.permissions[16 * 8 + 14] = 0x02;
    expected.permissions[16 * 9 + 14] = 0x01;
    assert_eq!(shelf, expected);
    fresh(Profile::Small).fails(NO_SUCH_GROUP, &["8,9,1\r\n"]);
}

#[test]
fn a_line_ends_with_lf_or_cr_lf() {
    both(|mut shelf| {
        shelf.obey("3,5,1\n", 1);
        shelf.obey("3,5,0\r\n", 1);
        shelf.obey("3,5,1\r\n3,6,1\n3,7,1\r\n", 3);
        assert_eq!(*shelf.low(3), 0xe2);
    });
}

#[test]
fn any_other_cr_is_bad_text() {
    both(|shelf| {
        shelf.fails(BAD_TEXT, &["3,5,1\r\r\n", "3,5,1\r", "\r3,5,1\n", "3\r,5,1\n", "3,5\r,1\r\n", "3,\r5,1\n"]);
        shelf.fails(BAD_TEXT, &["3,5,1\r3,6,1\n", "3,5,1\r3,6,1\r\n", "\r\r\n", "\r", "3,5,\r\n", "3,5\r\n"]);
        let mut shelf = shelf;
        assert_eq!(shelf.give("3,5,1\n\r3,6,1\n"), failed(2, BAD_TEXT), "LF CR");
        assert_eq!(*shelf.low(3), 0x22);
    });
}

#[test]
fn an_empty_line_is_bad_text_and_so_is_a_last_line_without_an_end() {
    both(|shelf| {
        shelf.fails(BAD_TEXT, &["\n", "\r\n", "\n3,5,1\n", "3,5,1", "3", "3,5", "3,5,"]);
        for (sheet, line) in [
            ("3,5,1\n\n", 2),
            ("3,5,1\r\n\r\n", 2),
            ("3,5,1\n3,6,1", 2),
            ("3,5,1\n3,5,1\n3,6,1\r", 3),
            ("3,5,1\n\n3,6,1\n", 2),
        ] {
            let mut shelf = shelf.clone();
            assert_eq!(shelf.give(sheet), failed(line, BAD_TEXT), "{sheet:?}");
            assert_eq!(*shelf.low(3), 0x22, "the first line stays, and the last is not done");
        }
    });
}

#[test]
fn numbers_have_no_leading_zeros() {
    both(|shelf| {
        shelf.fails(BAD_TEXT, &["03,5,1\n", "3,05,1\n", "3,5,01\n", "3,5,00\n", "003,5,1\n", "3,0005,0\r\n"]);
        shelf.fails(BAD_TEXT, &["00,5,1\n", "02,5,1\n", "3,00,1\n", "3,02,1\n", "01,5,1\n", "0128,3,1\n"]);
        shelf.fails(BAD_TEXT, &[&format!("{}3,5,1\n", "0".repeat(1000))]);
        shelf.fails(NO_SUCH_GROUP, &["0,5,1\n", "1,5,1\n", "3,0,1\n", "3,1,0\r\n", "0,0,0\n", "1,1,1\n"]);
    });
}

#[test]
fn a_number_may_have_any_number_of_digits() {
    both(|shelf| {
        let nines = format!("{},3,1\n", "9".repeat(30));
        shelf.fails(NO_SUCH_GROUP, &["1000,3,1\n", "3,1000,1\r\n", &nines]);
        // Cut to 8, 16, 32, 64 and 128 bits these would all be 3.
        for cut in ["259", "65539", "4294967299", "18446744073709551619", "340282366920938463463374607431768211459"] {
            shelf.fails(NO_SUCH_GROUP, &[&format!("{cut},4,1\n"), &format!("4,{cut},1\r\n")]);
        }
        let long = format!("{},3,1\n", "1".repeat(88_006));
        assert_eq!(long.len(), 88_011);
        shelf.fails(NO_SUCH_GROUP, &[&long]);
        shelf.fails(BAD_TEXT, &[&long[..88_010], &long.replace(",1\n", ",01")]);
    });
}

#[test]
fn groups_go_from_2_to_127() {
    let mut shelf = fresh(Profile::Large);
    shelf.obey("2,127,1\n127,127,1\r\n100,99,1\n10,9,1\n", 4);
    assert_eq!(shelf.text(), "2,127,1\r\n9,10,1\r\n99,100,1\r\n127,127,1\r\n");
    shelf.fails(
        NO_SUCH_GROUP,
        &["128,3,1\n", "3,128,1\n", "129,3,0\n", "255,3,1\n", "256,3,1\n", "264,3,1\n", "3,264,1\n"],
    );
}

#[test]
fn and_on_the_small_shelf_to_7() {
    let mut shelf = fresh(Profile::Small);
    shelf.obey("2,7,1\n7,7,1\r\n", 2);
    assert_eq!(shelf.permissions, [0x02, 0xff, 0x82, 0x02, 0x02, 0x02, 0x02, 0x86]);
    shelf.fails(NO_SUCH_GROUP, &["8,3,1\n", "3,8,1\n", "8,8,0\n", "10,3,1\n", "127,3,1\n", "3,127,0\n", "264,3,1\n"]);
}

#[test]
fn the_third_field_is_1_or_0() {
    both(|shelf| {
        for third in ["2", "10", "01", "00", "11", "", "-0", "+1", " 1", "1 ", "\"1\"", "on", "9", "1.0", "\u{0661}"] {
            shelf.fails(BAD_TEXT, &[&format!("3,5,{third}\n"), &format!("3,5,{third}\r\n")]);
        }
    });
}

#[test]
fn no_header_no_quotes_no_spaces_and_three_fields() {
    both(|shelf| {
        shelf
            .fails(BAD_TEXT, &["group,group,on\r\n3,5,1\r\n", "\"3\",\"5\",\"1\"\n", "\"3\",5,1\n", "\u{feff}3,5,1\n"]);
        shelf.fails(BAD_TEXT, &[" 3,5,1\n", "3 ,5,1\n", "3, 5,1\n", "3,5 ,1\n", "3,5,1 \n", "3,5,1 \r\n", "\t3,5,1\n"]);
        shelf.fails(
            BAD_TEXT,
            &["3\n", "3,5\n", "3,5,1,\n", "3,5,1,1\n", ",3,5,1\n", "3;5;1\n", ",,\n", ",5,1\n", "3,,1\n"],
        );
        shelf.fails(
            BAD_TEXT,
            &["+3,5,1\n", "-3,5,1\n", "3.0,5,1\n", "0x3,5,1\n", "3\0,5,1\n", "\u{ff13},5,1\n", "3e0,5,1\n"],
        );
        let mut shelf = shelf;
        assert_eq!(shelf.import(0, 0, b"\xff,5,1\n"), failed(1, BAD_TEXT), "no text at all");
        assert_eq!(shelf.import(0, 0, b"3,5,1\n\x80"), failed(2, BAD_TEXT));
    });
}

#[test]
fn of_several_causes_in_a_line_the_first_counts() {
    both(|mut shelf| {
        shelf.fails(BAD_TEXT, &["1,5,2\n", "128,05,1\n", "0,5,1", "3,999,\n", "1,1,1,1\n"]);
        for (sheet, cause) in [
            ("1,5,2\n", BAD_TEXT),
            ("3,5,1", BAD_TEXT),
            ("\n", BAD_TEXT),
            ("1,5,1\n", NO_SUCH_GROUP),
            ("3,128,0\n", NO_SUCH_GROUP),
            ("3,5,1\n", NO_RIGHT),
            ("3,5,0\n", NO_RIGHT),
        ] {
            let before = shelf.clone();
            assert_eq!(shelf.import(2, 0, sheet.as_bytes()), failed(1, cause), "without the right: {sheet:?}");
            assert_eq!(shelf, before);
        }
    });
}

#[test]
fn the_first_line_that_fails_ends_it_and_the_lines_before_stay() {
    both(|shelf| {
        for (bad, cause) in [("3,4,2", BAD_TEXT), ("1,4,1", NO_SUCH_GROUP), ("3,128,1", NO_SUCH_GROUP)] {
            let mut shelf = shelf.clone();
            assert_eq!(shelf.give(&format!("3,5,1\n3,6,1\r\n{bad}\n3,7,1\n3,5,0\n")), failed(3, cause));
            assert_eq!((*shelf.low(3), *shelf.low(5), *shelf.low(6), *shelf.low(7)), (0x62, 0x0a, 0x0a, 0x02));
        }
    });
}

#[test]
fn a_later_line_overrides() {
    both(|mut shelf| {
        shelf.obey("3,5,1\n5,3,0\n3,6,0\n3,6,1\n", 4);
        assert_eq!(shelf.text(), "3,6,1\r\n");
    });
}

/// Phy 1 is in group 2, which has the right once it reaches itself.
#[test]
fn a_sheet_can_take_its_own_callers_right_away() {
    both(|mut shelf| {
        assert_eq!(shelf.import(1, 0, b"3,5,1\n"), failed(1, NO_RIGHT));
        shelf.obey("2,2,1\n", 1);
        for (sheet, said) in [
            ("3,5,1\n2,2,0\n", done(2)),
            ("3,5,1\n2,2,0\n3,6,1\n", failed(3, NO_RIGHT)),
            ("3,5,1\n2,2,0\n2,2,1\n", failed(3, NO_RIGHT)),
            ("3,5,1\n2,2,0\n3,6,1\n3,7,1\n", failed(3, NO_RIGHT)),
            ("3,5,1\n2,2,0\n1,6,1\n", failed(3, NO_SUCH_GROUP)),
            ("3,5,1\n2,2,0\n3,6\n", failed(3, BAD_TEXT)),
        ] {
            let mut shelf = shelf.clone();
            assert_eq!(shelf.import(1, 0, sheet.as_bytes()), said, "{sheet:?}");
            assert_eq!(shelf.text(), "3,5,1\r\n");
            assert_eq!(shelf.import(1, 0, b"3,5,0\n"), failed(1, NO_RIGHT), "it is gone for good");
        }
        let sheet = b"3,5,1\n2,2,0\n3,6,1\n3,7,1\n";
        assert_eq!(shelf.import(0, 0, sheet), done(4), "phy 0 does not hang on it");
    });
}

#[test]
fn the_right_is_that_of_the_source_group_to_group_2() {
    let mut shelf = fresh(Profile::Large);
    shelf.permissions[16 * 2 + 14] |= 1;
    assert_eq!(shelf.import(2, 0, b"3,5,1\n"), failed(1, NO_RIGHT), "2 reaches 8, but 8 does not reach 2");
    shelf.obey("8,2,1\n", 1);
    assert_eq!(shelf.import(2, 0, b"3,5,1\n8,2,0\n3,6,1\n"), failed(3, NO_RIGHT));
    assert_eq!(shelf.text(), "3,5,1\r\n");
    let mut shelf = fresh(Profile::Small);
    shelf.permissions = vec![0xff; 8];
    assert_eq!(shelf.import(2, 0, b"3,5,0\n"), failed(1, NO_RIGHT), "group 8 reaches only group 1");
}

#[test]
fn an_empty_sheet_is_done_also_without_the_right() {
    both(|mut shelf| {
        let before = shelf.clone();
        for phy in 0..8 {
            assert_eq!(shelf.import(phy, 0, b""), done(0));
        }
        assert_eq!(shelf, before);
    });
}

#[test]
fn the_carried_group_counts_on_a_participating_phy() {
    both(|mut shelf| {
        assert_eq!(shelf.import(7, 1, b"3,5,1\n"), done(1));
        for carried in [0, 2, 8, 127] {
            assert_eq!(shelf.import(7, carried, b"3,5,0\n"), failed(1, NO_RIGHT), "carried {carried}");
            assert_eq!(shelf.import(0, carried, b"3,5,1\n"), done(1), "phy 0 does not participate");
            assert_eq!(shelf.import(2, carried, b"3,5,0\n"), failed(1, NO_RIGHT));
        }
        for carried in [128, 129, 255] {
            assert_eq!(shelf.import(7, carried, b"3,5,0\n"), refused(5), "carried {carried}");
            assert_eq!(shelf.import(7, carried, b""), refused(5));
            assert_eq!(shelf.import(0, carried, b"3,5,1\n"), done(1));
        }
        for carried in [256, 257, 65_537, u32::MAX] {
            for phy in [0, 2, 7] {
                assert_eq!(shelf.import(phy, carried, b"3,5,0\n"), refused(5), "carried {carried}");
                assert_eq!(shelf.import(phy, carried, b""), refused(5));
            }
        }
        assert_eq!(shelf.text(), "3,5,1\r\n");
    });
}

/// All is wrong at first, and then one thing after the other is made right.
#[test]
fn refusals_in_order() {
    both(|right| {
        let expect = |shelf: &Shelf, phy, carried, sheet: &[u8], said| {
            let mut shelf = shelf.clone();
            let before = shelf.clone();
            assert_eq!(shelf.import(phy, carried, sheet), said);
            assert!(said.refusal == 0 || shelf == before, "a refused call writes nothing");
        };
        let (long, good) = (b"3,5,1\n".repeat(14_669), b"3,5,1\n");
        assert_eq!(long.len(), 88_014);
        let mut wrong = right.clone();
        wrong.permissions.pop();
        wrong.phys[16 * 7 + 2] = 0;
        expect(&wrong, 8, 128, &long, refused(1));
        wrong.permissions.push(STAYS);
        wrong.phys.push(0);
        expect(&wrong, 8, 128, &long, refused(1));
        wrong.phys.pop();
        for phy in [8, 128, 256, 256 + 7, u32::MAX] {
            expect(&wrong, phy, 128, &long, refused(2));
        }
        expect(&wrong, 7, 128, &long, refused(3));
        expect(&wrong, 7, 128, b"bad text", refused(7));
        wrong.phys[16 * 7 + 2] = 3;
        expect(&wrong, 7, 128, b"bad text", refused(5));
        expect(&wrong, 7, 127, b"bad text", failed(1, BAD_TEXT));
        expect(&right, 7, 1, good, done(1));
    });
}

#[test]
fn a_sheet_has_at_most_88_011_bytes() {
    let mut shelf = fresh(Profile::Large);
    let lines = "100,100,1\r\n".repeat(8_001);
    assert_eq!(lines.len(), 88_011);
    shelf.obey(&lines, 8_001);
    assert_eq!(shelf.text(), "100,100,1\r\n");
    both(|mut shelf| {
        shelf.obey(&"2,3,1\r\n".repeat(12_573), 12_573);
        let most = format!("{}3,5,1\r\n3,6,1\r\n3,7,1\r\n", "2,3,1\n".repeat(14_665));
        assert_eq!(most.len(), 88_011);
        shelf.obey(&most, 14_668);
        assert_eq!(shelf.text(), "2,3,1\r\n3,5,1\r\n3,6,1\r\n3,7,1\r\n");
        for more in ["\n", "2,3,0\n", "x"] {
            assert_eq!(shelf.give(&format!("{most}{more}")), refused(3));
        }
        assert_eq!(shelf.give(&most[..88_010]), failed(14_668, BAD_TEXT));
    });
}

#[test]
fn nothing_is_exported_at_start_up() {
    both(|shelf| assert_eq!(shelf.text(), ""));
}

#[test]
fn pairs_are_exported_ascending_by_number() {
    both(|mut shelf| {
        shelf.obey("7,2,1\n5,3,1\n6,6,1\n2,2,1\n3,3,1\n5,3,0\n4,3,1\n", 7);
        assert_eq!(shelf.text(), "2,2,1\r\n2,7,1\r\n3,3,1\r\n3,4,1\r\n6,6,1\r\n");
    });
    let mut shelf = fresh(Profile::Large);
    shelf.obey("100,9,1\n9,99,1\n10,9,1\n9,9,1\n100,99,1\n2,127,1\n20,3,1\n", 7);
    assert_eq!(shelf.text(), "2,127,1\r\n3,20,1\r\n9,9,1\r\n9,10,1\r\n9,99,1\r\n9,100,1\r\n99,100,1\r\n");
}

/// Each group from 2 to 127 is 127 times in the 8,001 pairs, with 8 + 2 * 90 + 3 * 28 digits in all; five bytes more a line.
#[test]
fn the_longest_export() {
    assert_eq!(127 * (8 + 2 * 90 + 3 * 28) + 5 * 8_001, 74_549);
    for (profile, lines, length, last) in
        [(Profile::Large, 8_001, 74_549, "127,127,1\r\n"), (Profile::Small, 21, 147, "7,7,1\r\n")]
    {
        let mut shelf = fresh(profile);
        shelf.permissions.fill(0xff);
        let text = shelf.text();
        assert_eq!((text.lines().count(), text.len()), (lines, length));
        assert!(text.starts_with("2,2,1\r\n2,3,1\r\n2,4,1\r\n") && text.ends_with(last));
        let mut exact = vec![STAYS; 88_011];
        assert_eq!(shelf.export(&mut exact), Exported { refusal: 0, length: length as u32 });
        assert_eq!((&exact[..length], exact[length]), (text.as_bytes(), STAYS));
    }
}

#[test]
fn the_lower_groups_row_decides() {
    both(|mut shelf| {
        *shelf.low(3) |= 1 << 5;
        *shelf.low(6) |= 1 << 4;
        *shelf.low(0) = 0xff;
        *shelf.low(2) |= 1;
        assert_eq!(shelf.text(), "3,5,1\r\n", "row 6 says of 4 what row 4 does not, and rows 0 and 1 say nothing");
    });
}

#[test]
fn an_export_is_refused_1_and_then_3() {
    both(|shelf| {
        let expect = |shelf: &Shelf, room, refusal| {
            let mut sheet = vec![STAYS; room];
            assert_eq!(shelf.export(&mut sheet), Exported { refusal, length: 0 });
            assert!(sheet.iter().all(|&byte| byte == STAYS));
        };
        for room in [0, 7, 147, 74_549, 88_010] {
            expect(&shelf, room, 3);
        }
        expect(&shelf, 88_011, 0);
        for size in [0, 7, 9, 2047, 2049, shelf.profile.other().table_size()] {
            let other = Shelf { permissions: vec![0; size], ..shelf.clone() };
            expect(&other, 88_010, 1);
            expect(&other, 88_011, 1);
        }
    });
}

#[test]
fn an_export_gives_its_table_back() {
    both(|shelf| {
        let last = shelf.profile.groups_of_table() - 1;
        let all: String = (2..=last).flat_map(|a| (2..=a).map(move |b| format!("{a},{b},1\n"))).collect();
        let few = format!("2,2,1\n2,{last},1\n{last},{last},1\n3,5,1\n3,5,0\n7,4,1\r\n");
        let most = format!("{all}2,2,0\n{last},3,0\n5,5,0\n");
        for orders in ["", &few, &all, &most] {
            let mut ordered = shelf.clone();
            let given = orders.lines().count() as u32;
            ordered.obey(orders, given);
            let text = ordered.text();
            let mut back = shelf.clone();
            assert_eq!(back.give(&text), done(text.lines().count() as u32));
            assert_eq!(back, ordered);
        }
    });
}

/// But for the right, which an order asks for first and a line last.
#[test]
fn a_line_does_what_the_single_order_does() {
    const GROUPS: [u8; 12] = [0, 1, 2, 3, 6, 7, 8, 9, 64, 100, 126, 127];
    both(|mut shelf| {
        shelf.obey("2,2,1\n3,7,1\n6,6,1\n", 3);
        let orders = GROUPS.iter().flat_map(|&a| GROUPS.iter().flat_map(move |&b| [[a, b, 1], [a, b, 0]]));
        for order in orders {
            for phy in [0, 1, 2] {
                let [mut by_order, mut by_line] = [0, 1].map(|_| shelf.clone());
                let result = by_order.single(phy, order);
                let [a, b, on] = order;
                let said = by_line.import(phy, 0, format!("{a},{b},{on}\n").as_bytes());
                let names = [a, b].iter().all(|&group| (2..shelf.profile.groups_of_table()).contains(&group.into()));
                let expected = match (phy, names) {
                    (2, true) => (1, failed(1, NO_RIGHT)),
                    (2, false) => (1, failed(1, NO_SUCH_GROUP)),
                    (_, true) => (0, done(1)),
                    (_, false) => (2, failed(1, NO_SUCH_GROUP)),
                };
                assert_eq!((result, said), expected, "{}: {order:?} from phy {phy}", shelf.profile);
                assert_eq!(by_order, by_line);
            }
        }
    });
}
