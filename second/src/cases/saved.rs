//! Saved zoning, worked out by hand from request 08 of document 02 and from what `include/shelf.h` and `include/small.h` settle.
//!
//! Groups 2 to 7 are on both shelves, so most cases are the same on both.

use super::*;
use crate::tables::Group;
use crate::trial::profile::Profile;
use crate::{large, small, Loaded, Saved};

/// 16,400 bytes are room enough; these are a few more, to see that they stay.
const PAPER: usize = 16_410;

#[derive(Clone, Debug, PartialEq, Eq)]
struct Shelf {
    profile: Profile,
    phys: Vec<u8>,
    permissions: Vec<u8>,
}

/// Two phys in groups 1 and 2, of which the first participates, and permissions as at start-up.
fn fresh(profile: Profile) -> Shelf {
    let mut phys = Rack::default().phys[..2 * RECORD].to_vec();
    phys[..2].copy_from_slice(&[0x1f, 1]);
    Shelf { profile, phys, permissions: profile.fresh_table() }
}

fn both(case: impl Fn(Shelf)) {
    Profile::ALL.map(fresh).into_iter().for_each(case);
}

impl Shelf {
    fn save(&self, version: u32, file: &mut [u8]) -> Saved {
        let Shelf { profile, phys, permissions } = self;
        match (profile, version) {
            (Profile::Large, 1) => large::save_version_1(permissions, file),
            (Profile::Large, _) => large::save_version_2(phys, permissions, file),
            (Profile::Small, 1) => small::save_version_1(permissions, file),
            (Profile::Small, _) => small::save_version_2(phys, permissions, file),
        }
    }

    /// By the reader of this version.
    fn load(&mut self, reader: u32, file: &[u8]) -> Loaded {
        let Shelf { profile, phys, permissions } = self;
        match (profile, reader) {
            (Profile::Large, 1) => large::load_version_1(permissions, file),
            (Profile::Large, _) => large::load_version_2(phys, permissions, file),
            (Profile::Small, 1) => small::load_version_1(permissions, file),
            (Profile::Small, _) => small::load_version_2(phys, permissions, file),
        }
    }

    /// The file that is saved. No byte beyond it is written.
    fn file(&self, version: u32) -> Vec<u8> {
        let mut file = vec![STAYS; PAPER];
        let Saved { refusal, length } = self.save(version, &mut file);
        let (written, rest) = file.split_at(length as usize);
        assert_eq!(refusal, 0);
        assert!(rest.iter().all(|&byte| byte == STAYS));
        written.to_vec()
    }

    fn with_pairs(mut self, pairs: &[[u8; 2]]) -> Shelf {
        for &[a, b] in pairs {
            let [a, b] = [a, b].map(Group::low_7_bits);
            self.profile.write(&mut self.permissions, a, b, true);
            self.profile.write(&mut self.permissions, b, a, true);
        }
        self
    }

    /// Every pair from 2 to the last group is on.
    fn with_all_pairs(self) -> Shelf {
        let groups = self.profile.groups_of_table() as u8;
        let pairs: Vec<[u8; 2]> = (2..groups).flat_map(|a| (a..groups).map(move |b| [a, b])).collect();
        self.with_pairs(&pairs)
    }

    fn with_phys(self, count: usize) -> Shelf {
        Shelf { phys: self.phys[RECORD..].repeat(count), ..self }
    }

    fn with_zone(mut self, phy: usize, zone: [u8; 2]) -> Shelf {
        self.phys[RECORD * phy..][..2].copy_from_slice(&zone);
        self
    }

    /// Each of these files is refused with this number and nothing is written.
    fn refuses(&self, reader: u32, refusal: u32, files: &[&[u8]]) {
        for file in files {
            let mut shelf = self.clone();
            let expected = Loaded { refusal, version: 0 };
            assert_eq!(shelf.load(reader, file), expected, "{}: {file:02x?}", self.profile);
            assert_eq!(shelf, *self);
        }
    }

    /// This shelf's tables are refused with this number and nothing is written.
    fn is_not_saved(&self, versions: &[u32], refusal: u32) {
        for &version in versions {
            let mut file = vec![STAYS; PAPER];
            assert_eq!(self.save(version, &mut file), Saved { refusal, length: 0 });
            assert!(file.iter().all(|&byte| byte == STAYS));
        }
    }
}

fn loaded(version: u32) -> Loaded {
    Loaded { refusal: 0, version }
}

/// The pairs (2,2), (2,5) and (3,7).
const THREE: [u8; 18] = [2, 2, 2, 5, 3, 7, 0, 1, 0, 3, 0, 0, 0, 0, 0, 0, 0, 18];

/// The pair (2,5), and the zones of the two phys.
const TWO_PHYS: [u8; 22] = [2, 5, 0, 0x1f, 1, 1, 0x00, 2, 0, 2, 0, 2, 0, 1, 0, 0, 0, 0, 0, 0, 0, 22];

/// No pairs.
const EMPTY: [u8; 12] = [0, 1, 0, 0, 0, 0, 0, 0, 0, 0, 0, 12];

/// A file with other bytes from this place on.
fn changed<const LENGTH: usize>(mut file: [u8; LENGTH], place: usize, bytes: &[u8]) -> [u8; LENGTH] {
    file[place..place + bytes.len()].copy_from_slice(bytes);
    file
}

#[test]
fn files_byte_by_byte() {
    both(|shelf| {
        assert_eq!(shelf.file(1), EMPTY);
        assert_eq!(shelf.clone().with_pairs(&[[7, 3], [2, 2], [5, 2]]).file(1), THREE);
        assert_eq!(shelf.with_pairs(&[[2, 5]]).file(2), TWO_PHYS);
    });
}

#[test]
fn the_longest_files() {
    for (profile, longest) in [(Profile::Large, [16_014, 16_400]), (Profile::Small, [54, 440])] {
        let shelf = fresh(profile).with_all_pairs().with_phys(128);
        let files = [1, 2].map(|version| shelf.file(version));
        assert_eq!(files.each_ref().map(Vec::len), longest);
        for (reader, file) in [(1, &files[0]), (2, &files[0]), (2, &files[1])] {
            let mut other = fresh(profile).with_phys(128);
            other.load(reader, file);
            assert_eq!(other, shelf, "all phys are alike");
        }
    }
}

#[test]
fn a_load_is_start_up_and_then_each_pair() {
    both(|shelf| {
        let mut other = shelf.clone();
        other.permissions.fill(0xa5);
        assert_eq!(other.load(1, &THREE), loaded(1));
        assert_eq!(other, shelf.with_pairs(&[[2, 2], [2, 5], [3, 7]]));
        assert_eq!(other.load(1, &EMPTY), loaded(1), "what was before is forgotten");
        assert_eq!(other.permissions, other.profile.fresh_table());
    });
}

#[test]
fn version_2_writes_bytes_0_and_1_of_every_phy() {
    both(|shelf| {
        let mut other = shelf.clone();
        for record in other.phys.as_chunks_mut::<RECORD>().0 {
            record.fill(STAYS);
        }
        assert_eq!(other.load(2, &TWO_PHYS), loaded(2));
        for (phy, record) in other.phys.as_chunks::<RECORD>().0.iter().enumerate() {
            assert_eq!(record[..2], shelf.phys[RECORD * phy..][..2]);
            assert_eq!(record[2..], [STAYS; RECORD - 2]);
        }
        assert_eq!(other.permissions, shelf.with_pairs(&[[2, 5]]).permissions);
    });
}

#[test]
fn the_reader_of_version_2_takes_version_1_and_leaves_the_phys() {
    both(|shelf| {
        let mut other = shelf.clone().with_zone(1, [0xff, 0xff]);
        let phys = other.phys.clone();
        assert_eq!(other.load(2, &THREE), loaded(1));
        assert_eq!(other.phys, phys, "whatever they are");
        assert_eq!(other.permissions, shelf.with_pairs(&[[2, 2], [2, 5], [3, 7]]).permissions);
    });
}

#[test]
fn there_and_back() {
    both(|shelf| {
        let last = shelf.profile.groups_of_table() as u8 - 1;
        let shelf = shelf.with_pairs(&[[2, 3], [last, last], [4, last]]).with_zone(1, [0x0f, last]);
        for (version, reader) in [(1, 1), (1, 2), (2, 2)] {
            let mut other = fresh(shelf.profile).with_zone(1, shelf.phys[RECORD..][..2].try_into().unwrap());
            let file = shelf.file(version);
            assert_eq!(other.load(reader, &file), loaded(version));
            assert_eq!(other, shelf);
            assert_eq!(other.file(version), file);
        }
    });
}

#[test]
fn tables_of_other_sizes() {
    both(|shelf| {
        let size = shelf.permissions.len();
        for permissions in [size - 1, size + 1, 0, shelf.profile.other().table_size()] {
            let shelf = Shelf { permissions: vec![STAYS; permissions], ..shelf.clone() };
            shelf.is_not_saved(&[1, 2], 1);
            shelf.refuses(1, 1, &[&[], &THREE, &TWO_PHYS]);
            shelf.refuses(2, 1, &[&[], &THREE, &TWO_PHYS]);
        }
        for phys in [0, 1, 2 * RECORD - 1, 2 * RECORD + 12, 129 * RECORD] {
            let shelf = Shelf { phys: vec![0; phys], ..shelf.clone() };
            shelf.is_not_saved(&[2], 1);
            shelf.refuses(2, 1, &[&[], &THREE, &TWO_PHYS]);
            assert_eq!(shelf.file(1), EMPTY, "it does not look at them");
        }
    });
}

#[test]
fn room_comes_before_the_tables() {
    both(|shelf| {
        let mut wrong = shelf.clone();
        wrong.permissions.fill(0);
        for (shelf, version) in [(&shelf, 1), (&shelf, 2), (&wrong, 1), (&wrong, 2)] {
            for room in [0, 12, 54, 440, 16_014, 16_399] {
                let mut file = vec![STAYS; room];
                assert_eq!(shelf.save(version, &mut file), Saved { refusal: 3, length: 0 });
                assert!(file.iter().all(|&byte| byte == STAYS));
            }
        }
    });
}

#[test]
fn permissions_that_are_not_as_described() {
    both(|shelf| {
        let switched = |places: &[(u8, u8)]| {
            let mut other = shelf.clone().with_zone(0, [0xff, 0xff]);
            for &(a, b) in places {
                let [a, b] = [a, b].map(Group::low_7_bits);
                let on = !other.profile.permitted(&other.permissions, a, b);
                other.profile.write(&mut other.permissions, a, b, on);
            }
            other
        };
        let wrong: [&[(u8, u8)]; 10] = [
            &[(2, 3)],
            &[(3, 2)],
            &[(7, 0)],
            &[(0, 7)],
            &[(0, 0)],
            &[(1, 1)],
            &[(0, 7), (7, 0)],
            &[(1, 7), (7, 1)],
            &[(0, 1), (1, 0)],
            &[(7, 1)],
        ];
        for places in wrong {
            switched(places).is_not_saved(&[1, 2], 40);
        }
        switched(&[]).is_not_saved(&[2], 41);
    });
}

#[test]
fn phys_that_93h_could_not_have_written() {
    both(|shelf| {
        let last = shelf.profile.groups_of_table() as u8;
        for zone in [[0x10, 2], [0x10, 0], [0x20, 1], [0x40, 1], [0x80, 1], [0, 0x81], [0x10, 0x81], [0, last]] {
            for phy in [0, 1] {
                let shelf = shelf.clone().with_zone(phy, zone);
                shelf.is_not_saved(&[2], 41);
                assert_eq!(shelf.file(1), EMPTY, "version 1 does not look at them");
            }
            let file = changed(TWO_PHYS, 6, &zone);
            shelf.refuses(2, 39, &[&file]);
        }
        for zone in [[0x10, 1], [0x1f, 1], [0x0f, 0], [0, last - 1]] {
            let shelf = shelf.clone().with_zone(1, zone);
            assert_eq!(fresh(shelf.profile).load(2, &shelf.file(2)), loaded(2));
        }
    });
}

#[test]
fn too_short() {
    both(|shelf| {
        for reader in [1, 2] {
            shelf.refuses(reader, 31, &[&[], &EMPTY[1..], &EMPTY[..11], &[0; 11]]);
        }
    });
}

#[test]
fn versions() {
    both(|shelf| {
        let tiny = changed(EMPTY, 0, &[0, 2]);
        shelf.refuses(1, 32, &[&TWO_PHYS, &tiny, &changed(tiny, 8, &[9]), &TWO_PHYS[1..]]);
        for version in [[0, 0], [0, 3], [1, 0], [2, 0], [1, 1], [0xff, 0xff]] {
            for reader in [1, 2] {
                let shorter = &changed(TWO_PHYS, 10, &version)[2..];
                shelf.refuses(reader, 33, &[&changed(THREE, 6, &version), &changed(EMPTY, 0, &version), shorter]);
            }
        }
    });
}

#[test]
fn lengths() {
    both(|shelf| {
        for reader in [1, 2] {
            // The field in the trailer, by each of its bytes and little-endian; and then the count.
            for length in [[0, 0, 0, 17], [0, 0, 0, 19], [0, 0, 1, 18], [0, 1, 0, 18], [1, 0, 0, 18], [18, 0, 0, 0]] {
                shelf.refuses(reader, 34, &[&changed(THREE, 14, &length)]);
            }
            for count in [[0, 2], [0, 4], [3, 0], [0x80, 3], [1, 3]] {
                shelf.refuses(reader, 34, &[&changed(THREE, 8, &count)]);
            }
            let longer = [&[2, 2][..], &changed(THREE, 17, &[20])].concat();
            shelf.refuses(reader, 34, &[&THREE[2..], &[&[2, 2][..], &THREE].concat(), &longer]);
            shelf.refuses(reader, 34, &[&changed(THREE, 9, &[4, 0, 0, 0, 1])]);
        }
        for count in [[0, 1], [0, 3], [2, 0]] {
            shelf.refuses(2, 34, &[&changed(TWO_PHYS, 8, &count)]);
        }
        let twelve = changed(EMPTY, 0, &[0, 2]);
        let thirteen = [&[0][..], &changed(twelve, 11, &[13])].concat();
        shelf.refuses(2, 34, &[&twelve, &thirteen, &changed(TWO_PHYS, 18, &[22, 0, 0, 0])]);
    });
}

#[test]
fn offset() {
    both(|shelf| {
        for offset in [[0, 0, 0, 1], [0, 0, 1, 0], [0, 1, 0, 0], [1, 0, 0, 0]] {
            for reader in [1, 2] {
                let bad_pair = changed(changed(THREE, 0, &[0]), 10, &offset);
                shelf.refuses(reader, 35, &[&changed(THREE, 10, &offset), &bad_pair]);
            }
            let file = changed(TWO_PHYS, 14, &offset);
            shelf.refuses(2, 35, &[&file]);
            shelf.clone().with_phys(3).refuses(2, 35, &[&file]);
        }
    });
}

#[test]
fn phy_count() {
    both(|shelf| {
        for phys in [1, 3, 128] {
            let shelf = shelf.clone().with_phys(phys);
            shelf.refuses(2, 36, &[&TWO_PHYS, &changed(TWO_PHYS, 0, &[0]), &changed(TWO_PHYS, 2, &[9, 0xff])]);
        }
        shelf.refuses(2, 36, &[&[0, 0, 0, 2, 0, 0, 0, 0, 0, 0, 0, 0, 0, 14]]);
    });
}

#[test]
fn pairs() {
    both(|shelf| {
        let beyond = shelf.profile.groups_of_table() as u8;
        let wrong: [&[u8]; 12] = [
            &[0, 2],
            &[1, 2],
            &[0, 0],
            &[5, 2],
            &[2, 2, 2, 2],
            &[2, 5, 2, 4],
            &[3, 3, 2, 7],
            &[3, 7, 2, 2],
            &[2, beyond],
            &[beyond, beyond],
            &[2, 255],
            &[128, 128],
        ];
        for pair in wrong {
            // Where two pairs are wrong together, the third is above both.
            let file = changed(changed(THREE, 0, &[2, 2, 2, 5, 7, 7]), if pair[0] > 7 { 4 } else { 0 }, pair);
            shelf.refuses(1, 37, &[&file]);
            shelf.refuses(2, 37, &[&file]);
        }
        // Before a phy, and before a zone.
        let file = changed(TWO_PHYS, 0, &[5, 2]);
        shelf.refuses(2, 37, &[&file, &changed(file, 2, &[1]), &changed(file, 3, &[0xff])]);
    });
}

#[test]
fn phy_numbers() {
    both(|shelf| {
        for numbers in [[1, 0], [0, 0], [1, 1], [0, 2], [0, 128], [255, 1], [1, 2]] {
            let file = changed(changed(TWO_PHYS, 2, &numbers[..1]), 5, &numbers[1..]);
            shelf.refuses(2, 38, &[&file, &changed(file, 3, &[0xff])]);
        }
    });
}

#[test]
fn every_single_byte_of_a_file_counts() {
    both(|shelf| {
        for place in 0..TWO_PHYS.len() {
            for byte in (0..=255).filter(|&byte| byte != TWO_PHYS[place]) {
                let file = changed(TWO_PHYS, place, &[byte]);
                let mut other = shelf.clone();
                match other.load(2, &file) {
                    Loaded { refusal: 0, version } => assert_eq!(other.file(version), file, "another table's file"),
                    _ => assert_eq!(other, shelf),
                }
            }
        }
    });
}
