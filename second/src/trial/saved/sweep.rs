//! Every single-byte damage of a few files: each byte becomes each other byte, for both readers.

use super::super::call::Call;
use super::super::profile::Profile;
use super::files::Parts;
use super::load_by;
use crate::tables::RECORD;

/// How many other bytes there are for a byte.
const OTHERS: usize = 255;

/// The table that is lent has as many phys as the file of version 2.
const PHYS: usize = 2;

/// The files, all small: one of version 1 without pairs, one with three, and one of version 2.
pub fn files(profile: Profile) -> [Vec<u8>; 3] {
    let last = profile.groups_of_table() as u8 - 1;
    let pairs = vec![[2, 2], [2, last], [3, 4]];
    let zones = vec![[0, 0x1f, 1], [1, 0x03, last]];
    [
        Parts { pairs: Vec::new(), zones: None }.bytes(),
        Parts { pairs: pairs.clone(), zones: None }.bytes(),
        Parts { pairs: pairs[1..].to_vec(), zones: Some(zones) }.bytes(),
    ]
}

/// How many damages there are for one reader.
pub fn count(profile: Profile) -> usize {
    files(profile).iter().map(|file| OTHERS * file.len()).sum()
}

/// A damage by its number, which goes on from the last to the first: all of one reader and then of the other.
pub fn call(profile: Profile, number: usize) -> Call {
    let count = count(profile);
    let reader_2 = number / count % 2 == 1;
    let mut left = number % count;
    let mut files = files(profile).into_iter().cycle();
    let file = files.find_map(|mut file| {
        let of_file = OTHERS * file.len();
        if left >= of_file {
            left -= of_file;
            return None;
        }
        file[left / OTHERS] ^= (1 + left % OTHERS) as u8;
        Some(file)
    });
    let phys = (0..PHYS * RECORD).map(|place| 0xc0 | place as u8).collect();
    load_by(reader_2, phys, vec![0xa5; profile.table_size()], file.unwrap_or_default())
}

/// The number of the damage that a file is, for one reader.
pub fn number_of(profile: Profile, file: &[u8]) -> Option<usize> {
    let mut before = 0;
    files(profile).iter().find_map(|good| {
        let changed = || good.iter().zip(file).enumerate().filter(|(_, (good, byte))| good != byte);
        let mut found = None;
        if good.len() == file.len() && changed().count() == 1 {
            found =
                changed().next().map(|(place, (good, byte))| before + OTHERS * place + usize::from(good ^ byte) - 1);
        }
        before += OTHERS * good.len();
        found
    })
}

#[cfg(test)]
mod tests {
    use super::*;

    #[test]
    fn each_damage_is_known_by_its_number() {
        for profile in Profile::ALL {
            for number in 0..count(profile) {
                let (Call::LoadVersion1 { file, .. }, Call::LoadVersion2 { file: same, .. }) =
                    (call(profile, number), call(profile, count(profile) + number))
                else {
                    panic!("another reader");
                };
                assert_eq!(file, same);
                assert_eq!(number_of(profile, &file), Some(number));
            }
            files(profile).iter().for_each(|file| assert_eq!(number_of(profile, file), None));
        }
    }
}
