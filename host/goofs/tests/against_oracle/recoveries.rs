//! Recovery of every state and of journals that no call wrote: entries at the edges of the areas,
//! in any order, with shared sources and repeated targets, up to the longest journal.

use crate::counts::{count, Compared};
use crate::shared::{damaged_alike, on_both, Both};
use oracle::draw::Draw;
use oracle::layout::{put16, put64, SECTOR};
use oracle::lists::RECORD;
use oracle::testing::damage::{draw_journal, journal_field, journal_of_all_targets, set_journal};
use oracle::testing::volumes::{sample_of, some_files_of, Volume};
use oracle::testing::{with_each_recovery_list, Oracle, Subject};

/// With lists around the length that is needed. Gives the code of the longest.
fn with_each_list(image: &[u8], entries: usize) -> u64 {
    count(Compared::DamagedImages, 1);
    with_each_recovery_list(&Both, image, entries)
}

#[test]
fn random_journals() {
    on_both(|edition| {
        let mut image = Volume::formatted(&Oracle, &sample_of(edition)).image;
        let mut draw = Draw::new(31);
        let mut codes = [0; 15];
        for _ in 0..4_000 {
            let entries = draw_journal(&mut draw);
            set_journal(&mut image, &entries);
            codes[with_each_list(&image, entries.len()) as usize] += 1;
        }
        assert!(codes[0] > 300 && codes[6] > 300, "{codes:?}");
    });
}

/// Root, the whole directory and the table of the sample: 257 targets, in falling, rising and
/// shuffled order; then one of them twice, at every distance.
#[test]
fn all_targets_at_once() {
    on_both(|edition| {
        let mut image = Volume::formatted(&Oracle, &sample_of(edition)).image;
        let mut draw = Draw::new(32);
        let mut entries = journal_of_all_targets();
        for round in 0..6 {
            set_journal(&mut image, &entries);
            assert_eq!(with_each_list(&image, entries.len()), 0);
            if round == 0 {
                entries.reverse();
            } else {
                for at in (1..entries.len()).rev() {
                    entries.swap(at, draw.below(at as u64 + 1) as usize);
                }
            }
        }
        for at in 0..entries.len() {
            let mut twice = entries.clone();
            let other = (at + draw.between(1, 256) as usize) % entries.len();
            twice[at].1 = twice[other].1;
            set_journal(&mut image, &twice);
            assert_eq!(with_each_list(&image, twice.len()), 6);
        }
        // An entry past the count is not judged.
        set_journal(&mut image, &entries);
        put64(&mut image, journal_field(257, 0), 0);
        assert_eq!(with_each_list(&image, entries.len()), 0);
    });
}

/// Every journal length: more entries than there are targets are refused 6.
#[test]
fn every_journal_length() {
    on_both(|edition| {
        let mut image = Volume::formatted(&Oracle, &sample_of(edition)).image;
        set_journal(&mut image, &journal_of_all_targets());
        let mut codes = [0; 15];
        for length in (0..=300).chain([1_023, 1_024, 1_025, 65_534, 65_535]) {
            put16(&mut image, 18, length);
            let entries = length.min(1_024) as usize;
            codes[with_each_list(&image, entries) as usize] += 1;
        }
        assert!(
            codes[0] == 258 && codes[4] == 1 && codes[6] > 40,
            "{codes:?}"
        );
    });
}

/// Recovery lands what the copies hold, sound or not.
#[test]
fn recovery_does_not_judge() {
    on_both(|edition| {
        let mut image = some_files_of(edition).image;
        image[1_000 * SECTOR..1_001 * SECTOR].fill(3);
        set_journal(&mut image, &[(1_000, 2)]);
        assert_eq!(with_each_list(&image, 1), 0);
        let (_, list) = Both.recover(&image, 4 * RECORD);
        assert_eq!(Both.carry_out(&mut image, &list), 0);
        let judged = damaged_alike(&image);
        assert_eq!((judged.code, judged.fault, judged.place), (7, 21, 0));
        assert_eq!(Both.recover(&image, 0).0.length, 0);
    });
}

/// Noise in the superblock and in the journal.
#[test]
fn of_damaged_images() {
    on_both(|edition| {
        let sound = Volume::formatted(&Oracle, &sample_of(edition)).image;
        let mut image = sound.clone();
        let mut draw = Draw::new(34);
        for _ in 0..5_000 {
            image[..290 * SECTOR].copy_from_slice(&sound[..290 * SECTOR]);
            set_journal(&mut image, &[(700, 2), (701, 1), (690, 289)]);
            for _ in 0..draw.between(1, 2) {
                let at = match draw.below(3) {
                    0 => draw.below(20) as usize,
                    _ => journal_field(0, draw.below(48) as usize),
                };
                image[at] ^= 1 << draw.below(8);
            }
            with_each_list(&image, 3);
        }
    });
}
