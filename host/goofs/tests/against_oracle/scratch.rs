//! The check with scratch: at the edges of its length, with noise in it, on every fault, and with the
//! largest directory and table. (Damaged images and runs put it to both sides too.)

use crate::shared::{on_both, Both};
use oracle::answers::CheckAnswer;
use oracle::draw::Draw;
use oracle::layout::{put16, superblock, Geometry};
use oracle::testing::damage::{entry_field, FAULTS};
use oracle::testing::images::{blank_of, put_file, table_entry};
use oracle::testing::volumes::some_files_of;
use oracle::testing::{checks_alike, Subject};

fn needed_for(image: &[u8]) -> usize {
    let summary = oracle::summary(image);
    (4 * summary.files + summary.extents) as usize
}

#[test]
fn at_the_edges_of_its_length() {
    on_both(|edition| {
        let mut image = some_files_of(edition).image;
        let needed = needed_for(&image);
        for length in [0, 1, 1_019, 1_020, needed - 2, needed - 1] {
            assert_eq!(Both.check_with_scratch(&image, length).code, 14, "{length}");
        }
        for length in [needed, needed + 1, 5_000, 400_000] {
            assert_eq!(Both.check_with_scratch(&image, length).code, 0, "{length}");
        }
        for (journal_length, expected) in [(65_535, 4), (1, 5), (1_025, 6)] {
            put16(&mut image, superblock::JOURNAL_LENGTH, journal_length);
            for length in [0, needed - 1, needed] {
                assert_eq!(Both.check_with_scratch(&image, length).code, expected);
            }
        }
    });
}

/// What the scratch holds before doesn't matter; what no answer but 0 and 7 may change stays.
#[test]
fn with_noise_in_it() {
    on_both(|edition| {
        let sound = some_files_of(edition).image;
        let mut draw = Draw::new(10);
        for round in 0..40 {
            for (_, spoil) in &FAULTS {
                let mut image = sound.clone();
                spoil(&mut image);
                let expected = goofs::check(&image);
                let length = needed_for(&image) - round % 2;
                let mut scratch: Vec<u32> =
                    (0..length).map(|_| draw.below(1 << 32) as u32).collect();
                let before = scratch.clone();
                let found = goofs::check_with(&image, &mut scratch);
                if round % 2 == 0 {
                    assert_eq!(found, expected);
                } else {
                    assert_eq!((found.code, found.fault, found.place), (14, 0, 0));
                    assert!(scratch == before);
                }
            }
        }
    });
}

#[test]
fn on_every_fault() {
    on_both(|edition| {
        let sound = some_files_of(edition).image;
        for (expected, spoil) in &FAULTS {
            let mut image = sound.clone();
            spoil(&mut image);
            let CheckAnswer { fault, place, .. } = checks_alike(&Both, &image);
            assert_eq!((fault, place), *expected);
        }
    });
}

/// 65,535 files and extents: 327,675 numbers.
#[test]
fn with_the_largest_directory_and_table() {
    on_both(|edition| {
        let geometry = Geometry::new(65_535, 65_535, 128).expect("within the bounds");
        let mut image = blank_of(edition, geometry, geometry.end().0);
        let usable = geometry.usable_extents();
        for index in 0..65_535 {
            let extents: &[u64] = if index < usable {
                &[usable - 1 - index]
            } else {
                &[]
            };
            let name = format!("file {index:05}");
            let size = extents.len() as u64;
            put_file(&mut image, geometry, index, name.as_bytes(), size, extents);
        }
        assert_eq!(Both.check_with_scratch(&image, 327_674).code, 14);
        assert_eq!(Both.check_with_scratch(&image, 327_675).code, 0);
        let mut expect = |at: usize, bytes: &[u8], fault: (u64, u64)| {
            let old = image[at..at + bytes.len()].to_vec();
            image[at..at + bytes.len()].copy_from_slice(bytes);
            let judged = checks_alike(&Both, &image);
            assert_eq!((judged.fault, judged.place), fault);
            image[at..at + old.len()].copy_from_slice(&old);
        };
        let name_at = edition.name();
        expect(entry_field(65_534, name_at), b"file 00000", (23, 65_534));
        expect(entry_field(9, 14), &[0; 8], (24, 9));
        // Every number below 65,535 is a file's.
        expect(table_entry(geometry, 65_534), &[0, 0], (26, 0));
        expect(table_entry(geometry, 0) + 2, &[0, 1], (26, usable - 1));
    });
}
