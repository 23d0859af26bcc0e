//! Every fault from 21 to 26 and every state, each put in by hand, alone and beside others.

use crate::shared::{alike, calls, calls_alike, damaged_alike, on_both};
use oracle::layout::{put16, superblock, SECTOR};
use oracle::testing::damage::{FAULTS, METADATA};
use oracle::testing::volumes::{some_files_of, ANY};

#[test]
fn each_fault() {
    on_both(|edition| {
        let sound = some_files_of(edition).image;
        assert_eq!(calls_alike(&sound).code, 0);
        for request in calls() {
            let (answer, _) = alike(&request, &sound, ANY);
            assert_eq!(answer.code(), 0, "{request:?}");
        }
        for (number, (expected, spoil)) in FAULTS.iter().enumerate() {
            let mut image = sound.clone();
            spoil(&mut image);
            let answer = damaged_alike(&image);
            assert_eq!((answer.fault, answer.place), *expected, "fault {number}");
            assert_eq!(answer.code, if expected.0 == 0 { 0 } else { 7 });
        }
    });
}

/// Two faults at once: both sides must agree on the one that is told.
#[test]
fn each_pair_of_faults() {
    on_both(|edition| {
        let sound = some_files_of(edition).image;
        let mut image = sound.clone();
        for (_, first) in &FAULTS {
            for (_, second) in &FAULTS {
                image[..METADATA].copy_from_slice(&sound[..METADATA]);
                first(&mut image);
                second(&mut image);
                damaged_alike(&image);
            }
        }
    });
}

/// Every journal length at an edge, on a sound volume and on each spoilt one.
#[test]
fn each_state() {
    on_both(|edition| {
        let sound = some_files_of(edition).image;
        for journal_length in [
            0, 1, 2, 255, 256, 1_023, 1_024, 1_025, 1_026, 32_768, 65_280, 65_533, 65_534, 65_535,
        ] {
            let expected = match journal_length {
                0 => 0,
                1..=1_024 => 5,
                65_535 => 4,
                _ => 6,
            };
            let mut image = sound.clone();
            put16(&mut image, superblock::JOURNAL_LENGTH, journal_length);
            assert_eq!(damaged_alike(&image).code, expected, "{journal_length}");
            for (_, spoil) in FAULTS.iter().step_by(5) {
                let mut image = image.clone();
                spoil(&mut image);
                damaged_alike(&image);
            }
        }
    });
}

/// Every bit of magic and version, and every number of files and extents at an edge.
#[test]
fn each_bound_of_the_superblock() {
    on_both(|edition| {
        let sound = some_files_of(edition).image;
        let mut image = sound.clone();
        let mut codes = [0; 15];
        let mut try_with = |spoil: &dyn Fn(&mut [u8])| {
            image[..SECTOR].copy_from_slice(&sound[..SECTOR]);
            spoil(&mut image);
            codes[damaged_alike(&image).code as usize] += 1;
        };
        for at in superblock::MAGIC..superblock::JOURNAL_LENGTH {
            for bit in 0..8 {
                try_with(&|image| image[at] ^= 1 << bit);
            }
        }
        for number in [
            0, 1, 2, 3, 5, 6, 7, 127, 128, 129, 254, 255, 256, 1_023, 1_024, 1_025, 32_768, 65_534,
            65_535,
        ] {
            try_with(&|image| put16(image, superblock::FILES, number));
            try_with(&|image| put16(image, superblock::EXTENTS, number));
            try_with(&|image| put16(image, superblock::EXTENT_SECTORS, number));
            try_with(&|image| put16(image, superblock::EXTENT_SECTORS + 2, number));
        }
        assert!(codes[2] == 80 && codes[3] > 20 && codes[0] > 2, "{codes:?}");
    });
}
