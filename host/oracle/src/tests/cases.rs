//! The sample volume and its edges, P1 to P10, the longest delete and the small program, each run
//! by the code.

use crate::answers::{code, state, SummaryAnswer};
use crate::layout::{put16, put32, superblock, SECTOR};
use crate::lists::RECORD;
use crate::power::{groups, Cut};
use crate::report::report;
use crate::testing::images::put_file;
use crate::testing::volumes::{format_list, Volume, SAMPLE};
use crate::testing::{cases, Oracle};
use crate::{carry_out, changes, check, recover, summary, FormatRequest};

#[test]
fn p1_geometry_of_the_sample() {
    let answer = summary(&Volume::sample().image);
    let expected = SummaryAnswer {
        code: 0,
        edition: 1,
        files: 255,
        extents: 4,
        extent_sectors: 128,
        state: state::CLEAN,
        entries: 0,
    };
    assert_eq!(answer, expected);
    assert_eq!(answer.journal_at().unwrap().0, 257);
    assert_eq!(answer.table_at().unwrap().0, 289);
    assert_eq!(answer.data_at().unwrap().0, 290);
    assert_eq!(answer.reserve_at().unwrap().0, 674);
    assert_eq!(answer.geometry().unwrap().reserve_extents(), 1);
    assert_eq!(answer.geometry().unwrap().table_sectors(), 1);
}

#[test]
fn p2_to_p5_formats() {
    cases::p2_to_p5_formats(&Oracle);
}

#[test]
fn p6_first_create() {
    cases::p6_first_create(&Oracle);
}

#[test]
fn p7_to_p9_full_files() {
    cases::p7_to_p9_full_files(&Oracle);
}

#[test]
fn p10_longest_name() {
    cases::p10_longest_name(&Oracle);
}

#[test]
fn full_directory() {
    cases::full_directory(&Oracle);
}

/// A file with an extent in each of the 512 table sectors of the largest volume with 128 sectors
/// per extent. Only the few sectors that are used of the image of 4 GB take up memory.
#[test]
fn longest_delete() {
    let request = FormatRequest {
        sectors: 8_389_408,
        ..SAMPLE
    };
    let geometry = request.geometry().unwrap();
    assert_eq!(
        (geometry.table_sectors(), geometry.reserve_extents()),
        (512, 5)
    );
    let mut image = vec![0; request.sectors as usize * SECTOR];
    assert_eq!(carry_out(&mut image, &format_list(&Oracle, &request)), 0);

    // The offsets fall while the extents rise, so that their order says nothing.
    let extents: Vec<u64> = (0..geometry.usable_extents()).rev().collect();
    let size = geometry.usable_extents() * 65_536;
    put_file(&mut image, geometry, 3, b"l", size, &extents);
    assert_eq!(check(&image).code, 0);

    let mut list = vec![0; 1_051 * RECORD];
    let short = changes::delete(&image, b"l", 9, &mut list[..1_051 * RECORD - 1]);
    assert_eq!(short.code, code::BUFFER_TOO_SHORT);
    let answer = changes::delete(&image, b"l", 9, &mut list);
    assert_eq!((answer.code, answer.length), (0, 1_051 * RECORD as u64));
    let groups = groups(&list);
    let sizes: Vec<usize> = groups.iter().map(Vec::len).collect();
    assert_eq!(sizes, [514 + 17, 1, 514, 1]);

    // The power fails in the middle of the targets; recovery ends the delete.
    let every_third = Cut {
        groups_before: 2,
        landed: (0..514).step_by(3).collect(),
    };
    every_third.apply(&groups, &mut image);
    assert_eq!(summary(&image).entries, 514);
    let mut recovery = vec![0; 517 * RECORD];
    let recovered = recover(&image, &mut recovery);
    assert_eq!((recovered.code, recovered.length), (0, 517 * RECORD as u64));
    assert_eq!(crate::power::groups(&recovery)[0], groups[2]);
    assert_eq!(carry_out(&mut image, &recovery), 0);
    assert_eq!(check(&image).code, 0);
    let table =
        &image[geometry.table_at().0 as usize * SECTOR..geometry.data_at().0 as usize * SECTOR];
    assert!(table.iter().all(|byte| *byte == 255));
    assert_eq!(crate::find(&image, b"l").code, code::NOT_THERE);
}

#[test]
fn small_program() {
    let mut sample = Volume::sample().image;
    let clean = "files 255\n\
                 extents 4\n\
                 extent-sectors 128\n\
                 table-sectors 1\n\
                 journal-at 257\n\
                 table-at 289\n\
                 data-at 290\n\
                 reserve-extents 1\n\
                 state clean\n";
    assert_eq!(report(&sample), clean);
    assert_eq!(report(&sample[..SECTOR]), clean);
    let states = [
        (2, "waiting 2"),
        (1_024, "waiting 1024"),
        (1_025, "damaged"),
        (65_534, "damaged"),
        (65_535, "unfinished"),
    ];
    for (journal_length, text) in states {
        put16(&mut sample, superblock::JOURNAL_LENGTH, journal_length);
        assert_eq!(
            report(&sample),
            clean.replace("state clean", &format!("state {text}"))
        );
    }
    put16(&mut sample, superblock::JOURNAL_LENGTH, 0);
    for (version, text) in [
        (2, clean),
        (3, "refused 2\n"),
        (0, "refused 2\n"),
        (1, clean),
    ] {
        put16(&mut sample, superblock::VERSION, version);
        assert_eq!(report(&sample), text);
    }
    assert_eq!(report(&sample[..SECTOR - 1]), "refused 1\n");
    put32(&mut sample, superblock::EXTENT_SECTORS, 127);
    assert_eq!(report(&sample), "refused 3\n");
    sample[superblock::MAGIC] = b'!';
    assert_eq!(report(&sample), "refused 2\n");
}
