//! Repair: each rule by hand, leaky and spoilt volumes, and cuts.

use crate::answers::{Refusal, RepairAnswer};
use crate::check;
use crate::layout::{put16, put64, Geometry};
use crate::lists::{BARRIER, RECORD};
use crate::power::sector_numbers;
use crate::testing::damage::{entry_field, spoil_fields, table_field, Spoil, FAULTS};
use crate::testing::images::{blank, put_file};
use crate::testing::repairs::{cut_a_repair, repair_leaky_volumes, repaired_alike};
use crate::testing::volumes::{some_files, ANY_LIST};
use crate::testing::{Oracle, Subject};

/// What repair answers on `some_files` after this damage: entries freed, the fault that remains and
/// its place. "ab" is file 1 with the extents 0, 2 and 3, "abc" file 2 with 1, "cab" file 5 with 4.
const CASES: [((u64, u64, u64), Spoil); 17] = [
    ((0, 0, 0), |_| {}),
    // No occupied file: a free entry, no entry, a damaged mark, which costs the file its extents.
    ((1, 26, 5), |image| put16(image, table_field(4, 0), 3)),
    ((1, 26, 5), |image| put16(image, table_field(4, 0), 255)),
    ((1, 26, 5), |image| put16(image, table_field(4, 0), 65_534)),
    ((3, 21, 1), |image| put16(image, entry_field(1, 0), 1)),
    ((3, 0, 0), |image| put16(image, entry_field(1, 0), 0)),
    // At or above the count: a size that was cut, also to 0; one that is too large frees nothing.
    ((1, 0, 0), |image| put64(image, entry_field(1, 2), 131_072)),
    ((2, 0, 0), |image| put64(image, entry_field(1, 2), 1)),
    ((3, 0, 0), |image| put64(image, entry_field(1, 2), 0)),
    ((0, 22, 1), |image| {
        put64(image, entry_field(1, 2), u64::MAX)
    }),
    ((0, 26, 1), |image| put64(image, entry_field(1, 2), 196_609)),
    // The lower extent keeps a repeated offset.
    ((1, 26, 5), |image| {
        put16(image, table_field(4, 0), 1);
        put16(image, table_field(4, 2), 1);
    }),
    ((1, 26, 1), |image| put16(image, table_field(3, 2), 1)),
    // Missing ones are told and nothing is done.
    ((0, 26, 1), |image| put16(image, table_field(2, 0), 65_535)),
    // A free entry's offset is not touched, other faults neither.
    ((0, 0, 0), |image| put16(image, table_field(5, 2), 9)),
    ((0, 24, 2), |image| put64(image, entry_field(2, 14), 1)),
    ((1, 23, 4), |image| {
        let name = image[entry_field(0, 34)..entry_field(0, 60)].to_vec();
        image[entry_field(4, 34)..entry_field(4, 60)].copy_from_slice(&name);
        put16(image, table_field(4, 2), 7);
    }),
];

#[test]
fn each_rule() {
    for (number, ((freed, fault, place), spoil)) in CASES.into_iter().enumerate() {
        let mut image = some_files().image;
        spoil(&mut image);
        let answer = repaired_alike(&Oracle, &image);
        let expected = RepairAnswer {
            freed,
            fault,
            place,
            // One table sector.
            length: if freed > 0 { 9 * RECORD as u64 } else { 0 },
            ..RepairAnswer::default()
        };
        assert_eq!(answer, expected, "case {number}");
    }
}

/// The sector numbers of a list with one target.
#[test]
fn list_of_a_repair() {
    let mut image = some_files().image;
    put16(&mut image, entry_field(1, 0), 0);
    let (_, list) = Oracle.repair(&image, ANY_LIST);
    let reserve = 290 + 5 * 128;
    let expected = [reserve, 257, BARRIER, 0, BARRIER, 289, BARRIER, 0, BARRIER];
    assert_eq!(sector_numbers(&list), expected);
}

/// Leaks that leave fewer than K extents free can't be mended: 13, before 14. With nothing to free
/// the answer is 0.
#[test]
fn without_room() {
    let mut image = some_files().image;
    put16(&mut image, table_field(5, 0), 3);
    assert_eq!(check(&image).fault, 25);
    assert_eq!(repaired_alike(&Oracle, &image), Refusal::new(13).into());
    // The last extent is taken as any other: it is freed, and the copy stands in the third.
    put16(&mut image, table_field(2, 0), 65_535);
    let (answer, list) = Oracle.repair(&image, ANY_LIST);
    assert_eq!((answer.freed, answer.fault, answer.place), (1, 26, 1));
    assert_eq!(sector_numbers(&list)[0], 290 + 2 * 128);
    repaired_alike(&Oracle, &image);

    let mut full = some_files().image;
    put16(&mut full, table_field(5, 0), 4);
    put16(&mut full, table_field(5, 2), 0);
    put64(&mut full, entry_field(4, 2), 1);
    assert_eq!(repaired_alike(&Oracle, &full), RepairAnswer::default());
}

/// All entries of the largest table: 512 targets.
#[test]
fn whole_table() {
    let geometry = Geometry::new(255, 65_535, 128).expect("within the bounds");
    let mut image = blank(geometry, geometry.end().0);
    let extents: Vec<u64> = (0..geometry.usable_extents()).collect();
    put_file(&mut image, geometry, 0, b"gone", 0, &extents);
    let records = 512 + 16 + 1 + 2 + 513 + 2;
    assert_eq!(Oracle.repair(&image, records * RECORD - 1).0.code, 14);
    let (answer, list) = Oracle.repair(&image, records * RECORD);
    let expected = RepairAnswer {
        freed: geometry.usable_extents(),
        length: (records * RECORD) as u64,
        ..RepairAnswer::default()
    };
    assert_eq!((answer, list.len()), (expected, records * RECORD));
}

#[test]
fn leaky_volumes() {
    repair_leaky_volumes(&Oracle, 600);
}

#[test]
fn spoilt_volumes() {
    for (_, spoil) in FAULTS {
        let mut image = some_files().image;
        spoil(&mut image);
        repaired_alike(&Oracle, &image);
    }
    spoil_fields(2_500, |image| {
        repaired_alike(&Oracle, image);
        check(image)
    });
}

#[test]
fn cuts() {
    cut_a_repair(&Oracle);
}
