//! The check with scratch: its length at the edges of geometries, its refusals' order, and the
//! largest directory and table.

use crate::answers::code;
use crate::layout::{put16, put64, Geometry, SECTOR};
use crate::testing::damage::entry_field;
use crate::testing::images::{blank, put_file, table_entry};
use crate::testing::volumes::Volume;
use crate::testing::{checks_alike, Oracle, Subject};

/// The sample needs 4 x 255 + 4 numbers.
#[test]
fn length_for_the_sample() {
    let mut image = Volume::sample().image;
    let code = |image: &[u8], length| Oracle.check_with_scratch(image, length).code;
    assert_eq!(code(&image, 1_024), 0);
    assert_eq!(code(&image, 1_023), code::BUFFER_TOO_SHORT);
    assert_eq!(code(&image, 0), code::BUFFER_TOO_SHORT);
    // 14 goes before 7, and 1 to 6 before 14.
    put16(&mut image, 2 * SECTOR, 5);
    assert_eq!(code(&image, 1_023), code::BUFFER_TOO_SHORT);
    let judged = Oracle.check_with_scratch(&image, 1_024);
    assert_eq!((judged.code, judged.fault, judged.place), (7, 21, 0));
    for (journal_length, expected) in [(65_535, 4), (1, 5), (1_025, 6)] {
        put16(&mut image, 18, journal_length);
        assert_eq!(code(&image, 0), expected);
    }
    put16(&mut image, 2, 1);
    assert_eq!(code(&image, 0), 3);
    image[8] = 0;
    assert_eq!(code(&image, 0), 2);
    assert_eq!(code(&image[1..], 0), 1);
    assert_eq!(code(&[], 2_000), 1);
}

/// 65,535 files and extents need 327,675 numbers. Each file's name is long and differs at its end.
#[test]
fn largest_directory_and_table() {
    let geometry = Geometry::new(65_535, 65_535, 128).expect("within the bounds");
    let mut image = blank(geometry, geometry.end().0);
    let usable = geometry.usable_extents();
    let name = |index: u64| format!("{:x>471}{index:05}", "").into_bytes();
    for index in 0..65_535 {
        let extents: &[u64] = if index < usable {
            &[usable - 1 - index]
        } else {
            &[]
        };
        let size = extents.len() as u64 * (index + 1);
        put_file(
            &mut image,
            geometry,
            index,
            &name(index),
            size.min(65_536),
            extents,
        );
    }
    assert_eq!(Oracle.check_with_scratch(&image, 327_674).code, 14);
    assert_eq!(Oracle.check_with_scratch(&image, 327_675).code, 0);
    let mut expect = |at: usize, bytes: &[u8], fault: (u64, u64)| {
        let old = image[at..at + bytes.len()].to_vec();
        image[at..at + bytes.len()].copy_from_slice(bytes);
        let judged = checks_alike(&Oracle, &image);
        assert_eq!((judged.fault, judged.place), fault);
        image[at..at + old.len()].copy_from_slice(&old);
    };
    expect(entry_field(65_534, 36), &name(0), (23, 65_534));
    expect(entry_field(0, 36), &name(65_534), (23, 65_534));
    let id = |index: u64| (0xfedc_ba98_0000_0000 + index).to_be_bytes();
    expect(entry_field(65_534, 14), &id(7), (24, 65_534));
    expect(entry_field(9, 14), &[0; 8], (24, 9));
    expect(entry_field(9, 14), &900_u64.to_be_bytes(), (24, 9));
    // Every number below 65,535 is a file's.
    expect(table_entry(geometry, 65_534), &[0, 0], (26, 0));
    expect(
        entry_field(65_534, 2),
        &[0, 0, 0, 0, 0, 0, 0, 1],
        (26, 65_534),
    );
    expect(table_entry(geometry, 0) + 2, &[0, 1], (26, usable - 1));
}

/// Of several files with names or ids that stand twice, the lowest that has a lower equal.
#[test]
fn lowest_of_several_pairs() {
    let geometry = Geometry::new(255, 3, 128).expect("within the bounds");
    let mut names = blank(geometry, geometry.end().0);
    for (index, name) in [b"z", b"b", b"y", b"b", b"a", b"z", b"a", b"b"]
        .iter()
        .enumerate()
    {
        put_file(&mut names, geometry, 10 + index as u64, *name, 0, &[]);
    }
    let judged = checks_alike(&Oracle, &names);
    assert_eq!((judged.fault, judged.place), (23, 13));

    let mut ids = blank(geometry, geometry.end().0);
    for (index, id) in [5, 9, 7, 9, 5, 900].into_iter().enumerate() {
        let index = 20 + index as u64;
        put_file(&mut ids, geometry, index, &[b'a' + index as u8], 0, &[]);
        put64(&mut ids, entry_field(index, 14), id);
    }
    let judged = checks_alike(&Oracle, &ids);
    assert_eq!((judged.fault, judged.place), (24, 23));
}
