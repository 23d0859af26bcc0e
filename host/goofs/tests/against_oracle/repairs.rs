//! Repair: each rule by hand, leaky and spoilt volumes, the largest table, sizes up to 2^64 - 1, and cuts.

use crate::shared::Both;
use oracle::answers::code;
use oracle::check;
use oracle::draw::Draw;
use oracle::layout::{put16, put64, Geometry};
use oracle::lists::RECORD;
use oracle::testing::damage::{entry_field, spoil_fields, FAULTS};
use oracle::testing::images::{blank, put_file, table_entry};
use oracle::testing::repairs::{cut_a_repair, repair_leaky_volumes, repaired_alike};
use oracle::testing::volumes::some_files;
use oracle::testing::Subject;

#[test]
fn leaky_volumes() {
    repair_leaky_volumes(&Both, 2_000);
}

#[test]
fn spoilt_volumes() {
    for (_, spoil) in FAULTS {
        let mut image = some_files().image;
        spoil(&mut image);
        repaired_alike(&Both, &image);
    }
    spoil_fields(6_000, |image| {
        repaired_alike(&Both, image);
        check(image)
    });
}

#[test]
fn cuts() {
    cut_a_repair(&Both);
}

/// Sizes whose counts and sums pass 64 bits. The last offset that there is, 65,535, is at or above the
/// counts up to 65,535 only.
#[test]
fn sizes_near_2_to_the_64() {
    let geometry = Geometry::new(255, 6, 128).expect("within the bounds");
    for (size, freed) in [
        (65_535 << 16, 1),
        ((65_535 << 16) + 1, 0),
        (1 << 32, 0),
        ((1 << 48) + 1, 0),
        (u64::MAX - 65_536, 0),
        (u64::MAX - 1, 0),
        (u64::MAX, 0),
    ] {
        let mut image = blank(geometry, geometry.end().0);
        put_file(&mut image, geometry, 0, b"huge", 65_536, &[1]);
        put_file(&mut image, geometry, 1, b"last", 65_537, &[3, 4]);
        put64(&mut image, entry_field(0, 2), size);
        put16(&mut image, table_entry(geometry, 2), 0);
        put16(&mut image, table_entry(geometry, 2) + 2, 65_535);
        let answer = repaired_alike(&Both, &image);
        assert_eq!(
            (answer.freed, answer.fault, answer.place),
            (freed, 22, 0),
            "{size}"
        );
    }
}

/// All entries of the largest table, of one file or each of another, of one offset or each of another.
#[test]
fn largest_table() {
    let geometry = Geometry::new(65_535, 65_535, 128).expect("within the bounds");
    let usable = geometry.usable_extents();
    let mut image = blank(geometry, geometry.end().0);
    let mut draw = Draw::new(103);
    for (file, offset) in [(0, 0), (1, 0), (0, 1), (1, 1)] {
        for extent in 0..usable {
            let at = table_entry(geometry, extent);
            put16(&mut image, at, (file * extent) as u16);
            put16(&mut image, at + 2, (offset * extent) as u16);
        }
        // Half of the files are there, and their sizes are whatever they are.
        for index in (0..65_535).filter(|index| index % 2 == 0) {
            put16(&mut image, entry_field(index, 0), 65_535);
            put64(&mut image, entry_field(index, 2), draw.below(1 << 20));
        }
        let records = 512 + 16 + 1 + 2 + 513 + 2;
        let (answer, list) = Both.repair(&image, records * RECORD);
        assert_eq!(answer.code, code::DONE);
        assert!(!list.is_empty());
        let (short, _) = Both.repair(&image, list.len() - 1);
        assert_eq!(short.code, code::BUFFER_TOO_SHORT);
    }
}
