//! The comparison with the ledger: every byte that the ledger fixes is looked at, and no other.

use crate::draw::Draw;
use crate::layout::{Edition, SECTOR};
use crate::testing::requests::{create, delete, write};
use crate::testing::volumes::{sample_of, Volume};
use crate::testing::Oracle;

/// The sample with a file of two extents, one that is deleted again and one with a single byte.
fn two_files(edition: Edition) -> Volume {
    let mut volume = Volume::formatted(&Oracle, &sample_of(edition));
    let mut draw = Draw::new(41);
    volume.done(&create(b"first", 1));
    volume.done(&create(b"gone", 2));
    volume.done(&create(b"third", 3));
    volume.done(&write(b"first", 0, draw.bytes(65_536)));
    volume.done(&write(b"third", 0, vec![7]));
    volume.done(&write(b"first", 65_536, draw.bytes(700)));
    volume.done(&delete(b"gone"));
    volume
}

#[test]
fn fixed_bytes_are_compared_and_no_others() {
    for (edition, root_end, name) in [(Edition::First, 24, 36), (Edition::Second, 32, 44)] {
        compare_with_changed_bytes(two_files(edition), root_end, name);
    }
}

/// The root's fields and an entry's before the name end at these bytes.
fn compare_with_changed_bytes(mut volume: Volume, root_end: usize, name: usize) {
    let entry = |index: usize| (2 + index) * SECTOR;
    let extent = |index: usize| (290 + 128 * index) * SECTOR;
    let table = 289 * SECTOR;
    // The bytes that the ledger fixes: superblock, root, the entries with their names, marks of
    // free entries, the table's owners and the offsets of owned extents, and the files' bytes.
    let mut fixed = vec![0..20, SECTOR..SECTOR + root_end];
    fixed.extend([0, 2].map(|index| entry(index)..entry(index) + name + 5));
    fixed.extend((0..255).map(|index| entry(index)..entry(index) + 2));
    fixed.extend((0..3).map(|index| table + 4 * index..table + 4 * index + 4));
    fixed.push(table + 12..table + 14);
    fixed.extend([
        extent(0)..extent(1),
        extent(1)..extent(1) + 1,
        extent(2)..extent(2) + 700,
    ]);
    let mut is_fixed = vec![false; volume.image.len()];
    for range in fixed {
        is_fixed[range].fill(true);
    }
    // The start of each sector before the data, and one in so many of all other bytes; besides, the
    // bytes around the files' ends.
    let starts = (0..extent(0)).filter(|at| at % SECTOR < 56);
    let others = (0..volume.image.len()).step_by(97);
    let ends = [
        extent(1),
        extent(1) + 1,
        extent(2) + 699,
        extent(2) + 700,
        extent(3),
    ];
    for at in starts.chain(others).chain(ends) {
        changed_byte_is_told(&mut volume, at, is_fixed[at]);
    }
}

fn changed_byte_is_told(volume: &mut Volume, at: usize, told: bool) {
    volume.image[at] ^= 1;
    assert_eq!(
        volume.ledger.compare(&volume.image).is_err(),
        told,
        "byte {at}"
    );
    volume.image[at] ^= 1;
}

#[test]
fn image_must_hold_the_volume() {
    let volume = two_files(Edition::First);
    let compare = |length: usize| volume.ledger.compare(&volume.image[..length]);
    assert_eq!(compare(802 * SECTOR), Ok(()));
    assert!(compare(801 * SECTOR).is_err());
    assert!(compare(802 * SECTOR + 1).is_err());
    assert!(compare(0).is_err());
}
