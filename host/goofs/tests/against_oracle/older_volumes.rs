//! Volumes made when K was (T + 2) / S: where it is one more now, they are sound all the same. One with
//! fewer than K extents free can't be changed any more, and is still read.

use crate::counts::{count, Compared};
use crate::full_volume::alone;
use crate::shared::{alike, on_both, Both};
use oracle::layout::{put16, put64, superblock, Edition, Geometry, SECTOR};
use oracle::lists::RECORD;
use oracle::testing::images::{blank_of, put_file};
use oracle::testing::requests::{
    create, delete, find, list, read, rename, rename_set, resize, shortened, write,
};
use oracle::testing::Subject;
use oracle::{Lent, Request};

/// Number of extents, sectors of an extent, and K before and now. The first four are the geometries of
/// our own formats with extents of 128 sectors.
const GROWN: [(u64, u64, u64, u64); 7] = [
    (126 * 128, 128, 1, 2),
    (254 * 128, 128, 2, 3),
    (382 * 128, 128, 3, 4),
    (510 * 128, 128, 4, 5),
    // Made by hand.
    (127 * 128, 129, 1, 2),
    (256 * 128, 129, 2, 3),
    (255 * 128, 257, 1, 2),
];

/// Longer than every list of these volumes.
const LONG: Lent = Lent::both(1_053 * RECORD);

/// Asks calls of every kind. Each with a target gives the first number, each that takes an extent the
/// second; the others are done.
fn calls_alike(image: &[u8], with_target: u64, with_extent: u64) {
    let size = oracle::find(image, b"old").size;
    for (expected, request) in [
        (0, Request::Summary),
        (0, Request::Check),
        (0, find(b"old")),
        (with_target, create(b"new", 77)),
        (with_target, delete(b"old")),
        (with_target, delete(b"ab")),
        (with_target, resize(b"old", 0)),
        (with_target, resize(b"old", size - 1)),
        (0, resize(b"old", size)),
        (with_extent, resize(b"ab", 1)),
        (with_target, write(b"old", 0, vec![1; 600])),
        (with_extent, write(b"ab", 0, vec![1])),
        (0, write(b"ab", 0, Vec::new())),
        (with_target, rename(b"old", b"new")),
        (with_target, rename(b"ab", b"old")),
        (0, rename(b"ab", b"ab")),
        (with_target, rename_set(&[(b"ab", b"t"), (b"t", b"old")])),
        (0, rename_set(&[(b"ab", b"ab"), (b"old", b"old")])),
        (0, read(b"old", size - 1, 600)),
        (0, list(3)),
    ] {
        let (answer, filled) = alike(&request, image, LONG);
        assert_eq!(answer.code(), expected, "{}", shortened(&request));
        if with_target == 13 {
            assert!(filled.list.is_empty(), "{}", shortened(&request));
        }
    }
    assert_eq!(Both.recover(image, 0).0.code, 0);
    assert_eq!(Both.repair(image, 0).0.code, 0);
}

/// "old" has these extents, "ab" is empty.
fn older(edition: Edition, geometry: Geometry, extents: &[u64], short_by: u64) -> Vec<u8> {
    let mut image = blank_of(edition, geometry, geometry.end().0);
    let size = extents.len() as u64 * geometry.extent_bytes() - short_by;
    put_file(&mut image, geometry, 7, b"old", size, extents);
    put_file(&mut image, geometry, 3, b"ab", 0, &[]);
    image
}

/// All extents that a file could have before; all but one; and the last of them alone.
#[test]
fn full_then_and_now() {
    on_both(|edition| {
        let _alone = alone();
        for (extents, extent_sectors, before, now) in GROWN {
            let geometry = Geometry::new(255, extents, extent_sectors).expect("within the bounds");
            assert_eq!(geometry.reserve_extents(), now);
            assert_eq!(now, before + 1);
            let all: Vec<u64> = (0..extents - before).collect();
            let last = all.len() - 1;
            for short_by in [0, geometry.extent_bytes() - 1] {
                let image = |held: &[u64]| older(edition, geometry, held, short_by);
                calls_alike(&image(&all), 13, 13);
                calls_alike(&image(&all[1..]), 0, 13);
                calls_alike(&image(&all[..last]), 0, 13);
                calls_alike(&image(&all[2..]), 0, 0);
                calls_alike(&image(&all[last..]), 0, 0);
            }
        }
    });
}

/// Two files, of which one holds the extent that no file could get now.
#[test]
fn beside_another_file() {
    on_both(|edition| {
        let _alone = alone();
        let geometry = Geometry::new(255, 16_128, 128).expect("within the bounds");
        let others: Vec<u64> = (0..16_126).collect();
        let mut image = older(edition, geometry, &others, 0);
        calls_alike(&image, 0, 13);
        put_file(&mut image, geometry, 254, b"one", 65_536, &[16_126]);
        calls_alike(&image, 13, 13);
        // The largest size that a volume of this length could hold, and one byte more: 22.
        put64(&mut image, 9 * SECTOR + 2, 16_128 * 65_536);
        assert_eq!(fault_alike(&image), (26, 7));
        put64(&mut image, 9 * SECTOR + 2, 16_128 * 65_536 + 1);
        assert_eq!(fault_alike(&image), (22, 7));
    });
}

fn fault_alike(image: &[u8]) -> (u64, u64) {
    count(Compared::DamagedImages, 1);
    let (answer, _) = alike(&Request::Check, image, Lent::NONE);
    assert_eq!(answer.code(), 7);
    let told = oracle::check(image);
    (told.fault, told.place)
}

/// A file in the last extent is as sound as in any other, whether K grew or not.
#[test]
fn files_in_the_last_extent() {
    on_both(|edition| {
        let _alone = alone();
        for (extents, extent_sectors) in [
            (4, 128),
            (125 * 128, 128),
            (126 * 128, 128),
            (126 * 128 + 1, 128),
            (126 * 128, 129),
            (65_535, 128),
        ] {
            let geometry = Geometry::new(255, extents, extent_sectors).expect("within the bounds");
            for extent in [geometry.usable_extents() - 1, extents - 1] {
                calls_alike(&older(edition, geometry, &[extent], 0), 0, 0);
            }
        }
    });
}

/// A change that an older build left waiting, its copies where the reserve began then: recovery
/// finishes it.
#[test]
fn waiting_changes() {
    on_both(|edition| {
        let _alone = alone();
        for (extents, extent_sectors, before, _) in GROWN {
            let geometry = Geometry::new(255, extents, extent_sectors).expect("within the bounds");
            let mut image = blank_of(edition, geometry, geometry.end().0);
            put_file(&mut image, geometry, 0, b"old", 0, &[]);
            let reserve_then = geometry.end().0 - before * extent_sectors;
            let copy = reserve_then as usize * SECTOR;
            put_file(&mut image, geometry, 1, b"new", 0, &[]);
            image.copy_within(3 * SECTOR..4 * SECTOR, copy);
            image[3 * SECTOR..4 * SECTOR].fill(0);
            put16(&mut image, superblock::JOURNAL_LENGTH, 1);
            put64(&mut image, 257 * SECTOR, reserve_then);
            put64(&mut image, 257 * SECTOR + 8, 3);
            count(Compared::Recoveries, 1);
            let (answer, list) = Both.recover(&image, 4 * RECORD);
            assert_eq!((answer.code, list.len()), (0, 4 * RECORD));
            assert_eq!(goofs::carry_out(&mut image, &list), 0);
            assert_eq!(oracle::find(&image, b"new").index, 1);
            assert_eq!(alike(&Request::Check, &image, Lent::NONE).0.code(), 0);
        }
    });
}
