//! The sectors that calls with lent sectors ask for, by hand.

use crate::layout::{Edition, SECTOR};
use crate::request::{Lent, Request};
use crate::testing::cuts::foreign_files;
use crate::testing::damage::set_journal;
use crate::testing::requests::{create, delete, list, read, resize, write};
use crate::testing::volumes::{Volume, ANY, ANY_LIST};
use crate::testing::wanted::{wanted, wanted_by_recovery};

/// The first sector of an extent of `foreign_files`: "alpha" has 70,000 bytes in the extents 5 and 2,
/// "be ta" 9 bytes in 0. The lowest free extent is 1.
fn extent_at(extent: u64) -> u64 {
    290 + 128 * extent
}

#[test]
fn by_reads() {
    let image = foreign_files(Edition::First).image;
    let [first, second] = [5, 2].map(extent_at);
    let end = 70_000 / SECTOR as u64 - 128;
    for (offset, count, expected) in [
        (0, 1, vec![first]),
        (0, 512, vec![first]),
        (0, 513, vec![first, first + 1]),
        (511, 2, vec![first, first + 1]),
        (65_530, 20, vec![first + 127, second]),
        (65_536, 512, vec![second]),
        (69_999, 65_536, vec![second + end]),
        (0, 0, vec![]),
        (600, 0, vec![]),
        (70_000, 9, vec![]),
        (70_001, 9, vec![]),
        (0, 65_537, vec![]),
    ] {
        assert_eq!(
            wanted(&read(b"alpha", offset, count), &image, ANY),
            expected
        );
    }
    let whole: Vec<u64> = (first..first + 128).collect();
    assert_eq!(wanted(&read(b"alpha", 0, 65_536), &image, ANY), whole);
    // Refused before a sector is asked for.
    let short = Lent { output: 19, ..ANY };
    assert_eq!(wanted(&read(b"alpha", 65_530, 20), &image, short), []);
    assert_eq!(wanted(&read(b"none", 0, 1), &image, ANY), []);
}

#[test]
fn by_writes() {
    let image = foreign_files(Edition::First).image;
    let [first, second, free] = [5, 2, 1].map(extent_at);
    for (offset, length, expected) in [
        (0, 512, vec![]),
        (512, 1_024, vec![]),
        (0, 1, vec![first]),
        (5, 100, vec![first]),
        (0, 513, vec![first + 1]),
        (511, 513, vec![first]),
        (511, 1_000, vec![first, first + 2]),
        (65_000, 1_000, vec![first + 126, second]),
        (0, 65_536, vec![]),
        // Over the end into a new extent, whose old bytes stay outside the span.
        (70_000, 61_072, vec![second + 8]),
        (70_000, 61_073, vec![second + 8, free]),
        (0, 0, vec![]),
        (70_001, 1, vec![]),
    ] {
        let request = write(b"alpha", offset, vec![1; length]);
        assert_eq!(
            wanted(&request, &image, ANY),
            expected,
            "{offset}, {length}"
        );
        assert_eq!(wanted(&request, &image, Lent::NONE), []);
    }
    for (size, expected) in [
        (70_001, vec![second + 8]),
        (70_144, vec![second + 8]),
        (70_145, vec![second + 8, second + 9]),
        (131_073, vec![second + 8, free]),
        (70_000, vec![]),
        (69_999, vec![]),
        (0, vec![]),
    ] {
        assert_eq!(
            wanted(&resize(b"alpha", size), &image, ANY),
            expected,
            "{size}"
        );
    }
    for request in [create(b"new", 3), delete(b"alpha"), list(3), Request::Check] {
        assert_eq!(wanted(&request, &image, ANY), []);
    }
}

#[test]
fn by_recovery() {
    let mut image = Volume::sample().image;
    assert_eq!(wanted_by_recovery(&image, ANY_LIST), []);
    set_journal(&mut image, &[(700, 2), (690, 1), (700, 289)]);
    assert_eq!(wanted_by_recovery(&image, ANY_LIST), [700, 690, 700]);
    assert_eq!(wanted_by_recovery(&image, 0), []);
    set_journal(&mut image, &[(700, 2), (690, 2)]);
    assert_eq!(wanted_by_recovery(&image, ANY_LIST), []);
}
