//! Volumes of other writers: files in any extents, the last ones too; fewer than K extents free, exactly
//! K, one more; copies that are staged in extents that don't touch.

use crate::counts::count_all;
use crate::full_volume::{alone, geometry};
use crate::longest_lists::cut_and_recovered;
use crate::shared::{alike, damaged_alike, on_both, only_list, with_each_buffer, Both};
use oracle::layout::{put16, put64, Edition, Extent, SECTOR};
use oracle::lists::RECORD;
use oracle::power::groups;
use oracle::testing::cuts::{cut_on_a_foreign_volume, cut_with_free_extents};
use oracle::testing::damage::{entry_field, table_field, FAULTS, METADATA};
use oracle::testing::foreign::{each_call, every_choice, foreign_volume};
use oracle::testing::images::{blank_of, put_file};
use oracle::testing::repairs::repaired_alike;
use oracle::testing::requests::{create, delete, list, read, rename, resize, write};
use oracle::testing::Filled;
use oracle::{Lent, Request};

/// Every choice of free extents of six and every call on it, with each length of its buffers.
#[test]
fn every_choice_of_free_extents() {
    on_both(|edition| {
        for free in every_choice() {
            let codes = each_call(&Both, edition, &free);
            let refused = match free.len() {
                0 => 14,
                1 => 4,
                _ => 0,
            };
            assert_eq!(codes[13], refused, "{free:?}: {codes:?}");
        }
    });
}

#[test]
fn cuts() {
    on_both(|edition| {
        count_all(&cut_on_a_foreign_volume(&Both, edition));
        for free in [&[0][..], &[5], &[2, 3]] {
            count_all(&cut_with_free_extents(&Both, edition, free));
        }
    });
}

/// Some choices of free extents, with fewer than K, exactly K, one more and several.
const SOME: [&[u64]; 6] = [&[], &[0], &[5], &[0, 5], &[2, 3], &[0, 1, 3]];

/// Each fault of `some_files`, put into volumes whose files have the same entries; repair too.
#[test]
fn spoilt() {
    on_both(|edition| {
        for free in SOME {
            let sound = foreign_volume(edition, free).image;
            let mut image = sound.clone();
            for (_, spoil) in FAULTS {
                image[..METADATA].copy_from_slice(&sound[..METADATA]);
                spoil(&mut image);
                damaged_alike(&image);
                repaired_alike(&Both, &image);
            }
        }
    });
}

/// Each table entry with every kind of owner and offset, and each size at its bound, N x E.
#[test]
fn table_entries_and_sizes_at_their_edges() {
    on_both(|edition| {
        for free in SOME {
            let mut image = foreign_volume(edition, free).image;
            let mut spoilt = |at: usize, spoil: &dyn Fn(&mut [u8])| {
                let held = image[at..at + 8].to_vec();
                spoil(&mut image);
                damaged_alike(&image);
                repaired_alike(&Both, &image);
                image[at..at + 8].copy_from_slice(&held);
            };
            for extent in 0..6 {
                let at = table_field(extent, 0);
                for owner in [0, 1, 2, 3, 5, 6, 254, 255, 65_534, 65_535] {
                    spoilt(at, &|image| put16(image, at, owner));
                }
                for offset in [0, 1, 2, 3, 4, 5, 6, 65_535] {
                    spoilt(at, &|image| put16(image, at + 2, offset));
                }
            }
            for index in [0, 1, 2, 5] {
                let at = entry_field(index, 2);
                for extents in [0, 1, 4, 5, 6, 7] {
                    let size = 65_536 * extents;
                    for size in [size, size + 1, size + 65_535, u64::MAX - size] {
                        spoilt(at, &|image| put64(image, at, size));
                    }
                }
            }
        }
    });
}

/// The largest table, on which K is 5, with these extents free. "all" has the others, "new" is empty.
fn largest(edition: Edition, free: &[u64]) -> Vec<u8> {
    let geometry = geometry();
    assert_eq!(geometry.reserve_extents(), 5);
    let mut image = blank_of(edition, geometry, geometry.end().0);
    let extents: Vec<u64> = (0..geometry.extents())
        .rev()
        .filter(|extent| !free.contains(extent))
        .collect();
    let size = extents.len() as u64 * geometry.extent_bytes();
    put_file(&mut image, geometry, 0, b"new", 0, &[]);
    put_file(&mut image, geometry, 1_023, b"all", size, &extents);
    image
}

/// The longest list of all, 515 targets, staged in five extents that don't touch: 128 copies in each of
/// the first four and three in the last. It is cut within its targets and recovered.
#[test]
fn longest_list() {
    on_both(|edition| {
        let _alone = alone();
        let geometry = geometry();
        for free in [
            &[0, 700, 702, 30_000, 65_534][..],
            &[0, 1, 2, 3, 4],
            &[9, 127, 128, 65_529, 65_530],
        ] {
            let mut image = largest(edition, free);
            let request = rename(b"new", b"all");
            let length = 1_053 * RECORD;
            let (answer, Filled { list, .. }) = alike(&request, &image, only_list(length));
            assert_eq!((answer.code(), list.len()), (0, length));
            assert_eq!(alike(&request, &image, only_list(length - 1)).0.code(), 14);
            for (k, copy) in groups(&list)[0][..515].iter().enumerate() {
                let extent = geometry.extent_at(Extent(free[k / 128]));
                assert_eq!(copy.sector, extent.0 + k as u64 % 128);
            }
            for request in [write(b"new", 0, vec![1]), resize(b"new", 1)] {
                assert_eq!(alike(&request, &image, only_list(length)).0.code(), 13);
            }
            cut_and_recovered(&mut image, geometry, &list, 515);
            let found = oracle::find(&image, b"all");
            assert_eq!((found.code, found.index, found.size), (0, 0, 0));
        }
    });
}

/// The same table with four extents free: nothing can be changed. With six the lowest can be taken.
#[test]
fn largest_table_below_k_and_above() {
    on_both(|edition| {
        let _alone = alone();
        let image = largest(edition, &[0, 1, 40_000, 65_534]);
        assert_eq!(alike(&Request::Check, &image, Lent::NONE).0.code(), 0);
        for request in [
            create(b"other", 7),
            delete(b"all"),
            resize(b"all", 0),
            rename(b"new", b"all"),
            write(b"all", 0, vec![1; 600]),
            write(b"new", 0, vec![1]),
        ] {
            let (answer, _) = alike(&request, &image, only_list(1_053 * RECORD));
            assert_eq!(answer.code(), 13);
        }
        for (request, output) in [(read(b"all", 65_530, 600), 600), (list(1_023), 3)] {
            let (code, filled) = with_each_buffer(&request, &image);
            assert_eq!((code, filled), (0, Lent { output, list: 0 }));
        }

        let free = [3, 128, 20_000, 20_001, 40_000, 65_533];
        let image = largest(edition, &free);
        let geometry = geometry();
        let first = |extent| geometry.extent_at(Extent(extent)).0;
        let (answer, Filled { list, .. }) = alike(
            &write(b"new", 0, vec![1]),
            &image,
            only_list(1_053 * RECORD),
        );
        assert_eq!(answer.code(), 0);
        let sectors: Vec<u64> = groups(&list)[0].iter().map(|write| write.sector).collect();
        let staged = first(128);
        assert_eq!(
            sectors,
            [first(3), staged, staged + 1, geometry.journal_at().0]
        );
        let taken = geometry.table_at().0 as usize * SECTOR + 4 * 3;
        let mut after = image;
        assert_eq!(goofs::carry_out(&mut after, &list), 0);
        assert_eq!(after[taken..taken + 4], [0, 0, 0, 0]);
        // Five are free now.
        let two = write(b"new", 1, vec![1; 65_536]);
        let (answer, _) = alike(&two, &after, only_list(1_053 * RECORD));
        assert_eq!(answer.code(), 13);
    });
}
