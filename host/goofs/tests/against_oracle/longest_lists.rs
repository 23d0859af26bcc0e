//! The longest delete, 514 targets in 17 journal sectors, and the longest list of all, a rename's
//! with 515, with their cuts and recoveries, on an image of 4.3 GB; and renames that need the whole
//! reserve.

use crate::full_volume::{alone, geometry, one_file, size_of_all};
use crate::shared::{alike, on_both, only_list, Both};
use oracle::layout::{Edition, Geometry, SECTOR};
use oracle::lists::RECORD;
use oracle::power::{groups, Cut};
use oracle::testing::images::{blank_of, put_file};
use oracle::testing::requests::{delete, rename, resize, write};
use oracle::testing::{Filled, Subject};
use oracle::{Lent, Request};

#[test]
fn longest_delete() {
    on_both(|edition| {
        let _alone = alone();
        let geometry = geometry();
        let mut image = one_file(edition);
        let size = size_of_all();

        let request = delete(b"all");
        let length = 1_051 * RECORD;
        let (answer, Filled { list, .. }) = alike(&request, &image, only_list(length));
        assert_eq!((answer.code(), list.len()), (0, length));
        alike(&request, &image, only_list(length + 1));
        assert_eq!(alike(&request, &image, only_list(length - 1)).0.code(), 14);
        let groups = groups(&list);
        let sizes: Vec<usize> = groups.iter().map(Vec::len).collect();
        assert_eq!(sizes, [514 + 17, 1, 514, 1]);

        // The next longest, a resize, and a write that finds no room.
        for new_size in [0, 1, 65_536, 128 * 65_536, size - 65_536, size - 1, size] {
            alike(&resize(b"all", new_size), &image, only_list(length));
        }
        assert_eq!(
            alike(&resize(b"all", size + 1), &image, only_list(length))
                .0
                .code(),
            13
        );
        alike(
            &write(b"all", size - 70_000, vec![3; 65_536]),
            &image,
            only_list(length),
        );

        cut_and_recovered(&mut image, geometry, &list, 514);
        let mut expected = one_file(edition);
        assert_eq!(oracle::carry_out(&mut expected, &list), 0);
        same_where_written(&image, &expected, geometry);
    });
}

/// The power fails in the middle of the targets; recovery ends the change.
pub fn cut_and_recovered(image: &mut [u8], geometry: Geometry, list: &[u8], targets: usize) {
    let groups = groups(list);
    let every_third = Cut {
        groups_before: 2,
        landed: (0..targets).step_by(3).collect(),
    };
    every_third.apply(&groups, image);
    assert_eq!(alike(&Request::Check, image, Lent::NONE).0.code(), 5);
    let length = (targets + 3) * RECORD;
    let (short, _) = Both.recover(image, length - 1);
    assert_eq!(short.code, 14);
    let (recovered, recovery) = Both.recover(image, length);
    assert_eq!((recovered.code, recovered.length), (0, length as u64));
    let replayed = recovery.chunks(RECORD).take(targets + 1);
    let in_list = list.chunks(RECORD).skip(groups[0].len() + 1 + 2);
    assert!(replayed.zip(in_list).all(|(a, b)| a[8..] == b[8..]));

    assert_eq!(goofs::carry_out(image, &recovery), 0);
    for record in recovery.chunks(RECORD).take(targets) {
        let sector = u64::from_be_bytes(record[8..16].try_into().expect("eight bytes"));
        assert!(sector < geometry.data_at().0);
        assert!(image[sector as usize * SECTOR..][..SECTOR] == record[16..]);
    }
    assert_eq!(alike(&Request::Check, image, Lent::NONE).0.code(), 0);
}

/// So large an image is compared only where the list writes: in the metadata and the reserve.
fn same_where_written(image: &[u8], expected: &[u8], geometry: Geometry) {
    let metadata = ..geometry.data_at().0 as usize * SECTOR;
    let reserve = geometry.reserve_at().0 as usize * SECTOR..;
    assert!(image[metadata] == expected[metadata]);
    assert!(image[reserve.clone()] == expected[reserve]);
}

/// Onto the file with all usable extents, from an entry below it and from one above it.
#[test]
fn longest_rename() {
    on_both(|edition| {
        let _alone = alone();
        let geometry = geometry();
        for (index, replaced) in [(0, 1_023), (1_023, 0)] {
            let before = two_files(edition, geometry, index, replaced);
            let request = rename(b"new", b"all");
            let length = 1_053 * RECORD;
            let (answer, Filled { list, .. }) = alike(&request, &before, only_list(length));
            assert_eq!((answer.code(), list.len()), (0, length));
            alike(&request, &before, only_list(length + 1));
            assert_eq!(alike(&request, &before, only_list(length - 1)).0.code(), 14);
            let sizes: Vec<usize> = groups(&list).iter().map(Vec::len).collect();
            assert_eq!(sizes, [515 + 17, 1, 515, 1]);
            // Away from the full file only root and entry move.
            let (away, filled_away) = alike(&rename(b"all", b"old"), &before, only_list(length));
            assert_eq!((away.code(), filled_away.list.len()), (0, 11 * RECORD));
            let (onto, filled_onto) = alike(&rename(b"all", b"new"), &before, only_list(length));
            assert_eq!((onto.code(), filled_onto.list.len()), (0, 13 * RECORD));

            let mut image = before;
            cut_and_recovered(&mut image, geometry, &list, 515);
            let mut expected = two_files(edition, geometry, index, replaced);
            assert_eq!(oracle::carry_out(&mut expected, &list), 0);
            same_where_written(&image, &expected, geometry);
            let found = oracle::find(&image, b"all");
            assert_eq!((found.code, found.index, found.size), (0, index, 0));
        }
    });
}

/// "new" is empty, "all" has all usable extents.
fn two_files(edition: Edition, geometry: Geometry, new: u64, all: u64) -> Vec<u8> {
    let mut image = blank_of(edition, geometry, geometry.end().0);
    let extents: Vec<u64> = (0..geometry.usable_extents()).collect();
    let size = extents.len() as u64 * geometry.extent_bytes();
    put_file(&mut image, geometry, new, b"new", 0, &[]);
    put_file(&mut image, geometry, all, b"all", size, &extents);
    image
}

/// T table sectors, all of which a rename frees an extent in: its T + 3 copies fill the reserve of
/// K extents to the last sector, or need one sector of the last extent. With extents of 128 sectors
/// and, made by hand, of 129.
#[test]
fn renames_that_need_the_whole_reserve() {
    on_both(|edition| {
        let _alone = alone();
        for (table_sectors, extent_sectors, reserve, unused) in [
            (125, 128, 1, 0),
            (126, 128, 2, 127),
            (253, 128, 2, 0),
            (254, 128, 3, 127),
            (509, 128, 4, 0),
            (510, 128, 5, 127),
            (126, 129, 1, 0),
            (127, 129, 2, 128),
        ] {
            // The last table sector has an entry before the reserve's.
            let extents = table_sectors * 128;
            let geometry = Geometry::new(255, extents, extent_sectors).expect("within the bounds");
            assert_eq!(geometry.reserve_extents(), reserve);
            let mut image = two_files(edition, geometry, 0, 254);
            let targets = table_sectors as usize + 3;
            let length = (2 * targets + targets.div_ceil(32) + 6) * RECORD;
            let request = rename(b"new", b"all");
            let (answer, Filled { list, .. }) = alike(&request, &image, only_list(length));
            assert_eq!((answer.code(), list.len()), (0, length));
            assert_eq!(alike(&request, &image, only_list(length - 1)).0.code(), 14);
            let last_copy = groups(&list)[0][targets - 1].sector;
            assert_eq!(last_copy + 1 + unused, geometry.end().0);
            cut_and_recovered(&mut image, geometry, &list, targets);
            assert_eq!(oracle::find(&image, b"all").size, 0);
            assert_eq!(oracle::find(&image, b"new").code, 9);
        }
    });
}
