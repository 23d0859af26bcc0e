//! Volumes of other writers: scattered extents, the last ones taken, fewer than K free.

use crate::answers::code;
use crate::layout::{get16, Edition, Extent, Geometry};
use crate::lists::RECORD;
use crate::power::{data_sectors, groups, sector_numbers};
use crate::request::{Lent, Request};
use crate::testing::cuts::foreign_files;
use crate::testing::damage::table_field;
use crate::testing::foreign::{each_call, every_choice};
use crate::testing::images::{blank, put_file};
use crate::testing::requests::{
    create, delete, find, list, read, rename, rename_set, resize, write,
};
use crate::testing::volumes::{Volume, ANY};
use crate::testing::{Filled, Oracle, Subject};
use crate::{carry_out, check, find as find_file};

/// The first sector of an extent of `foreign_files`.
fn extent_at(extent: u64) -> u64 {
    290 + 128 * extent
}

/// Where the first copy of a list stands.
fn first_copy(list: &[u8]) -> u64 {
    let groups = groups(list);
    groups[0][data_sectors(&groups)].sector
}

/// Free are 1, 3 and 4: copies stand in the highest of them, a file gets the lowest.
#[test]
fn staging_and_allocation() {
    for edition in Edition::BOTH {
        let mut volume = foreign_files(edition);
        for request in [create(b"new", 3), read(b"alpha", 0, 1), list(3)] {
            assert_eq!(first_copy(&volume.done(&request).list), extent_at(4));
        }
        for (extent, name) in [(1, &b"new"[..]), (3, b"alpha")] {
            let size = if extent == 1 { 0 } else { 131_072 };
            if extent == 3 {
                volume.done(&resize(b"alpha", size));
            }
            let Filled { list, .. } = volume.done(&write(name, size, vec![1; 600]));
            assert_eq!(sector_numbers(&list)[0], extent_at(extent));
            assert_eq!(first_copy(&list), extent_at(4));
        }
        // One is free now, and it stays so.
        assert_eq!(
            volume.call(&Oracle, &write(b"new", 600, vec![1; 65_000])).0,
            code::NO_ROOM
        );
        volume.done(&write(b"new", 600, vec![1; 10]));
        // What is freed now can be staged in next.
        let Filled { list, .. } = volume.done(&delete(b"alpha"));
        assert_eq!(first_copy(&list), extent_at(4));
        let Filled { list, .. } = volume.done(&delete(b"be ta"));
        assert_eq!(first_copy(&list), extent_at(5));
    }
}

/// All six extents belong to files.
fn full() -> Volume {
    let mut volume = foreign_files(Edition::First);
    volume.put_file(9, b"rest", 196_608, &[4, 1, 3]);
    volume.compare();
    volume
}

/// 13 for every call with a target, also those that would free extents; 8, 9, 10 and 12 go before
/// it, 14 after. Calls without a target are done.
#[test]
fn fewer_than_k_free() {
    let mut volume = full();
    assert_eq!(check(&volume.image).code, 0);
    for (expected, request) in [
        (13, create(b"new", 3)),
        (8, create(b"new", 0)),
        (10, create(b"rest", 3)),
        (13, delete(b"rest")),
        (9, delete(b"none")),
        (13, resize(b"rest", 0)),
        (13, resize(b"rest", 196_607)),
        (13, resize(b"rest", 196_609)),
        (8, resize(b"rest", 262_145)),
        (0, resize(b"rest", 196_608)),
        (13, write(b"rest", 0, vec![1])),
        (13, write(b"rest", 196_608, vec![1])),
        (12, write(b"rest", 196_609, vec![1])),
        (0, write(b"rest", 5, Vec::new())),
        (13, rename(b"be ta", b"new")),
        (13, rename(b"be ta", b"rest")),
        (0, rename(b"rest", b"rest")),
        (13, rename_set(&[(b"be ta", b"t"), (b"t", b"rest")])),
        (9, rename_set(&[(b"be ta", b"t"), (b"be ta", b"rest")])),
        (0, rename_set(&[(b"rest", b"rest")])),
        (0, find(b"rest")),
        (0, Request::Check),
    ] {
        let before = volume.ledger.clone();
        for lent in [ANY, Lent::NONE] {
            let (answer, filled) = Oracle.ask(&request, &volume.image, lent);
            assert_eq!(answer.code(), expected, "{request:?}");
            assert_eq!(filled, Filled::default());
        }
        assert_eq!(volume.call(&Oracle, &request).0, expected);
        assert_eq!(volume.ledger, before);
    }
}

/// Read and list answer with an empty list, into a list of any length, and no time is set.
#[test]
fn access_times_without_room() {
    let mut volume = full();
    let before = volume.image.clone();
    for (request, output) in [
        (read(b"rest", 65_530, 10), 10),
        (read(b"rest", 0, 0), 0),
        (list(9), 4),
    ] {
        for list in [0, 9 * RECORD] {
            let (answer, filled) = Oracle.ask(&request, &volume.image, Lent { output, list });
            assert_eq!((answer.code(), filled.output.len()), (0, output));
            assert_eq!((answer.list_length(), filled.list.len()), (0, 0));
        }
        volume.done(&request);
        if output > 0 {
            let short = Lent {
                output: output - 1,
                list: 9 * RECORD,
            };
            let (answer, _) = Oracle.ask(&request, &volume.image, short);
            assert_eq!(answer.code(), code::BUFFER_TOO_SHORT);
        }
    }
    for (expected, request) in [
        (8, read(b"rest", 0, 65_537)),
        (9, read(b"none", 0, 1)),
        (12, read(b"rest", 196_609, 1)),
        (8, list(255)),
        (9, list(0)),
    ] {
        assert_eq!(volume.call(&Oracle, &request).0, expected);
    }
    assert!(volume.image == before);
}

/// K is 2 with 126 table sectors. The two free extents don't touch: of 129 copies the last stands in
/// the second.
#[test]
fn staging_in_two_extents() {
    let geometry = Geometry::new(255, 16_128, 128).expect("within the bounds");
    assert_eq!(
        (geometry.table_sectors(), geometry.reserve_extents()),
        (126, 2)
    );
    let mut image = blank(geometry, geometry.end().0);
    let extents: Vec<u64> = (0..16_128)
        .filter(|extent| *extent != 5 && *extent != 900)
        .collect();
    let size = extents.len() as u64 * 65_536;
    put_file(&mut image, geometry, 3, b"large", size, &extents);
    put_file(&mut image, geometry, 200, b"new", 0, &[]);
    assert_eq!(check(&image).code, 0);
    let lent = Lent::both(300 * RECORD);
    let (answer, _) = Oracle.ask(&write(b"new", 0, vec![1]), &image, lent);
    assert_eq!(answer.code(), code::NO_ROOM);
    let (answer, filled) = Oracle.ask(&rename(b"new", b"large"), &image, lent);
    assert_eq!(answer.code(), 0);
    let copies: Vec<u64> = groups(&filled.list)[0]
        .iter()
        .map(|record| record.sector)
        .collect();
    let at = |extent| geometry.extent_at(Extent(extent)).0;
    assert_eq!(copies[..128], (at(5)..at(5) + 128).collect::<Vec<u64>>());
    assert_eq!(copies[128], at(900));
    assert_eq!(copies[129], geometry.journal_at().0);
    assert_eq!(carry_out(&mut image, &filled.list), 0);
    assert_eq!(check(&image).code, 0);
    assert_eq!(find_file(&image, b"large").index, 200);
}

/// Every choice of free extents of six, and every call on it.
#[test]
fn every_choice_of_free_extents() {
    for edition in Edition::BOTH {
        let mut codes = [0; 15];
        for free in every_choice() {
            let given = each_call(&Oracle, edition, &free);
            let refused = given[13];
            match free.len() {
                // All but summary, check, find, what changes nothing, and what only reads.
                0 => assert_eq!((refused, given[0]), (14, 12), "{given:?}"),
                // Only what needs an extent.
                1 => assert_eq!((refused, given[0]), (4, 22), "{given:?}"),
                _ => assert_eq!((refused, given[0]), (0, 26), "{given:?}"),
            }
            for (sum, given) in codes.iter_mut().zip(given) {
                *sum += given;
            }
        }
        // A set's second rename has no file.
        assert_eq!((codes[0] + codes[13], codes[9]), (64 * 26, 64));
    }
}

/// From a format on, files get all but K extents, and copies stand where the summary says.
#[test]
fn own_volumes() {
    let mut volume = Volume::sample();
    volume.done(&create(b"one", 1));
    for extent in 0..3 {
        let Filled { list, .. } = volume.done(&resize(b"one", (extent + 1) * 65_536));
        assert_eq!(first_copy(&list), 674);
        assert_eq!(get16(&volume.image, table_field(extent, 0)), 0);
    }
    let (code, _) = volume.call(&Oracle, &resize(b"one", 3 * 65_536 + 1));
    assert_eq!(code, code::NO_ROOM);
}
