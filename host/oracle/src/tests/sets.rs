//! Sets of renames: chains, swaps, places of refusals, the longest list and the bound of targets.

use crate::answers::{code, ChangeAnswer};
use crate::draw::Draw;
use crate::layout::{get32, Edition, Geometry, SECTOR};
use crate::lists::RECORD;
use crate::power::groups;
use crate::request::{Answer, Lent, Request};
use crate::testing::requests::{at_time, delete, find, rename, rename_set, write};
use crate::testing::sets::{bad_shapes, onto_all, sixteen_files, CHAINS, PLACES};
use crate::testing::volumes::{some_files, some_files_of, Volume, ANY};
use crate::testing::{Filled, Oracle, Subject};
use crate::{carry_out, check};

/// Index and version of a file.
fn found(volume: &Volume, name: &[u8]) -> Option<(u64, u64)> {
    let answer = crate::find(&volume.image, name);
    (answer.code == 0).then_some((answer.index, answer.version))
}

fn root_version(volume: &Volume) -> u32 {
    get32(&volume.image, SECTOR)
}

fn targets(list: &[u8]) -> Vec<u64> {
    groups(list)[2].iter().map(|target| target.sector).collect()
}

#[test]
fn chains_and_swaps() {
    for edition in Edition::BOTH {
        for (renames, there, gone, expected) in CHAINS {
            let mut volume = some_files_of(edition);
            volume.disturb(&mut Draw::new(111));
            let before = root_version(&volume);
            let Filled { list, .. } = volume.done(&rename_set(renames));
            assert_eq!(targets(&list), expected);
            for (name, index, version) in there {
                assert_eq!(found(&volume, name), Some((*index, *version)));
            }
            for name in gone {
                assert_eq!(found(&volume, name), None);
            }
            let applied = renames.iter().filter(|(old, new)| old != new).count();
            assert_eq!(root_version(&volume), before + applied as u32);
            assert_eq!(check(&volume.image).code, 0);
        }
    }
}

/// A set of one is a rename in every number and byte.
#[test]
fn set_of_one() {
    let volume = some_files();
    for (old, new) in [
        (&b"ab"[..], &b"new"[..]),
        (b"ab", b"abc"),
        (b"a", b"cab"),
        (b"a", b"a"),
        (b"none", b"a"),
        (b"a", b"/"),
        (b"", b"a"),
    ] {
        for length in [0, 11 * RECORD - 1, 11 * RECORD, 200 * RECORD] {
            let lent = Lent::both(length);
            let single = at_time(rename(old, new), 9_000);
            let set = rename_set(&[(old, new)]);
            let single = Oracle.ask(&single, &volume.image, lent);
            assert_eq!(Oracle.ask(&set, &volume.image, lent), single);
        }
    }
}

fn refused(request: &Request) -> (u64, u64) {
    let volume = some_files();
    for lent in [Lent::NONE, ANY] {
        let (answer, filled) = Oracle.ask(request, &volume.image, lent);
        assert_eq!(filled, Filled::default());
        assert_eq!(volume.ledger.answer(request, lent), answer);
    }
    let (answer, _) = Oracle.ask(request, &volume.image, Lent::NONE);
    let Answer::Change(ChangeAnswer { code, place, .. }) = answer else {
        panic!("a set's answer")
    };
    (code, place)
}

#[test]
fn places() {
    for (renames, expected) in PLACES {
        assert_eq!(refused(&rename_set(renames)), expected, "{renames:?}");
    }
}

#[test]
fn shapes() {
    for request in bad_shapes() {
        assert_eq!(refused(&request), (code::BAD_ARGUMENT, 0), "{request:?}");
    }
    // Eight are accepted, and empty names are the rename's own fault.
    let mut volume = some_files();
    let eight: Vec<(&[u8], &[u8])> = [(&b"a"[..], &b"x"[..]), (b"x", b"a")].repeat(4);
    volume.done(&rename_set(&eight));
    assert_eq!(found(&volume, b"a"), Some((0, 8)));
    let empty = rename_set(&[(b"a", b"x"), (b"", b"")]);
    assert_eq!(refused(&empty), (code::BAD_ARGUMENT, 1));
}

/// All to itself: an empty list, into a list of any length.
#[test]
fn to_itself() {
    let mut volume = some_files();
    let request = rename_set(&[(b"a", b"a"), (b"ab", b"ab"), (b"a", b"a")]);
    let before = volume.clone();
    let (answer, _) = Oracle.ask(&request, &volume.image, Lent::NONE);
    assert_eq!((answer.code(), answer.list_length()), (0, 0));
    volume.done(&request);
    assert!(volume.image == before.image && volume.ledger == before.ledger);
}

/// T + 17 = 529 targets: 1,081 records, 570,768 bytes.
#[test]
fn longest_set() {
    let geometry = Geometry::new(255, 65_535, 128).expect("within the bounds");
    let Volume {
        mut image,
        mut ledger,
    } = sixteen_files(Edition::First, geometry);
    let length = 1_081 * RECORD;
    assert_eq!(length, 570_768);
    let (short, _) = Oracle.ask(&onto_all(8), &image, Lent::both(length - 1));
    assert_eq!(short.code(), code::BUFFER_TOO_SHORT);
    let (answer, filled) = Oracle.ask(&onto_all(8), &image, Lent::both(length));
    assert_eq!((answer.code(), filled.list.len()), (0, length));
    let sizes: Vec<usize> = groups(&filled.list).iter().map(Vec::len).collect();
    assert_eq!(sizes, [529 + 17, 1, 529, 1]);
    let told = ledger.call(&onto_all(8), Lent::both(length));
    assert_eq!(told.answer, answer);
    assert_eq!(carry_out(&mut image, &filled.list), 0);
    ledger.compare(&image).expect("image and ledger agree");
    assert_eq!(crate::find(&image, b"h").index, 43);
}

/// 112 table sectors and extents of 128 sectors: 129 targets find no room, before 14; seven
/// renames have fewer. The ledger counts them too.
#[test]
fn too_many_targets() {
    let geometry = Geometry::new(255, 112 * 128, 128).expect("within the bounds");
    assert_eq!(
        (geometry.table_sectors(), geometry.reserve_extents()),
        (112, 1)
    );
    let volume = sixteen_files(Edition::First, geometry);
    for (count, lent, expected) in [
        (8, Lent::NONE, code::NO_ROOM),
        (8, Lent::both(400 * RECORD), code::NO_ROOM),
        (7, Lent::NONE, code::BUFFER_TOO_SHORT),
        (7, Lent::both(400 * RECORD), code::DONE),
    ] {
        let (answer, filled) = Oracle.ask(&onto_all(count), &volume.image, lent);
        assert_eq!(answer.code(), expected);
        assert_eq!(volume.ledger.answer(&onto_all(count), lent), answer);
        if expected == code::DONE {
            // The last set's "h" has 14 of the table sectors, and two entries.
            assert_eq!(targets(&filled.list).len(), 129 - 14 - 2);
        }
    }
}

/// After a set, the calls on its files go on as usual.
#[test]
fn after_a_set() {
    let mut volume = some_files();
    volume.done(&rename_set(&[
        (b"ab", b"t"),
        (b"cab", b"ab"),
        (b"t", b"cab"),
    ]));
    volume.done(&write(b"ab", 600, vec![1; 9]));
    volume.done(&delete(b"cab"));
    volume.done(&rename(b"ab", b"cab"));
    volume.done(&find(b"cab"));
}
