//! Rename: what it writes, byte by byte, the longest one, and older volumes after the reserve grew.

use crate::answers::code;
use crate::draw::Draw;
use crate::layout::{get16, get32, put32, Geometry, SECTOR};
use crate::lists::{BARRIER, RECORD};
use crate::power::{groups, sector_numbers};
use crate::testing::damage::{entry_field, table_field};
use crate::testing::images::{blank, put_file};
use crate::testing::requests::{find, read, rename};
use crate::testing::volumes::{some_files, Volume, ANY, ANY_LIST, SAMPLE};
use crate::testing::{Filled, Oracle, Subject};
use crate::{check, FormatRequest, Lent};

/// `some_files` with noise in all unused bytes.
fn noisy_files() -> Volume {
    let mut volume = some_files();
    volume.disturb(&mut Draw::new(71));
    volume
}

fn entry(image: &[u8], index: u64) -> &[u8] {
    &image[entry_field(index, 0)..][..SECTOR]
}

/// The entry with another name, as the rules say it: "ab" is file 1.
fn renamed(old: &[u8], name: &[u8]) -> Vec<u8> {
    let mut entry = old.to_vec();
    let version = get32(&entry, 10);
    put32(&mut entry, 10, version + 1);
    put32(&mut entry, 30, 6_000);
    entry[34..36].copy_from_slice(&(name.len() as u16).to_be_bytes());
    entry[36..].fill(0);
    entry[36..36 + name.len()].copy_from_slice(name);
    entry
}

fn changed_root(old: &[u8]) -> Vec<u8> {
    let mut root = old.to_vec();
    let version = get32(&root, 0);
    put32(&mut root, 0, version + 1);
    put32(&mut root, 20, 6_000);
    root
}

#[test]
fn to_a_new_name() {
    for name in [&b"n"[..], b"abcd", &[b'n'; 476]] {
        let mut volume = noisy_files();
        let before = volume.image.clone();
        let Filled { list, .. } = volume.done(&rename(b"ab", name));
        // Six extents of 128 sectors from sector 290 on; the last is the reserve.
        let reserve = 290 + 5 * 128;
        let expected = [
            reserve,
            reserve + 1,
            257,
            BARRIER,
            0,
            BARRIER,
            1,
            3,
            BARRIER,
            0,
            BARRIER,
        ];
        assert_eq!(sector_numbers(&list), expected);
        let mut expected = before.clone();
        expected[SECTOR..2 * SECTOR].copy_from_slice(&changed_root(&before[SECTOR..2 * SECTOR]));
        expected[entry_field(1, 0)..entry_field(2, 0)]
            .copy_from_slice(&renamed(entry(&before, 1), name));
        let metadata = 257 * SECTOR;
        assert!(volume.image[..metadata] == expected[..metadata]);
        assert_eq!(volume.call(&Oracle, &find(b"ab")).0, code::NOT_THERE);
        assert_eq!(volume.done(&read(name, 131_072, 9)).output.len(), 1);
    }
}

/// The renamed file keeps its slot, higher or lower than the replaced one's, whose extents are free
/// then; the root's version rises by one.
#[test]
fn onto_an_existing_name() {
    for (old, new, slot, replaced) in [
        (&b"abc"[..], &b"ab"[..], 2, 1),
        (b"a", b"cab", 0, 5),
        (b"cab", b"a", 5, 0),
    ] {
        let mut volume = noisy_files();
        let before = volume.image.clone();
        let freed: Vec<u64> = (0..6)
            .filter(|extent| u64::from(get16(&before, table_field(*extent, 0))) == replaced)
            .collect();
        let Filled { list, .. } = volume.done(&rename(old, new));
        let table = usize::from(!freed.is_empty());
        assert_eq!(groups(&list)[2].len(), 3 + table);
        let image = &volume.image;
        assert_eq!(
            image[SECTOR..2 * SECTOR],
            changed_root(&before[SECTOR..2 * SECTOR])
        );
        assert_eq!(entry(image, replaced), [0; SECTOR]);
        assert_eq!(entry(image, slot), renamed(entry(&before, slot), new));
        for extent in freed {
            assert_eq!(image[table_field(extent, 0)..][..4], [255; 4]);
        }
        assert_eq!(check(image).code, 0);
    }
}

/// Done with an empty list, in a list of any length; a name that is not there is 9.
#[test]
fn to_itself() {
    let volume = noisy_files();
    for (name, expected) in [(&b"ab"[..], 0), (b"a", 0), (b"b", code::NOT_THERE)] {
        for length in [0, 1, ANY_LIST] {
            let lent = Lent::both(length);
            let (answer, filled) = Oracle.ask(&rename(name, name), &volume.image, lent);
            assert_eq!((answer.code(), filled.list.len()), (expected, 0));
        }
    }
}

/// Lists of exactly the right length and one byte less.
#[test]
fn list_lengths() {
    let volume = noisy_files();
    for (old, new, records) in [
        (b"ab", &b"new"[..], 11),
        (b"ab", b"a", 13),
        (b"ab", b"abc", 15),
    ] {
        let request = rename(old, new);
        let exact = Lent::both(records * RECORD);
        let short = Lent::both(records * RECORD - 1);
        let (refused, _) = Oracle.ask(&request, &volume.image, short);
        assert_eq!(refused.code(), code::BUFFER_TOO_SHORT);
        let (answer, filled) = Oracle.ask(&request, &volume.image, exact);
        assert_eq!((answer.code(), filled.list.len()), (0, records * RECORD));
    }
}

#[test]
fn versions_wrap() {
    let mut volume = noisy_files();
    put32(&mut volume.image, SECTOR, u32::MAX);
    put32(&mut volume.image, entry_field(1, 10), u32::MAX);
    let (_, filled) = Oracle.ask(&rename(b"ab", b"a"), &volume.image, ANY);
    assert_eq!(crate::carry_out(&mut volume.image, &filled.list), 0);
    assert_eq!(get32(&volume.image, SECTOR), 0);
    assert_eq!(get32(&volume.image, entry_field(1, 10)), 0);
}

/// Onto a file with an extent in each of 512 table sectors.
#[test]
fn longest_rename() {
    let geometry = Geometry::new(255, 65_535, 128).expect("within the bounds");
    let mut image = blank(geometry, geometry.end().0);
    let extents: Vec<u64> = (0..geometry.usable_extents()).collect();
    let size = geometry.usable_extents() * 65_536;
    put_file(&mut image, geometry, 3, b"large", size, &extents);
    put_file(&mut image, geometry, 200, b"new", 0, &[]);
    let length = 1_053 * RECORD;
    let request = rename(b"new", b"large");
    let (short, _) = Oracle.ask(&request, &image, Lent::both(length - 1));
    assert_eq!(short.code(), code::BUFFER_TOO_SHORT);
    let (answer, Filled { list, .. }) = Oracle.ask(&request, &image, Lent::both(length));
    assert_eq!((answer.code(), list.len()), (0, length));
    let sizes: Vec<usize> = groups(&list).iter().map(Vec::len).collect();
    assert_eq!(sizes, [515 + 17, 1, 515, 1]);
    // The last copy still stands in the reserve.
    let last_copy = groups(&list)[0][514].sector;
    assert!(last_copy < geometry.end().0);
}

/// With 126 table sectors and extents of 128 sectors the reserve grew from one extent to two. Older
/// volumes stay sound; a full one has no room for copies any more.
#[test]
fn older_volumes() {
    let format = FormatRequest {
        sectors: 546 + 255 + 16_128 * 128,
        ..SAMPLE
    };
    let geometry = format.geometry().expect("there is one");
    assert_eq!(geometry.reserve_extents(), 2);
    let last_usable = 16_126;
    for (free, code) in [(1, code::NO_ROOM), (2, code::DONE)] {
        let mut image = blank(geometry, geometry.end().0);
        let extents: Vec<u64> = (free - 1..=last_usable).collect();
        let size = extents.len() as u64 * 65_536;
        put_file(&mut image, geometry, 7, b"old", size, &extents);
        assert_eq!(check(&image).code, 0);
        let lent = Lent::both(1_053 * RECORD);
        let (answer, _) = Oracle.ask(&rename(b"old", b"new"), &image, lent);
        assert_eq!(answer.code(), code);
    }
}
