//! Rename: both names at every edge, every byte of a new name, the renamed and the replaced file in
//! every order of their slots, and lists exactly long enough and one byte too short.

use crate::counts::{count, Compared};
use crate::shared::{alike, latest_time, on_both, only_list, with_each_buffer, Both};
use oracle::draw::Draw;
use oracle::layout::{get32, sector, Edition, Entry, Geometry, Sector, SECTOR};
use oracle::lists::RECORD;
use oracle::power::sector_numbers;
use oracle::testing::damage::entry_field;
use oracle::testing::images::{blank_of, put_file};
use oracle::testing::requests::{create, find, rename, shortened};
use oracle::testing::volumes::{some_files_of, Volume, ANY};
use oracle::testing::{Filled, Subject};
use oracle::{Lent, Request};

/// The longest name, and three that no call gives.
fn longest(edition: Edition) -> Vec<u8> {
    vec![b'x'; edition.longest_name()]
}

const OLDER: [&[u8]; 3] = [b" ", b"/", &[255; 468]];

/// `some_files` with files of those names and one a byte shorter, and noise in all unused bytes.
fn files(edition: Edition) -> Volume {
    let longest = longest(edition);
    let mut volume = some_files_of(edition);
    volume.done(&create(&longest, 10));
    volume.done(&create(&longest[1..], 11));
    for (index, name) in (20..).zip(OLDER) {
        volume.put_file(index, name, 0, &[]);
    }
    volume.disturb(&mut Draw::new(51));
    volume
}

/// Names of files, those that begin alike, new ones and bad ones.
fn names() -> Vec<Vec<u8>> {
    let mut names: Vec<Vec<u8>> = [
        &b""[..],
        b"a",
        b"ab",
        b"abc",
        b"abcd",
        b"b",
        b"cab",
        b"\0",
        b"ab\0",
        b"\0ab",
        b"!",
        b"~",
        b"\x7f",
        b"\x80",
        b"a b",
        b"a/b",
        b"new/",
    ]
    .iter()
    .chain(&OLDER)
    .map(|name| name.to_vec())
    .collect();
    for length in [467, 468, 469, 475, 476, 477, 511, 512, 513, 65_536] {
        names.push(vec![b'x'; length]);
        let mut last = vec![b'x'; length];
        last[length - 1] = b' ';
        names.push(last);
    }
    names
}

#[test]
fn both_names_at_every_edge() {
    on_both(|edition| {
        let volume = files(edition);
        let mut codes = [0; 15];
        for old in names() {
            for new in names() {
                count(Compared::ArgumentEdges, 1);
                let request = rename(&old, &new);
                let (code, filled) = with_each_buffer(&request, &volume.image);
                codes[code as usize] += 1;
                if old == new {
                    assert_eq!(filled.list, 0, "{}", shortened(&request));
                }
            }
        }
        for code in [0, 8, 9] {
            assert!(codes[code] > 50, "{codes:?}");
        }
        assert_eq!(codes.iter().sum::<usize>(), codes[0] + codes[8] + codes[9]);
    });
}

/// A byte alone, first, in the middle and last: 33 to 126 without 47 are good, in create and in the
/// new name of a rename.
#[test]
fn every_byte_of_a_new_name() {
    on_both(|edition| {
        let volume = files(edition);
        let mut good_names = 0;
        for byte in 0..=255 {
            let good = (33..=126).contains(&byte) && byte != 47;
            let long = edition.longest_name();
            for (length, at) in [(1, 0), (3, 0), (3, 1), (3, 2), (long, 0), (long, long - 1)] {
                let mut name = vec![b'n'; length];
                name[at] = byte;
                let there = [&b"a"[..], b"c", b" ", b"/"].contains(&&name[..]);
                let created = match (good, there) {
                    (false, _) => 8,
                    (true, true) => 10,
                    (true, false) => 0,
                };
                // The old name may be any that a file could have.
                let away = match (byte, there) {
                    (0, _) => 8,
                    (_, true) => 0,
                    (_, false) => 9,
                };
                for (expected, request) in [
                    (created, create(&name, 77)),
                    (if good { 0 } else { 8 }, rename(b"ab", &name)),
                    (away, rename(&name, b"new")),
                ] {
                    count(Compared::ArgumentEdges, 1);
                    let (code, _) = with_each_buffer(&request, &volume.image);
                    assert_eq!(code, expected, "{}", shortened(&request));
                }
                good_names += usize::from(good);
            }
        }
        assert_eq!(good_names, 6 * 93);
    });
}

/// Files in the first slots, the last and between, some with extents; each renamed onto each, below
/// and above it, and to a new name. The targets rise.
#[test]
fn slots_in_every_order() {
    on_both(|edition| {
        let geometry = Geometry::new(255, 300, 129).expect("within the bounds");
        let mut image = Draw::new(52).bytes(geometry.end().0 as usize * SECTOR);
        let metadata = geometry.data_at().0;
        image[..metadata as usize * SECTOR].copy_from_slice(&blank_of(edition, geometry, metadata));
        // Their extents stand in none, one, two and all three table sectors.
        let extents: [&[u64]; 6] = [&[], &[127], &[128, 5], &[], &[298, 0, 140], &[256]];
        let slots = [0, 1, 2, 126, 253, 254];
        let longest = longest(edition);
        let names: [&[u8]; 6] = [b"a", b"b", b"c", b"d", &longest, b"f"];
        for ((slot, name), extents) in slots.iter().zip(names).zip(extents) {
            let size = extents.len() as u64 * geometry.extent_bytes();
            put_file(&mut image, geometry, *slot, name, size, extents);
        }
        assert_eq!(oracle::check(&image).code, 0);
        for (this, old) in names.iter().enumerate() {
            let fresh = rename(old, b"n");
            assert_eq!(
                with_each_buffer(&fresh, &image),
                (0, only_list(11 * RECORD))
            );
            for (that, new) in names.iter().enumerate() {
                let request = rename(old, new);
                if this == that {
                    assert_eq!(with_each_buffer(&request, &image), (0, only_list(0)));
                    continue;
                }
                let mut targets = vec![1, 2 + slots[this], 2 + slots[that]];
                targets.extend(extents[that].iter().map(|extent| 289 + extent / 128));
                targets.sort_unstable();
                let records = 2 * targets.len() + 1 + 6;
                assert_eq!(
                    with_each_buffer(&request, &image),
                    (0, only_list(records * RECORD))
                );
                let (_, Filled { list, .. }) = alike(&request, &image, only_list(records * RECORD));
                let numbers = sector_numbers(&list);
                assert_eq!(numbers[targets.len() + 4..][..targets.len()], targets);
                landed(edition, &image, &list, slots[this], slots[that], new);
            }
        }
    });
}

/// The list, landed: the renamed file in its slot, zeros in the replaced one's.
fn landed(edition: Edition, image: &[u8], list: &[u8], slot: u64, replaced: u64, name: &[u8]) {
    let mut after = image.to_vec();
    assert_eq!(Both.carry_out(&mut after, list), 0);
    assert_eq!(oracle::check(&after).code, 0);
    let entry = |image: &[u8], index, field| get32(image, entry_field(index, field));
    assert_eq!(
        entry(&after, slot, 10),
        entry(image, slot, 10).wrapping_add(1)
    );
    let renamed = Entry {
        sector: sector(&after, Sector(2 + slot)),
        edition,
    };
    assert_eq!(renamed.change_time(), 6_000);
    assert_eq!(
        after[entry_field(slot, 0)..entry_field(slot, 10)],
        image[entry_field(slot, 0)..entry_field(slot, 10)]
    );
    let after_name = entry_field(slot, edition.name() + name.len())..entry_field(slot + 1, 0);
    assert!(after[after_name].iter().all(|byte| *byte == 0));
    assert_eq!(get32(&after, SECTOR), get32(image, SECTOR) + 1);
    assert_eq!(after[entry_field(replaced, 0)..][..SECTOR], [0; SECTOR]);
    let (found, _) = alike(&find(name), &after, Lent::NONE);
    assert_eq!(found.code(), 0);
}

/// Where several conditions hold, the lowest number is given.
#[test]
fn the_lowest_number() {
    on_both(|edition| {
        let volume = files(edition);
        for (expected, request) in [
            (8, rename(b"", b"")),
            (8, rename(b"none", b"")),
            (8, rename(b"", b"none")),
            (8, rename(b"none", b"a b")),
            (8, rename(b" ", b" ")),
            (8, rename(b"ab", b" ")),
            (8, rename(b"none", &[b'x'; 477])),
            (9, rename(b"none", b"none")),
            (9, rename(b"none", b"ab")),
            (9, rename(b"a b", b"ab")),
            (0, rename(b"ab", b"ab")),
            (0, rename(&longest(edition), &longest(edition))),
            (14, rename(b"ab", b"new")),
            (14, rename(b"ab", b"abc")),
            (14, rename(b" ", b"abc")),
        ] {
            for length in [0, 1, RECORD] {
                let (answer, _) = alike(&request, &volume.image, only_list(length));
                assert_eq!(answer.code(), expected, "{}", shortened(&request));
            }
        }
        let mut faulty = volume.clone();
        faulty.image[entry_field(30, 0)] = 1;
        let (answer, _) = alike(&rename(b"", b""), &faulty.image, ANY);
        assert_eq!(answer.code(), 7);
    });
}

/// Times as given, also when the clock goes back.
#[test]
fn times() {
    on_both(|edition| {
        let volume = files(edition);
        let latest = latest_time(edition);
        for time in [0, 1, 0x8090_a0b0, latest - 1, latest] {
            for new in [&b"new"[..], b"abc"] {
                count(Compared::ArgumentEdges, 1);
                let request = Request::Rename {
                    old: b"ab".to_vec(),
                    new: new.to_vec(),
                    time,
                };
                assert_eq!(with_each_buffer(&request, &volume.image).0, 0);
            }
        }
    });
}

/// Renames one after the other, each list landed: a swap by a third name, and back.
#[test]
fn one_after_the_other() {
    on_both(|edition| {
        let mut volume = files(edition);
        let longest = longest(edition);
        for (old, new, expected) in [
            (&b"ab"[..], &b"t"[..], 0),
            (b"abc", b"ab", 0),
            (b"t", b"abc", 0),
            (b"t", b"abc", 9),
            (b"ab", b"abc", 0),
            (b"ab", b"abc", 9),
            (b" ", b"typed", 0),
            (b"typed", b" ", 8),
            (b"typed", b"cab", 0),
            (&longest, b"y", 0),
            (b"y", &longest, 0),
            (&longest[1..], &longest, 0),
        ] {
            let (code, _) = volume.call(&Both, &rename(old, new));
            assert_eq!(code, expected, "{}", shortened(&rename(old, new)));
        }
        assert_eq!(volume.call(&Both, &Request::Check).0, 0);
    });
}
