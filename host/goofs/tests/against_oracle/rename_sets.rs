//! Sets of renames: what each leaves, shapes and places of refusals, names at every edge, slots in every
//! order, the longest list, and more targets than the reserve has sectors.

use crate::counts::{count, Compared};
use crate::full_volume::alone;
use crate::longest_lists::cut_and_recovered;
use crate::shared::{alike, latest_time, on_both, only_list, with_each_buffer, Both};
use oracle::draw::Draw;
use oracle::layout::{get32, Edition, Geometry, SECTOR};
use oracle::lists::RECORD;
use oracle::power::groups;
use oracle::testing::damage::entry_field;
use oracle::testing::images::{blank_of, put_file};
use oracle::testing::requests::{at_time, create, find, rename, rename_set, shortened, Renames};
use oracle::testing::sets::{bad_shapes, onto_all, sixteen_files, CHAINS, PLACES};
use oracle::testing::volumes::{some_files_of, Volume, ANY};
use oracle::{Answer, Lent, Request};

/// `some_files` with noise in all unused bytes.
fn files(edition: Edition) -> Volume {
    let mut volume = some_files_of(edition);
    volume.disturb(&mut Draw::new(53));
    volume
}

/// The code and the place of a set, which are the same with a long list and with none.
fn refused(request: &Request, image: &[u8]) -> (u64, u64) {
    let mut given = Vec::new();
    for lent in [ANY, Lent::NONE] {
        let (answer, filled) = alike(request, image, lent);
        assert!(filled.list.is_empty(), "{}", shortened(request));
        let Answer::Change(answer) = answer else {
            panic!("a set's answer")
        };
        assert_eq!((answer.fault, answer.length), (0, 0));
        given.push((answer.code, answer.place));
    }
    assert_eq!(given[0], given[1], "{}", shortened(request));
    given[0]
}

/// Chains, a swap through a third name, what is none, a name renamed onto and away again, and one that
/// is replaced twice: the targets, and what is found when the list has landed.
#[test]
fn chains_and_swaps() {
    on_both(|edition| {
        for (renames, there, gone, targets) in CHAINS {
            let mut volume = files(edition);
            let request = rename_set(renames);
            let before = get32(&volume.image, SECTOR);
            let (code, lent) = with_each_buffer(&request, &volume.image);
            let records = 2 * targets.len() + 1 + 6;
            assert_eq!(
                (code, lent),
                (0, only_list(records * RECORD)),
                "{renames:?}"
            );
            let (_, filled) = alike(&request, &volume.image, lent);
            let written = &groups(&filled.list)[2];
            let written: Vec<u64> = written.iter().map(|target| target.sector).collect();
            assert_eq!(written, targets, "{renames:?}");

            assert_eq!(volume.call(&Both, &request).0, 0);
            for (name, index, version) in there {
                let (answer, _) = alike(&find(name), &volume.image, Lent::NONE);
                let Answer::Find(found) = answer else {
                    panic!("a find's answer")
                };
                assert_eq!(
                    (found.index, found.version),
                    (*index, *version),
                    "{renames:?}"
                );
            }
            for name in gone {
                let (answer, _) = alike(&find(name), &volume.image, Lent::NONE);
                assert_eq!(answer.code(), 9, "{renames:?}");
            }
            let applied = renames.iter().filter(|(old, new)| old != new).count() as u32;
            assert_eq!(get32(&volume.image, SECTOR), before + applied);
        }
    });
}

#[test]
fn shapes() {
    on_both(|edition| {
        let volume = files(edition);
        for request in bad_shapes() {
            count(Compared::ArgumentEdges, 1);
            let wide = request.time() > Some(latest_time(Edition::First));
            let expected = if wide && edition == Edition::Second {
                9
            } else {
                8
            };
            assert_eq!(
                refused(&request, &volume.image),
                (expected, 0),
                "{request:?}"
            );
        }
        // 7 goes before them, with its own place.
        let mut faulty = volume.image.clone();
        faulty[entry_field(30, 0)] = 1;
        for request in bad_shapes() {
            let (answer, _) = alike(&request, &faulty, ANY);
            let Answer::Change(answer) = answer else {
                panic!("a set's answer")
            };
            assert_eq!((answer.code, answer.fault, answer.place), (7, 21, 30));
        }
        // Every count of lengths: only 2, 4 and so on up to 16 are good. The names are of one byte.
        for lengths in 0..=40 {
            let request = Request::RenameSet {
                names: b"axxa".repeat(10)[..lengths].to_vec(),
                lengths: vec![1; lengths],
                time: 1,
            };
            let good = lengths % 2 == 0 && (2..=16).contains(&lengths);
            let (code, _) = with_each_buffer(&request, &volume.image);
            assert_eq!(code, if good { 0 } else { 8 }, "{lengths}");
        }
        // Very many lengths, none of which is looked at.
        let many = Request::RenameSet {
            names: Vec::new(),
            lengths: vec![0; 100_000],
            time: 1,
        };
        assert_eq!(refused(&many, &volume.image), (8, 0));
    });
}

#[test]
fn places() {
    on_both(|edition| {
        let volume = files(edition);
        for (renames, expected) in PLACES {
            count(Compared::ArgumentEdges, 1);
            let given = refused(&rename_set(renames), &volume.image);
            assert_eq!(given, expected, "{renames:?}");
        }
        // At each place, with good renames before it and worse ones behind it.
        for place in 0..8 {
            for (code, bad) in [
                (8, (&b""[..], &b"n"[..])),
                (8, (b"ab", b"n/")),
                (9, (b"none", b"n")),
                (9, (b"none", b"none")),
            ] {
                let mut renames: Vec<(&[u8], &[u8])> =
                    [(&b"a"[..], &b"x"[..]), (b"x", b"a")].repeat(4);
                renames[place] = bad;
                renames[place + 1..].fill((b"", b""));
                let given = refused(&rename_set(&renames), &volume.image);
                assert_eq!(given, (code, place as u64), "{renames:?}");
            }
        }
    });
}

/// A set of one is a rename in every number and every byte, with each length of the list.
#[test]
fn set_of_one() {
    on_both(|edition| {
        let mut volume = files(edition);
        let longest = vec![b'x'; edition.longest_name()];
        volume.done(&create(&longest, 10));
        volume.put_file(20, b"a b", 0, &[]);
        let too_long = vec![b'x'; edition.longest_name() + 1];
        let names: [&[u8]; 11] = [
            b"", b"a", b"ab", b"abc", b"cab", b"none", b"new", b"a b", b"a\0", &longest, &too_long,
        ];
        let mut codes = [0; 15];
        for old in names {
            for new in names {
                for time in [9_000, latest_time(edition), u64::MAX] {
                    count(Compared::ArgumentEdges, 1);
                    let single = at_time(rename(old, new), time);
                    let set = at_time(rename_set(&[(old, new)]), time);
                    let (_, lent) = with_each_buffer(&single, &volume.image);
                    assert_eq!(with_each_buffer(&set, &volume.image).1, lent);
                    for length in [0, lent.list.saturating_sub(1), lent.list, lent.list + 1] {
                        let lent = only_list(length);
                        let expected = alike(&single, &volume.image, lent);
                        assert_eq!(alike(&set, &volume.image, lent), expected);
                        codes[expected.0.code() as usize] += 1;
                    }
                }
            }
        }
        for code in [0, 8, 9, 14] {
            assert!(codes[code] > 50, "{codes:?}");
        }
    });
}

/// Each name of the second rename at every edge, the bounds of the names among them: those before and
/// behind it in the bytes are good.
#[test]
fn names_at_every_edge() {
    on_both(|edition| {
        let volume = files(edition);
        let mut codes = [0; 15];
        for length in [0, 1, 2, 466, 467, 468, 469, 475, 476, 477, 512, 65_536] {
            for byte in [0, b' ', b'!', b'/', b'x', b'~', 127, 128, 255] {
                let name = vec![byte; length];
                for renames in [
                    [(&b"a"[..], &b"y"[..]), (&name[..], b"z"), (b"c", b"d")],
                    [(b"a", b"y"), (b"y", &name), (b"c", b"d")],
                    [(b"a", b"y"), (b"y", &name), (&name, b"a")],
                    [(b"a", b"y"), (&name, &name), (b"c", b"d")],
                ] {
                    count(Compared::ArgumentEdges, 1);
                    let (code, _) = with_each_buffer(&rename_set(&renames), &volume.image);
                    codes[code as usize] += 1;
                }
            }
        }
        for code in [0, 8, 9] {
            assert!(codes[code] > 20, "{codes:?}");
        }
    });
}

/// Files in the first slots, the last and between, whose extents stand in none, one and all of three
/// table sectors; sets of up to eight renames among them and two more names.
#[test]
fn random_sets() {
    on_both(|edition| {
        let geometry = Geometry::new(255, 300, 129).expect("within the bounds");
        let mut draw = Draw::new(54);
        let mut image = draw.bytes(geometry.end().0 as usize * SECTOR);
        let metadata = geometry.data_at().0;
        image[..metadata as usize * SECTOR].copy_from_slice(&blank_of(edition, geometry, metadata));
        let extents: [&[u64]; 6] = [&[], &[127], &[128, 5], &[], &[298, 0, 140], &[256]];
        let slots = [0, 1, 2, 126, 253, 254];
        let longest = vec![b'x'; edition.longest_name()];
        let names: [&[u8]; 8] = [b"a", b"b", b"c", b"d", &longest, b"f", b"t", b"u"];
        for ((slot, name), extents) in slots.iter().zip(names).zip(extents) {
            let size = extents.len() as u64 * geometry.extent_bytes();
            put_file(&mut image, geometry, *slot, name, size, extents);
        }
        assert_eq!(oracle::check(&image).code, 0);
        let mut codes = [0; 15];
        let mut most_targets = 0;
        for _ in 0..3_000 {
            let renames: Vec<(&[u8], &[u8])> = (0..draw.between(1, 8))
                .map(|_| (*draw.pick(&names), *draw.pick(&names)))
                .collect();
            let (code, lent) = with_each_buffer(&rename_set(&renames), &image);
            codes[code as usize] += 1;
            most_targets = most_targets.max(lent.list / RECORD / 2);
        }
        assert!(codes[0] > 500 && codes[9] > 500, "{codes:?}");
        // The root, six entries, three table sectors.
        assert_eq!(most_targets, (2 * 10 + 1 + 6) / 2);
    });
}

/// Sets one after the other, each list landed, up to the last file.
#[test]
fn one_after_the_other() {
    on_both(|edition| {
        let mut volume = files(edition);
        let sets: [(Renames, u64); 8] = [
            (&[(b"ab", b"t"), (b"abc", b"ab"), (b"t", b"abc")], 0),
            (&[(b"ab", b"t"), (b"abc", b"ab"), (b"t", b"abc")], 0),
            (&[(b"ab", b"t"), (b"ab", b"u")], 9),
            (&[(b"a", b"b"), (b"b", b"c"), (b"c", b"d")], 0),
            (&[(b"c", b"d")], 9),
            (&[(b"d", b"cab"), (b"abc", b"cab")], 0),
            (&[(b"ab", b"cab"), (b"cab", b"ab")], 0),
            (&[(b"ab", b"ab"), (b"cab", b"x")], 9),
        ];
        for (renames, expected) in sets {
            let (code, _) = volume.call(&Both, &rename_set(renames));
            assert_eq!(code, expected, "{renames:?}");
        }
        assert_eq!(volume.ledger.files().count(), 1);
        assert_eq!(volume.call(&Both, &Request::Check).0, 0);
    });
}

/// 529 targets in 17 journal sectors, 1,081 records, with its cuts and recoveries, on an image of 4.3 GB.
#[test]
fn longest_set() {
    on_both(|edition| {
        let _alone = alone();
        let geometry = Geometry::new(255, 65_535, 128).expect("within the bounds");
        let mut image = sixteen_files(edition, geometry).image;
        let request = onto_all(8);
        let length = 1_081 * RECORD;
        let (answer, filled) = alike(&request, &image, only_list(length));
        assert_eq!((answer.code(), filled.list.len()), (0, length));
        alike(&request, &image, only_list(length + 1));
        assert_eq!(alike(&request, &image, only_list(length - 1)).0.code(), 14);
        let sizes: Vec<usize> = groups(&filled.list).iter().map(Vec::len).collect();
        assert_eq!(sizes, [529 + 17, 1, 529, 1]);
        cut_and_recovered(&mut image, geometry, &filled.list, 529);
        for k in 0..8 {
            assert_eq!(oracle::find(&image, &[b'a' + k]).index, 50 - u64::from(k));
        }
    });
}

/// T + 17 targets where K extents have T + 17 sectors, and where they have fewer: 13 then, before 14.
#[test]
fn more_targets_than_the_reserve() {
    on_both(|edition| {
        let _alone = alone();
        for (table_sectors, extent_sectors, reserve, expected) in [
            (111, 128, 1, 0),
            (112, 128, 1, 13),
            (125, 128, 1, 13),
            (126, 128, 2, 0),
            (112, 129, 1, 0),
            (113, 129, 1, 13),
            (239, 128, 2, 0),
            (240, 128, 2, 13),
        ] {
            let geometry =
                Geometry::new(255, table_sectors * 128, extent_sectors).expect("within the bounds");
            assert_eq!(geometry.reserve_extents(), reserve);
            let image = sixteen_files(edition, geometry).image;
            let targets = table_sectors as usize + 17;
            let length = (2 * targets + targets.div_ceil(32) + 6) * RECORD;
            let short = if expected == 0 { 14 } else { expected };
            for (lent, code) in [(0, short), (length - 1, short), (length, expected)] {
                let (answer, filled) = alike(&onto_all(8), &image, only_list(lent));
                assert_eq!(
                    answer.code(),
                    code,
                    "{table_sectors} {extent_sectors} {lent}"
                );
                let filled_length = if code == 0 { length } else { 0 };
                assert_eq!(filled.list.len(), filled_length);
            }
            // One rename less has two entries less, and the last file's part of the table, an eighth.
            let seven = targets - 2 - table_sectors as usize / 8;
            let room = (reserve * extent_sectors) as usize;
            let code = if seven > room { 13 } else { 0 };
            let (answer, _) = alike(&onto_all(7), &image, only_list(length));
            assert_eq!(answer.code(), code, "{table_sectors} {extent_sectors}");
            // 9 goes before 13.
            let mut names: Vec<([u8; 1], [u8; 1])> =
                (0..7).map(|k| ([b'0' + k], [b'a' + k])).collect();
            names.push((*b"0", *b"h"));
            let renames: Vec<(&[u8], &[u8])> = names
                .iter()
                .map(|(old, new)| (&old[..], &new[..]))
                .collect();
            assert_eq!(refused(&rename_set(&renames), &image), (9, 7));
        }
    });
}
