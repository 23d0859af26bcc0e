//! Create, delete, resize and write: spans that end at, before and after the edges of sectors,
//! extents and files, arguments at every edge, and lists exactly long enough and one byte too short.

use crate::counts::{count, Compared};
use crate::shared::{on_both, only_list, with_each_buffer};
use oracle::draw::Draw;
use oracle::layout::{put32, Edition, Geometry, SECTOR};
use oracle::lists::RECORD;
use oracle::testing::damage::entry_field;
use oracle::testing::images::{blank_of, put_file};
use oracle::testing::requests::{create, delete, rename, rename_set, resize, write};
use oracle::testing::volumes::some_files_of;
use oracle::Request;

/// A call whose arguments stand at an edge, with each list. Gives the code.
fn edge_alike(request: &Request, image: &[u8]) -> usize {
    count(Compared::ArgumentEdges, 1);
    with_each_buffer(request, image).0 as usize
}

/// A volume of 12 extents with the file "x" of this size, its extents falling, and "y" of one
/// byte.
fn with_a_file(edition: Edition, extent_sectors: u64, size: u64) -> Vec<u8> {
    let geometry = Geometry::new(255, 12, extent_sectors).expect("within the bounds");
    let mut image = Draw::new(size).bytes(geometry.end().0 as usize * SECTOR);
    let metadata = geometry.data_at().0;
    image[..metadata as usize * SECTOR].copy_from_slice(&blank_of(edition, geometry, metadata));
    let extents: Vec<u64> = (3..3 + geometry.extents_for(size)).rev().collect();
    put_file(&mut image, geometry, 7, b"x", size, &extents);
    put_file(&mut image, geometry, 2, b"y", 1, &[1]);
    // Unused bytes are noise, so that a changed one shows.
    let (root_end, name) = match edition {
        Edition::First => (24, 36),
        Edition::Second => (32, 44),
    };
    for unused in [
        20..SECTOR,
        SECTOR + root_end..2 * SECTOR,
        9 * SECTOR + name + 1..10 * SECTOR,
    ] {
        Draw::new(size + 1).fill(&mut image[unused]);
    }
    assert_eq!(oracle::check(&image).code, 0);
    image
}

/// Numbers around each edge that matters, up to a last one.
fn around_edges(extent_bytes: u64, size: u64, last: u64) -> Vec<u64> {
    let mut numbers = Vec::new();
    for edge in [
        0,
        512,
        1_024,
        extent_bytes - 512,
        extent_bytes,
        extent_bytes + 512,
        2 * extent_bytes,
        3 * extent_bytes,
        size,
        size + 512,
        (size / 512) * 512,
    ] {
        numbers.extend([edge.saturating_sub(1), edge, edge + 1]);
    }
    numbers.retain(|number| *number <= last);
    numbers.sort_unstable();
    numbers.dedup();
    numbers
}

fn spans_alike(edition: Edition, extent_sectors: u64) {
    let extent_bytes = 512 * extent_sectors;
    let data = Draw::new(extent_sectors).bytes(65_536);
    let mut codes = [0; 15];
    for size in [
        0,
        1,
        511,
        512,
        513,
        extent_bytes - 1,
        extent_bytes,
        extent_bytes + 1,
        2 * extent_bytes,
        2 * extent_bytes + 700,
    ] {
        let image = with_a_file(edition, extent_sectors, size);
        for offset in around_edges(extent_bytes, size, size + 1) {
            for end in around_edges(extent_bytes, size, offset + 65_536) {
                if end < offset {
                    continue;
                }
                let request = write(b"x", offset, data[..(end - offset) as usize].to_vec());
                codes[edge_alike(&request, &image)] += 1;
            }
            let most = write(b"x", offset, data.clone());
            codes[edge_alike(&most, &image)] += 1;
        }
        for new_size in around_edges(extent_bytes, size, size + 65_537) {
            codes[edge_alike(&resize(b"x", new_size), &image)] += 1;
        }
        for new_size in [size + 65_535, size + 65_536, size + 65_537, u64::MAX] {
            codes[edge_alike(&resize(b"x", new_size), &image)] += 1;
        }
        with_each_buffer(&delete(b"x"), &image);
    }
    assert!(
        codes[0] > 500 && codes[8] > 10 && codes[12] > 20,
        "{codes:?}"
    );
}

#[test]
fn spans_around_edges() {
    on_both(|edition| spans_alike(edition, 128));
}

#[test]
fn spans_around_edges_of_odd_extents() {
    on_both(|edition| {
        spans_alike(edition, 129);
        spans_alike(edition, 257);
    });
}

/// The file's last extents and the lowest free one in several table sectors.
#[test]
fn several_table_sectors() {
    on_both(|edition| {
        let geometry = Geometry::new(300, 520, 128).expect("within the bounds");
        let mut image = blank_of(edition, geometry, geometry.end().0);
        let usable = geometry.usable_extents();
        // "x" has every second extent of five table sectors, "y" the others but one.
        let evens: Vec<u64> = (0..usable).step_by(2).collect();
        let odds: Vec<u64> = (1..usable).step_by(2).filter(|odd| *odd != 387).collect();
        let size = (evens.len() as u64 - 1) * 65_536 + 100;
        put_file(&mut image, geometry, 299, b"x", size, &evens);
        put_file(
            &mut image,
            geometry,
            0,
            b"y",
            odds.len() as u64 * 65_536,
            &odds,
        );
        assert_eq!(
            with_each_buffer(&delete(b"x"), &image),
            (0, only_list((2 * 7 + 1 + 6) * RECORD))
        );
        with_each_buffer(&delete(b"y"), &image);
        // Root, both entries and the five table sectors.
        for (old, new) in [(b"y", b"x"), (b"x", b"y")] {
            assert_eq!(
                with_each_buffer(&rename(old, new), &image),
                (0, only_list((2 * 8 + 1 + 6) * RECORD))
            );
        }
        with_each_buffer(&write(b"x", size, vec![1; 65_536]), &image);
        with_each_buffer(&write(b"y", 0, vec![1; 1_000]), &image);
        with_each_buffer(&resize(b"y", odds.len() as u64 * 65_536 + 1), &image);
        for kept in [0, 1, 63, 64, 65, 128, 129, 192, 200, 256, 258, 259] {
            for size in [kept * 65_536, kept * 65_536 + 1] {
                with_each_buffer(&resize(b"x", size), &image);
                with_each_buffer(&resize(b"y", size), &image);
            }
        }
    });
}

/// Each argument of each call at its edges, with all edges of the others.
#[test]
fn arguments_at_every_edge() {
    on_both(|edition| {
        let mut volume = some_files_of(edition);
        volume.disturb(&mut Draw::new(9));
        let image = volume.image;
        let mut codes = [0; 15];
        let mut try_call = |request: Request| codes[edge_alike(&request, &image)] += 1;
        let names = [
            &b""[..],
            b"a",
            b"ab",
            b"abcd",
            b"b",
            b"\0",
            b"new\0",
            &[b'x'; 467],
            &[b'x'; 468],
            &[b'x'; 469],
            &[b'x'; 476],
            &[b'x'; 477],
            &[b'x'; 600],
            &[255; 468],
        ];
        let times = [0, 1, 0x8090_a0b0, (1 << 32) - 1, 1 << 32, u64::MAX];
        for name in names.map(<[u8]>::to_vec) {
            let create = |id, mode, time| Request::Create {
                name: name.clone(),
                id,
                mode,
                time,
            };
            for id in [0, 1, 4, 6, 7, 899, 900, 901, u64::MAX - 1, u64::MAX] {
                for mode in [0, 1, 0x0102_0304, u32::MAX - 1, u32::MAX] {
                    try_call(create(id, mode, 2_000));
                }
            }
            for time in times {
                for id in [0, 1, 7] {
                    try_call(create(id, 0o644, time));
                }
                let name = name.clone();
                try_call(Request::Delete { name, time });
            }
            // "ab" has 131,073 bytes, "a" none.
            let sizes = [0, 131_073];
            let edges = sizes.map(|size| [0, 1, 65_535, 65_536, 65_537].map(|more| size + more));
            let others = [131_072, u64::MAX - 1, u64::MAX];
            for size in edges.into_iter().flatten().chain(others) {
                for time in times {
                    let name = name.clone();
                    try_call(Request::Resize { name, size, time });
                }
                for length in [0, 1, 65_535, 65_536, 65_537, 70_000] {
                    try_call(write(&name, size, vec![9; length]));
                }
            }
            for time in times {
                try_call(Request::Write {
                    name: name.clone(),
                    offset: 0,
                    data: vec![1; 3],
                    time,
                });
            }
        }
        for code in [0, 8, 9, 10, 12] {
            assert!(codes[code] > 50, "{codes:?}");
        }
    });
}

/// A version of 4,294,967,295 is followed by 0.
#[test]
fn versions_at_their_end() {
    on_both(|edition| {
        for version in [0, 1, 255, 65_535, u32::MAX - 1, u32::MAX] {
            let mut image = some_files_of(edition).image;
            put32(&mut image, SECTOR, version);
            put32(&mut image, entry_field(1, 10), version);
            for request in [
                create(b"new", 77),
                delete(b"ab"),
                resize(b"ab", 1),
                resize(b"ab", 131_080),
                write(b"ab", 5, vec![1; 5]),
                rename(b"ab", b"new"),
                rename(b"ab", b"abc"),
                rename(b"abc", b"ab"),
                rename_set(&[(b"ab", b"t"), (b"t", b"ab")]),
            ] {
                assert_eq!(edge_alike(&request, &image), 0);
            }
        }
    });
}

/// No extent is free but the one that must stay free.
#[test]
fn no_room() {
    on_both(|edition| {
        let mut volume = some_files_of(edition);
        volume.done(&resize(b"ab", 131_072));
        volume.done(&write(b"cab", 600, vec![1; 65_536 - 600]));
        let one_more = write(b"cab", 65_536, vec![1]);
        assert_eq!(with_each_buffer(&one_more, &volume.image).0, 0);
        volume.done(&one_more);
        let image = &volume.image;
        for (expected, request) in [
            (13, write(b"a", 0, vec![1])),
            (13, resize(b"a", 1)),
            (13, write(b"cab", 65_537, vec![2; 65_536])),
            (0, write(b"cab", 65_537, vec![2; 65_535])),
            (8, write(b"a", 0, vec![1; 65_537])),
            (9, write(b"none", 0, vec![1])),
            (12, write(b"a", 1, vec![1])),
            (0, write(b"a", 0, Vec::new())),
            (0, resize(b"a", 0)),
            (8, resize(b"a", 65_537)),
        ] {
            assert_eq!(with_each_buffer(&request, image).0, expected);
        }
    });
}
