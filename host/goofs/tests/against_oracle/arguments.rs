//! Names, indexes, offsets, counts and output lengths at every edge.

use crate::counts::{count, Compared};
use crate::shared::{alike, calls, on_both, output, with_each_buffer};
use oracle::draw::Draw;
use oracle::testing::beside::Calls;
use oracle::testing::requests::{create, find, list, read, rename, rename_set, write};
use oracle::testing::volumes::some_files_of;
use oracle::Lent;
use soak::proved::Proved;

/// Names that are taken, that begin alike, and bad ones.
fn names() -> Vec<Vec<u8>> {
    let mut names: Vec<Vec<u8>> = [
        &b""[..],
        b"a",
        b"ab",
        b"abc",
        b"abcd",
        b"b",
        b"c",
        b"ca",
        b"cab",
        b"A",
        b"\0",
        b"a\0",
        b"\0a",
        b"ab\0c",
        b"\xff",
        b"\xff\xff\xff",
    ]
    .iter()
    .map(|name| name.to_vec())
    .collect();
    for length in [
        1, 2, 466, 467, 468, 469, 470, 474, 475, 476, 477, 478, 511, 512, 513, 65_536, 70_000,
    ] {
        names.push(vec![b'x'; length]);
        for zero in [0, length / 2, length - 1] {
            let mut name = vec![b'x'; length];
            name[zero] = 0;
            names.push(name);
        }
    }
    names
}

#[test]
fn names_at_every_edge() {
    on_both(|edition| {
        let mut volume = some_files_of(edition);
        let longest = vec![b'x'; edition.longest_name()];
        volume.done(&create(&longest, 10));
        volume.done(&create(&longest[1..], 11));
        // No call gives this name, but it may stand on an older volume.
        volume.put_file(254, b"\xff\xff\xff", 0, &[]);
        let mut codes = [0; 15];
        for name in names() {
            count(Compared::ArgumentEdges, 1);
            codes[alike(&find(&name), &volume.image, Lent::NONE).0.code() as usize] += 1;
            for (offset, count, length) in [
                (0, 10, 10),
                (0, 65_537, 10),
                (u64::MAX, 65_536, 0),
                (1, 0, 0),
            ] {
                alike(&read(&name, offset, count), &volume.image, output(length));
            }
        }
        assert!(codes[0] == 8 && codes[8] > 40 && codes[9] > 5, "{codes:?}");
    });
}

#[test]
fn indexes_and_output_lengths_of_list() {
    on_both(|edition| {
        let mut volume = some_files_of(edition);
        volume.done(&create(&vec![b'x'; edition.longest_name()], 10));
        let indexes = (0..=260).chain([1 << 16, (1 << 32) - 1, 1 << 32, 1 << 63, u64::MAX]);
        for index in indexes {
            count(Compared::ArgumentEdges, 1);
            for length in [0, 1, 2, 3, 4, 467, 468, 469, 475, 476, 477, 1_000] {
                alike(&list(index), &volume.image, output(length));
            }
        }
    });
}

/// Offsets and counts around each edge of sectors, extents and the file, with an output and a list
/// that are long enough, exact, and one byte too short.
#[test]
fn spans_of_read() {
    on_both(|edition| {
        let mut volume = some_files_of(edition);
        // "ab" now has 131,073 + 30,000 bytes in three extents, "a" is empty.
        volume.done(&write(b"ab", 131_073, Draw::new(6).bytes(30_000)));
        let size = 161_073;
        let mut offsets = vec![u64::MAX, u64::MAX - 1, 1 << 32, 1 << 63, size / 2];
        for edge in [0, 512, 1_024, 65_536, 65_536 + 512, 131_072, size] {
            offsets.extend(edge.max(1) - 1..=edge + 1);
        }
        let spans = [
            0,
            1,
            2,
            511,
            512,
            513,
            30_001,
            65_535,
            65_536,
            65_537,
            1 << 32,
            u64::MAX,
        ];
        let mut codes = [0; 15];
        for name in [&b"ab"[..], b"a", b"cab", b"none"] {
            for offset in &offsets {
                for span in spans {
                    let request = read(name, *offset, span);
                    count(Compared::ArgumentEdges, 1);
                    let (code, filled) = with_each_buffer(&request, &volume.image);
                    codes[code as usize] += 1;
                    alike(&request, &volume.image, output(filled.output + 1));
                }
            }
        }
        for code in [0, 8, 9, 12] {
            assert!(codes[code] > 50, "{codes:?}");
        }
    });
}

/// Random spans of files whose extents stand in any order.
#[test]
fn random_spans_of_read() {
    on_both(|edition| {
        let mut volume = some_files_of(edition);
        volume.done(&write(b"ab", 131_073, Draw::new(7).bytes(65_535)));
        let mut draw = Draw::new(8);
        for _ in 0..5_000 {
            let offset = draw.below(196_608 + 10);
            let count = draw.below(65_540);
            let length = draw.below(65_600) as usize;
            alike(&read(b"ab", offset, count), &volume.image, output(length));
        }
    });
}

/// Where several conditions hold, the lowest number is given; a refusal leaves the buffers alone.
#[test]
fn the_lowest_number() {
    on_both(|edition| {
        let volume = some_files_of(edition);
        let expected = [
            (8, read(b"", u64::MAX, 65_537)),
            (8, read(b"none", u64::MAX, 65_537)),
            (8, read(b"none\0", u64::MAX, 1)),
            (9, read(b"none", u64::MAX, 65_536)),
            (12, read(b"ab", 131_074, 65_536)),
            (14, read(b"ab", 131_072, 65_536)),
            (8, list(255)),
            (9, list(254)),
            (14, list(0)),
        ];
        for (code, request) in expected {
            for lent in [Lent::NONE, output(0)] {
                let (answer, _) = alike(&request, &volume.image, lent);
                assert_eq!(answer.code(), code, "{request:?}");
            }
        }
        // These give no byte, but a list.
        for request in [read(b"ab", 131_073, 65_536), read(b"ab", 0, 0)] {
            for (code, lent) in [(14, Lent::NONE), (0, output(0))] {
                let (answer, _) = alike(&request, &volume.image, lent);
                assert_eq!(answer.code(), code, "{request:?}");
            }
        }
        let mut unfinished = volume.clone();
        unfinished.image[18..20].fill(255);
        let (answer, _) = alike(&read(b"", 0, 65_537), &unfinished.image, Lent::NONE);
        assert_eq!(answer.code(), 4);
    });
}

/// Empty slices that point to no memory of their own: as image, name, data, output and list.
#[test]
fn empty_slices() {
    on_both(|edition| {
        let image = some_files_of(edition).image;
        let mut requests = calls();
        requests.extend([
            find(&[]),
            read(&[], 0, 0),
            create(&[], 1),
            write(&[], 0, Vec::new()),
            rename(&[], &[]),
            rename(&[], b"new"),
            rename(b"ab", &[]),
            rename(b"ab", b"ab"),
            rename_set(&[]),
            rename_set(&[(b"", b"")]),
            rename_set(&[(b"ab", b"ab")]),
            write(b"ab", 0, Vec::new()),
            read(b"ab", 0, 0),
        ]);
        for request in requests {
            for image in [&[][..], &image] {
                count(Compared::ArgumentEdges, 1);
                assert_eq!(
                    Proved.ask(&request, image, &mut [], &mut []),
                    request.ask(image, &mut [], &mut []),
                    "{request:?}"
                );
            }
        }
        assert_eq!(goofs::recover(&image, &mut []).code, 0);
        assert_eq!(goofs::recover(&[], &mut []).code, 1);
        assert_eq!(goofs::recover_slice(&image, 1, &mut []).code, 0);
        assert_eq!(goofs::recover_slice(&image, 0, &mut []).code, 8);
        assert_eq!(goofs::recover_slice(&[], 0, &mut []).code, 1);
        assert_eq!(goofs::carry_out(&mut [], &[]), 1);
        assert_eq!(goofs::carry_out(&mut [7; 512], &[]), 0);
        let record = goofs::format_record(1_313, 255, edition.number(), 1, 0, 0, 0, &mut []);
        assert_eq!(record.code, 14);
    });
}
