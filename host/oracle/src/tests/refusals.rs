//! The numbers that a call gives back, their order, and the edges of single calls.

use crate::answers::{code, state, FormatRecordAnswer, SummaryAnswer};
use crate::draw::Draw;
use crate::layout::{get32, get64, put16, put32, Geometry, SECTOR};
use crate::lists::{BARRIER, CONTENTS, NUMBER, POSITION, RECORD};
use crate::request::{Lent, Request};
use crate::testing::records::{filled_with, list_of};
use crate::testing::requests::{create, delete, find, list, read, rename, resize, write};
use crate::testing::volumes::{Volume, ANY, SAMPLE};
use crate::testing::{Filled, Oracle, Subject};
use crate::{carry_out, check, recover, summary, FormatRequest};

fn one_of_each_call() -> Vec<Request> {
    vec![
        Request::Check,
        find(b"a"),
        list(0),
        read(b"a", 0, 1),
        create(b"b", 2),
        delete(b"a"),
        resize(b"a", 1),
        write(b"a", 0, vec![1]),
        rename(b"a", b"b"),
    ]
}

fn code_of(request: &Request, image: &[u8], lent: Lent) -> u64 {
    Oracle.ask(request, image, lent).0.code()
}

#[test]
fn images_that_are_no_volume() {
    let mut volume = Volume::sample();
    volume.done(&create(b"a", 1));
    let sample = volume.image;
    let geometry = summary(&sample).geometry().unwrap();
    let volume_bytes = geometry.end().0 as usize * SECTOR;
    let with = |at: usize, bytes: &[u8]| {
        let mut image = sample.clone();
        image[at..at + bytes.len()].copy_from_slice(bytes);
        image
    };
    let images = [
        (1, Vec::new()),
        (1, sample[..SECTOR - 1].to_vec()),
        (1, sample[..sample.len() - 1].to_vec()),
        (2, with(8, b"/goo/FS/")),
        (2, with(15, b" ")),
        (2, with(16, &[0, 0])),
        (2, with(16, &[0, 3])),
        (2, with(16, &[1, 1])),
        (3, with(0, &[0, 254])),
        (3, with(0, &[4, 1])),
        (3, with(2, &[0, 1])),
        (3, with(2, &[0, 8])),
        (3, with(4, &[0, 0, 0, 127])),
        (3, with(4, &[255, 255, 255, 255])),
        (3, sample[..volume_bytes - SECTOR].to_vec()),
        (0, sample[..volume_bytes].to_vec()),
    ];
    for (expected, image) in images {
        for request in one_of_each_call() {
            assert_eq!(code_of(&request, &image, ANY), expected);
        }
        assert_eq!(recover(&image, &mut []).code, expected);
        let told = summary(&image);
        assert_eq!(told.code, expected);
        if expected != 0 {
            assert_eq!(
                told,
                SummaryAnswer {
                    code: expected,
                    ..SummaryAnswer::default()
                }
            );
            assert_eq!(
                (told.journal_at(), told.table_at(), told.data_at()),
                (Err(3), Err(3), Err(3))
            );
        }
        if expected == 1 {
            assert_eq!(carry_out(&mut image.clone(), &[]), 1);
        }
    }
}

#[test]
fn every_state() {
    let mut volume = Volume::sample();
    volume.done(&create(b"a", 1));
    let mut image = volume.image;
    // A bad mark besides: the state is told first.
    put16(&mut image, 2 * SECTOR, 5);
    let lengths = [
        (0, code::NOT_SOUND, state::CLEAN, 0),
        (1, code::WAITING, state::WAITING, 1),
        (1_024, code::WAITING, state::WAITING, 1_024),
        (1_025, code::DAMAGED, state::DAMAGED, 0),
        (65_534, code::DAMAGED, state::DAMAGED, 0),
        (65_535, code::UNFINISHED, state::UNFINISHED, 0),
    ];
    for (length, refusal, expected_state, entries) in lengths {
        put16(&mut image, 18, length);
        for request in one_of_each_call() {
            assert_eq!(code_of(&request, &image, ANY), refusal);
        }
        let told = summary(&image);
        assert_eq!(
            (told.code, told.state, told.entries),
            (0, expected_state, entries)
        );
        assert_eq!(
            (told.files, told.extents, told.extent_sectors),
            (255, 4, 128)
        );
        assert_eq!(told.reserve_at().unwrap().0, 674);
        let recovered = recover(&image, &mut []).code;
        match refusal {
            code::NOT_SOUND => assert_eq!(recovered, 0),
            // The journal after one create holds two entries, so a longer one is bad.
            code::WAITING => assert_eq!(recovered, if length == 1 { 14 } else { 6 }),
            _ => assert_eq!(recovered, refusal),
        }
    }
}

/// Calls in the order of their refusals: each has all the later reasons too.
#[test]
fn lowest_number_first() {
    let mut volume = Volume::sample();
    volume.done(&create(b"a", 1));
    volume.done(&create(b"full", 2));
    for size in 1..=3 {
        volume.done(&resize(b"full", size * 65_536));
    }
    let image = volume.image.clone();
    let answers = [
        (8, create(b"", 1)),
        (8, create(b"a\0", 1)),
        (8, create(b"a", 0)),
        (10, create(b"a", 3)),
        (10, create(b"c", 2)),
        (10, create(b"c", 900)),
        (14, create(b"c", 3)),
        (8, delete(&[b'a'; 477])),
        (9, delete(b"aa")),
        (14, delete(b"a")),
        (8, find(b"")),
        (9, find(b"ful")),
        (0, find(b"full")),
        (8, list(255)),
        (8, list(u64::MAX)),
        (9, list(254)),
        (14, list(0)),
        (8, read(b"none", u64::MAX, 65_537)),
        (8, read(b"\0", 0, 0)),
        (9, read(b"none", u64::MAX, 65_536)),
        (12, read(b"a", 1, 65_536)),
        (12, read(b"full", u64::MAX, 65_536)),
        (14, read(b"a", 0, 65_536)),
        (14, read(b"full", 0, 1)),
        (14, read(b"full", 3 * 65_536, 1)),
        (8, write(b"none", u64::MAX, vec![0; 65_537])),
        (8, write(b"", u64::MAX, Vec::new())),
        (9, write(b"none", u64::MAX, Vec::new())),
        (12, write(b"a", 1, Vec::new())),
        (12, write(b"a", u64::MAX, vec![1])),
        (13, write(b"a", 0, vec![1])),
        (13, write(b"full", 3 * 65_536, vec![1])),
        (14, write(b"full", 3 * 65_536 - 1, vec![1])),
        (0, write(b"a", 0, Vec::new())),
        (8, resize(b"a\0", u64::MAX)),
        (9, resize(b"none", u64::MAX)),
        (8, resize(b"a", 65_537)),
        (8, resize(b"full", u64::MAX)),
        (13, resize(b"a", 1)),
        (13, resize(b"a", 65_536)),
        (14, resize(b"full", 0)),
        (0, resize(b"full", 3 * 65_536)),
        (8, rename(b"", b"")),
        (8, rename(b"none", b"a\0")),
        (8, rename(&[b'x'; 477], b"a")),
        (8, rename(b"a", &[b'x'; 477])),
        (9, rename(b"none", b"a")),
        (9, rename(b"none", b"none")),
        (0, rename(b"a", b"a")),
        (14, rename(b"a", b"b")),
        (14, rename(b"a", b"full")),
    ];
    for (expected, request) in answers {
        let (answer, filled) = Oracle.ask(&request, &image, Lent::NONE);
        assert_eq!(answer.code(), expected, "{request:?}");
        assert_eq!(filled, Filled::default());
        assert_eq!(volume.ledger.answer(&request, Lent::NONE), answer);
    }
}

/// Versions wrap and times go back.
#[test]
fn versions_and_times() {
    let mut volume = Volume::sample();
    volume.done(&create(b"a", 1));
    let mut image = volume.image;
    put32(&mut image, SECTOR, u32::MAX);
    put32(&mut image, 2 * SECTOR + 10, u32::MAX);
    for (request, version_at, time_at) in [
        (
            Request::Create {
                name: b"b".to_vec(),
                id: 2,
                mode: 0,
                time: 1,
            },
            SECTOR,
            SECTOR + 20,
        ),
        (
            Request::Write {
                name: b"a".to_vec(),
                offset: 0,
                data: vec![1],
                time: 1,
            },
            2 * SECTOR + 10,
            2 * SECTOR + 30,
        ),
    ] {
        let (_, filled) = Oracle.ask(&request, &image, ANY);
        assert!(get32(&image, time_at) > 1);
        assert_eq!(carry_out(&mut image, &filled.list), 0);
        assert_eq!((get32(&image, version_at), get32(&image, time_at)), (0, 1));
    }
    assert_eq!(check(&image).code, 0);
}

/// The reserve is just large enough for root, two entries and the table.
#[test]
fn reserves() {
    let reserve = |extents, extent_sectors| {
        Geometry::new(255, extents, extent_sectors)
            .unwrap()
            .reserve_extents()
    };
    assert_eq!(reserve(65_535, 128), 5);
    assert_eq!(reserve(125 * 128, 128), 1);
    assert_eq!(reserve(125 * 128 + 1, 128), 2);
    assert_eq!(reserve(126 * 128, 129), 1);
    assert_eq!(reserve(127 * 128, 129), 2);
    assert_eq!(reserve(2, 128), 1);
    assert_eq!(reserve(2, u64::from(u32::MAX)), 1);
    for (files, extents, extent_sectors) in [
        (254, 2, 128),
        (65_536, 2, 128),
        (255, 1, 128),
        (255, 65_536, 128),
        (255, 2, 127),
        (255, 2, 1 << 32),
    ] {
        assert_eq!(Geometry::new(files, extents, extent_sectors), None);
        let told = SummaryAnswer {
            files,
            extents,
            extent_sectors,
            ..SummaryAnswer::default()
        };
        assert_eq!(told.reserve_at(), Err(code::OUT_OF_BOUNDS));
    }
}

#[test]
fn carrying_out() {
    let lent = Draw::new(61).bytes(3 * SECTOR);
    let after = |list: &[u8]| {
        let mut image = lent.clone();
        let code = carry_out(&mut image, list);
        (code, image)
    };
    assert_eq!(after(&[]), (0, lent.clone()));
    let barrier = list_of(&[filled_with(BARRIER, 0)]);
    assert_eq!(after(&barrier), (0, lent.clone()));
    // A later write to the same sector wins.
    let twice = list_of(&[
        filled_with(2, 1),
        filled_with(BARRIER, 0),
        filled_with(2, 5),
        filled_with(0, 6),
    ]);
    let mut expected = lent.clone();
    expected[..SECTOR].fill(6);
    expected[2 * SECTOR..].fill(5);
    assert_eq!(after(&twice), (0, expected));
    // A good record before the bad one is not carried out either.
    let refused = (code::BAD_ARGUMENT, lent.clone());
    let good = filled_with(0, 1);
    let bad = [
        filled_with(3, 0),
        filled_with(BARRIER - 1, 0),
        filled_with(1 << 55, 0),
        filled_with(BARRIER, 1),
        (BARRIER, [&[0; SECTOR - 1][..], &[1]].concat()),
    ];
    for bad in bad {
        assert_eq!(after(&list_of(&[good.clone(), bad.clone()])), refused);
        assert_eq!(after(&list_of(&[bad])), refused);
    }
    let good = list_of(&[good]);
    for length in [1, RECORD - 8, RECORD - 1, RECORD + 1, 2 * RECORD - 1] {
        assert_eq!(after(&good.repeat(2)[..length]), refused);
    }
    assert_eq!(carry_out(&mut [], &[1]), 1);
    assert_eq!(carry_out(&mut [0; 513], &good), 1);
}

/// Positions other than 0, 1, 2 and so on. What is lost at the end doesn't show.
#[test]
fn positions_of_records() {
    let image = vec![0; 3 * SECTOR];
    let list = list_of(&[filled_with(0, 1), filled_with(1, 2), filled_with(2, 3)]);
    let after = |positions: &[usize]| {
        let records = positions.iter().map(|k| &list[k * RECORD..][..RECORD]);
        let mut after = image.clone();
        let code = carry_out(&mut after, &records.collect::<Vec<_>>().concat());
        assert_eq!(after != image, code == 0 && !positions.is_empty());
        code
    };
    for good in [&[][..], &[0], &[0, 1], &[0, 1, 2]] {
        assert_eq!(after(good), 0);
    }
    for bad in [
        &[1][..],
        &[2],
        &[1, 2],
        &[0, 2],
        &[0, 0],
        &[1, 0, 2],
        &[0, 2, 1],
        &[0, 1, 2, 2],
    ] {
        assert_eq!(after(bad), code::BAD_ARGUMENT);
    }
    // Each byte of a position counts.
    for at in 0..8 {
        let mut spoilt = list.clone();
        spoilt[2 * RECORD + at] ^= 128;
        let mut after = image.clone();
        assert_eq!(carry_out(&mut after, &spoilt), code::BAD_ARGUMENT);
        assert!(after == image);
    }
}

#[test]
fn format_records() {
    let request = FormatRequest {
        edition: 1,
        sectors: 546 + 300 + 129 * 128,
        files: 300,
        id: 0,
        mode: 5,
        time: 6,
    };
    let geometry = request.geometry().unwrap();
    assert_eq!((geometry.extents(), geometry.table_sectors()), (129, 2));
    let record = |position| {
        let (answer, output) = Oracle.format_record(&request, position, RECORD + 3);
        assert_eq!((answer.code, output.len()), (0, RECORD));
        assert_eq!(get64(&output, POSITION), position);
        (get64(&output, NUMBER), output[CONTENTS..].to_vec())
    };
    let contents = |start: &[u8]| [start, &vec![0; SECTOR - start.len()]].concat();
    let superblock = |length: &[u8]| {
        contents(
            &[
                &[1, 44, 0, 129, 0, 0, 0, 128],
                &b"/Goo/FS/"[..],
                &[0, 1],
                length,
            ]
            .concat(),
        )
    };
    let root = contents(&[&[0; 12][..], &[0, 0, 0, 5, 0, 0, 0, 6, 0, 0, 0, 6]].concat());
    let barrier = (BARRIER, vec![0; SECTOR]);
    assert_eq!(record(0), (0, superblock(&[255, 255])));
    assert_eq!(record(1), barrier);
    assert_eq!(record(2), (1, root));
    for entry in 0..300 {
        assert_eq!(record(3 + entry), (2 + entry, vec![0; SECTOR]));
    }
    for table in 0..2 {
        assert_eq!(record(303 + table), (334 + table, vec![255; SECTOR]));
    }
    assert_eq!(record(305), barrier);
    assert_eq!(record(306), (0, superblock(&[0, 0])));
    assert_eq!(record(307), barrier);
    assert_eq!(request.records(), Some(308));

    let of_files = |files| FormatRequest { files, ..request };
    let of_sectors = |sectors| FormatRequest { sectors, ..request };
    for (code, format, position, length) in [
        (9, request, 308, 0),
        (9, request, u64::MAX, RECORD),
        (14, request, 307, RECORD - 1),
        (8, of_files(254), 308, 0),
        (8, of_files(65_536), 0, RECORD),
        (8, of_files(u64::MAX), 0, RECORD),
        (8, of_sectors(0), 0, RECORD),
        (8, of_sectors(845), 0, RECORD),
        (8, of_sectors(u64::MAX), 0, RECORD),
    ] {
        let (answer, _) = Oracle.format_record(&format, position, length);
        assert_eq!(answer, FormatRecordAnswer { code, length: 0 }, "{format:?}");
    }
    let most = of_sectors((1 << 47) + 545 + 300);
    assert_eq!(most.geometry(), Geometry::new(300, 65_535, 1 << 31));
    assert_eq!(of_sectors(most.sectors + 1).geometry(), None);
}

/// A root id of 0 is allowed, and a longer image than the volume.
#[test]
fn odd_volumes() {
    let mut image = Volume::formatted(&Oracle, &FormatRequest { id: 0, ..SAMPLE }).image;
    image.extend([9; SECTOR]);
    assert_eq!(check(&image).code, 0);
    assert_eq!(code_of(&create(b"a", 1), &image, ANY), 0);
    assert_eq!(summary(&image), summary(&Volume::sample().image));
}

/// A new extent keeps its old bytes outside the span, and the edge of an extent takes no further
/// one.
#[test]
fn extent_edges() {
    let mut volume = Volume::sample();
    volume.done(&create(b"a", 1));
    let data_at = 290 * SECTOR;
    let old = volume.image[data_at..data_at + SECTOR].to_vec();
    volume.done(&write(b"a", 0, vec![1, 2, 3]));
    assert_eq!(volume.image[data_at..data_at + 3], [1, 2, 3]);
    assert_eq!(volume.image[data_at + 3..data_at + SECTOR], old[3..]);
    volume.done(&write(b"a", 3, vec![4; 65_533]));
    assert_eq!(volume.ledger.slots()[0].as_ref().unwrap().extents.len(), 1);
    volume.done(&write(b"a", 65_536, vec![5]));
    assert_eq!(volume.ledger.slots()[0].as_ref().unwrap().extents.len(), 2);
    assert_eq!(volume.done(&read(b"a", 65_535, 65_536)).output, [4, 5]);
    volume.done(&resize(b"a", 65_536));
    assert_eq!(volume.ledger.slots()[0].as_ref().unwrap().extents.len(), 1);
}
