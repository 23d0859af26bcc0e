//! The two editions: names around 468 and 476 bytes and times around 2^32 in every call that takes
//! one, where the times stand, formats of any edition, and superblocks of any version.

use crate::counts::{count, Compared};
use crate::shared::{alike, damaged_alike, latest_time, on_both, with_each_buffer, Both};
use oracle::draw::Draw;
use oracle::layout::{get16, get32, get64, put16, superblock, Edition, SECTOR};
use oracle::lists::{CONTENTS, RECORD};
use oracle::testing::damage::entry_field;
use oracle::testing::requests::{
    at_time, create, delete, find, list, read, rename, rename_set, resize, shortened, write,
};
use oracle::testing::volumes::{sample_of, some_files_of, Volume, ANY, SAMPLE};
use oracle::testing::Subject;
use oracle::{Answer, FormatRequest, Lent, Request};

/// The first time that has more than 32 bits.
const WIDE: u64 = 4_294_967_296;

/// A name that is too long for the edition is 8 in every call; one that fits is 9 where a file must
/// be there.
#[test]
fn names_around_both_lengths() {
    for (edition, longest) in [(Edition::First, 476), (Edition::Second, 468)] {
        let volume = some_files_of(edition);
        for length in (466..=470).chain(474..=478) {
            let name = vec![b'x'; length];
            let (missing, new) = if length <= longest { (9, 0) } else { (8, 8) };
            for (expected, request) in [
                (missing, find(&name)),
                (missing, read(&name, 0, 0)),
                (missing, write(&name, 0, Vec::new())),
                (missing, write(&name, 0, vec![1])),
                (missing, resize(&name, 0)),
                (missing, delete(&name)),
                (missing, rename(&name, b"new")),
                (missing, rename(&name, &name)),
                (new, create(&name, 77)),
                (new, rename(b"ab", &name)),
                (missing, rename_set(&[(b"ab", b"t"), (&name, b"new")])),
                (new, rename_set(&[(b"ab", b"t"), (b"t", &name)])),
            ] {
                count(Compared::ArgumentEdges, 1);
                let (code, _) = with_each_buffer(&request, &volume.image);
                assert_eq!(code, expected, "{}", shortened(&request));
            }
        }
    }
}

/// The longest name of each edition, created, found, listed, given and taken away.
#[test]
fn a_life_of_the_longest_name() {
    for (edition, longest) in [(Edition::First, 476), (Edition::Second, 468)] {
        let mut volume = some_files_of(edition);
        let name = vec![b'x'; longest];
        for request in [
            delete(b"cab"),
            create(&name, 77),
            write(&name, 0, vec![7; 600]),
            find(&name),
            list(3),
            rename(&name, b"short"),
            rename(b"ab", &name),
            resize(&name, 5),
            read(&name, 0, 9),
            delete(&name),
        ] {
            let (code, _) = volume.call(&Both, &request);
            assert_eq!(code, 0, "{}", shortened(&request));
        }
    }
}

/// Each call that takes a time, done, with nothing to store, and refused with each later number.
fn calls_with_a_time() -> Vec<(u64, Request)> {
    vec![
        (0, create(b"new", 77)),
        (10, create(b"a", 77)),
        (10, create(b"new", 1)),
        (0, delete(b"ab")),
        (9, delete(b"none")),
        (0, resize(b"ab", 5)),
        (0, resize(b"ab", 131_080)),
        // "ab" has 131,073 bytes.
        (0, resize(b"ab", 131_073)),
        (9, resize(b"none", 5)),
        (8, resize(b"ab", u64::MAX)),
        (0, write(b"ab", 131_073, vec![1; 600])),
        (0, write(b"ab", 7, Vec::new())),
        (9, write(b"none", 0, vec![1])),
        (12, write(b"ab", 131_074, vec![1])),
        (8, write(b"ab", 0, vec![1; 65_537])),
        (0, rename(b"ab", b"new")),
        (0, rename(b"ab", b"abc")),
        (0, rename(b"ab", b"ab")),
        (9, rename(b"none", b"new")),
        (9, rename(b"none", b"none")),
        (0, rename_set(&[(b"ab", b"t"), (b"t", b"new")])),
        (0, rename_set(&[(b"ab", b"ab")])),
        (9, rename_set(&[(b"ab", b"t"), (b"ab", b"new")])),
        (8, rename_set(&[])),
        (0, read(b"ab", 65_530, 20)),
        (0, read(b"ab", 0, 0)),
        (9, read(b"none", 0, 1)),
        (12, read(b"ab", 131_074, 1)),
        (8, read(b"ab", 0, 65_537)),
        (0, list(5)),
        (9, list(3)),
        (8, list(255)),
    ]
}

/// On edition 1 a time of more than 32 bits is 8 in each of them, before 9 and all later numbers and
/// after 7; on edition 2 no time is bad.
#[test]
fn times_around_32_bits() {
    on_both(|edition| {
        let volume = some_files_of(edition);
        let mut unsound = volume.image.clone();
        unsound[entry_field(254, 0)] = 1;
        let mut waiting = volume.image.clone();
        put16(&mut waiting, superblock::JOURNAL_LENGTH, 1);
        for (usual, request) in calls_with_a_time() {
            for time in [
                0,
                1,
                WIDE - 2,
                WIDE - 1,
                WIDE,
                WIDE + 1,
                WIDE + 2_000,
                1 << 63,
                u64::MAX - 1,
                u64::MAX,
            ] {
                count(Compared::ArgumentEdges, 1);
                let request = at_time(request.clone(), time);
                let bad = edition == Edition::First && time >= WIDE;
                let expected = if bad { 8 } else { usual };
                let (code, _) = with_each_buffer(&request, &volume.image);
                assert_eq!(code, expected, "{}", shortened(&request));
                let code = |image: &[u8]| alike(&request, image, ANY).0.code();
                assert_eq!((code(&unsound), code(&waiting)), (7, 5));
            }
        }
    });
}

/// No extent can be taken, and no entry: 8 for the time goes before 13 and 11.
#[test]
fn wide_times_on_a_full_volume() {
    on_both(|edition| {
        let mut volume = Volume::formatted(&Both, &sample_of(edition));
        for number in 0..255 {
            volume.done(&create(format!("{number}").as_bytes(), number + 1));
        }
        for size in 1..=3 {
            volume.done(&resize(b"7", size * 65_536));
        }
        for (usual, request) in [
            (11, create(b"new", 999)),
            (13, resize(b"8", 1)),
            (13, write(b"8", 0, vec![1])),
            (13, write(b"7", 3 * 65_536, vec![1])),
        ] {
            for time in [WIDE - 1, WIDE] {
                let bad = edition == Edition::First && time >= WIDE;
                let request = at_time(request.clone(), time);
                let (code, _) = with_each_buffer(&request, &volume.image);
                assert_eq!(code, if bad { 8 } else { usual });
            }
        }
    });
}

/// The two times that find and list give of a file.
fn times_of(image: &[u8], name: &[u8]) -> (u64, u64) {
    let (found, _) = alike(&find(name), image, Lent::NONE);
    let Answer::Find(found) = found else {
        panic!("a find's answer");
    };
    let (listed, filled) = alike(&list(found.index), image, ANY);
    let Answer::List(listed) = listed else {
        panic!("a list's answer");
    };
    assert_eq!(filled.output, name);
    let times = (found.access_time, found.change_time);
    assert_eq!((listed.access_time, listed.change_time), times);
    times
}

/// Times as given, on the medium in 4 or 8 bytes, and given back whole.
#[test]
fn times_are_read_back() {
    on_both(|edition| {
        let latest = latest_time(edition);
        let times = [0x0102_0304_0506_0708 & latest, latest, 1, 0, latest - 1];
        for formatted in times {
            let format = FormatRequest {
                sectors: 2_000,
                time: formatted,
                ..sample_of(edition)
            };
            let mut volume = Volume::formatted(&Both, &format);
            let root = |image: &[u8]| match edition {
                Edition::First => [16, 20].map(|at| u64::from(get32(image, SECTOR + at))),
                Edition::Second => [16, 24].map(|at| get64(image, SECTOR + at)),
            };
            assert_eq!(root(&volume.image), [formatted; 2]);
            for (number, time) in (1..).zip(times) {
                let name = format!("file-{number}").into_bytes();
                let mut call = |request: Request, time: u64| {
                    let request = at_time(request, time);
                    assert_eq!(volume.call(&Both, &request).0, 0);
                };
                call(create(&name, number), time);
                call(write(&name, 0, vec![1; 9]), latest - time);
                assert_eq!(root(&volume.image), [formatted, time]);
                assert_eq!(times_of(&volume.image, &name), (time, latest - time));
                let entry = |at| entry_field(number - 1, at);
                let stored = match edition {
                    Edition::First => [26, 30].map(|at| get32(&volume.image, entry(at)).into()),
                    Edition::Second => [26, 34].map(|at| get64(&volume.image, entry(at))),
                };
                assert_eq!(stored, [time, latest - time]);
            }
            let renamed = at_time(rename(b"file-1", b"other"), latest);
            assert_eq!(volume.call(&Both, &renamed).0, 0);
            assert_eq!(times_of(&volume.image, b"other"), (times[0], latest));
            assert_eq!(root(&volume.image), [formatted, latest]);
        }
    });
}

/// Every edition but 1 and 2, and a wide time on edition 1, are refused at every position.
#[test]
fn formats_of_any_edition() {
    let editions = [
        0,
        1,
        2,
        3,
        255,
        256,
        257,
        258,
        65_535,
        65_537,
        65_538,
        WIDE + 1,
        WIDE + 2,
        u64::MAX,
    ];
    for edition in editions {
        for time in [0, WIDE - 1, WIDE, WIDE + 1, u64::MAX] {
            let request = FormatRequest {
                edition,
                time,
                ..SAMPLE
            };
            let good = edition == 2 || edition == 1 && time < WIDE;
            for position in [0, 1, 2, 3, 257, 258, 259, 260, 261] {
                count(Compared::ArgumentEdges, 1);
                let (answer, record) = Both.format_record(&request, position, RECORD);
                assert_eq!(answer.code, if good { 0 } else { 8 }, "{request:?}");
                if good && (position == 0 || position == 260) {
                    let version = get16(&record, CONTENTS + superblock::VERSION);
                    assert_eq!(u64::from(version), edition);
                }
            }
            for (position, length, usual) in [(262, RECORD, 9), (u64::MAX, 0, 9), (0, 527, 14)] {
                let (answer, _) = Both.format_record(&request, position, length);
                assert_eq!(answer.code, if good { usual } else { 8 }, "{request:?}");
            }
        }
    }
}

/// All 65,536 versions of a superblock: only 1 and 2 are taken, and the summary says which it is.
#[test]
fn every_version() {
    on_both(|edition| {
        let mut image = some_files_of(edition).image;
        for version in 0..=u16::MAX {
            put16(&mut image, superblock::VERSION, version);
            let (answer, _) = alike(&Request::Summary, &image, Lent::NONE);
            let Answer::Summary(told) = answer else {
                panic!("a summary's answer");
            };
            let good = version == 1 || version == 2;
            let expected = if good { (0, version.into()) } else { (2, 0) };
            assert_eq!((told.code, told.edition), expected);
        }
        for version in [0, 3, 4, 255, 256, 257, 258, 512, 513, 65_535] {
            put16(&mut image, superblock::VERSION, version);
            assert_eq!(damaged_alike(&image).code, 2);
        }
    });
}

/// The other edition's version makes other entries of the same bytes: the calls agree on what they
/// are.
#[test]
fn of_the_other_edition() {
    for (edition, other, place) in [(Edition::First, 2, 0), (Edition::Second, 1, 0)] {
        let mut image = some_files_of(edition).image;
        put16(&mut image, superblock::VERSION, other);
        let judged = damaged_alike(&image);
        assert_eq!((judged.code, judged.fault, judged.place), (7, 22, place));
        // Without files nothing tells them apart, and the times of the root are others.
        let mut image = Volume::formatted(&Both, &sample_of(edition)).image;
        put16(&mut image, superblock::VERSION, other);
        assert_eq!(damaged_alike(&image).code, 0);
    }
    // Noise in the bytes that one of them has for names.
    let mut draw = Draw::new(81);
    let sound = Edition::BOTH.map(|edition| some_files_of(edition).image);
    let mut codes = [0; 15];
    for round in 0..2_000 {
        let mut image = sound[round % 2].clone();
        put16(&mut image, superblock::VERSION, *draw.pick(&[1, 2]));
        for index in 0..6 {
            for length_at in [34, 42] {
                let length = *draw.pick(&[0, 1, 2, 3, 468, 469, 476, 477]);
                put16(&mut image, entry_field(index, length_at), length);
            }
            let name = entry_field(index, 44)..entry_field(index, SECTOR);
            if draw.one_in(2) {
                image[name].fill(*draw.pick(b"xyz\0"));
            }
        }
        codes[damaged_alike(&image).code as usize] += 1;
    }
    assert!(codes[7] > 1_000, "{codes:?}");
}
