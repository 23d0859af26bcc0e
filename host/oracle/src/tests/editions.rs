//! The two editions: where their fields stand, byte by byte, the longest names and the widest times.

use crate::answers::code;
use crate::layout::{get16, get32, get64, Edition, SECTOR};
use crate::lists::{CONTENTS, RECORD};
use crate::request::{Answer, Lent};
use crate::testing::requests::{
    at_time, create, delete, find, list, read, rename, rename_set, resize, write,
};
use crate::testing::volumes::{sample_of, some_files_of, Volume, ANY, SAMPLE};
use crate::testing::{Oracle, Subject};
use crate::{check, report, summary, FormatRequest};

/// A second past the year 2106.
const WIDE: u64 = 1 << 32;

#[test]
fn fields_of_the_second_edition() {
    let mut volume = Volume::formatted(
        &Oracle,
        &FormatRequest {
            time: WIDE + 7,
            ..sample_of(Edition::Second)
        },
    );
    assert_eq!(get16(&volume.image, 16), 2);
    let root = |image: &[u8]| [get64(image, SECTOR + 16), get64(image, SECTOR + 24)];
    assert_eq!(root(&volume.image), [WIDE + 7; 2]);
    assert_eq!(volume.image[SECTOR + 32..2 * SECTOR], [0; SECTOR - 32]);

    volume.done(&at_time(create(b"late", 5), u64::MAX - 1));
    assert_eq!(root(&volume.image), [WIDE + 7, u64::MAX - 1]);
    volume.done(&at_time(write(b"late", 0, vec![1; 3]), WIDE));
    let mut expected = vec![255, 255, 0, 0, 0, 0, 0, 0, 0, 3, 0, 0, 0, 1];
    expected.extend(5_u64.to_be_bytes());
    expected.extend(0o644_u32.to_be_bytes());
    expected.extend((u64::MAX - 1).to_be_bytes());
    expected.extend(WIDE.to_be_bytes());
    expected.extend([0, 4]);
    expected.extend(b"late");
    expected.resize(SECTOR, 0);
    assert_eq!(volume.image[2 * SECTOR..3 * SECTOR], expected);
    let (found, _) = Oracle.ask(&find(b"late"), &volume.image, Lent::NONE);
    let Answer::Find(found) = found else {
        panic!("find's answer")
    };
    assert_eq!((found.access_time, found.change_time), (u64::MAX - 1, WIDE));
    assert_eq!((found.size, found.name_length), (3, 4));
}

#[test]
fn summary_and_program() {
    let [first, second] =
        Edition::BOTH.map(|edition| Volume::formatted(&Oracle, &sample_of(edition)));
    let told = [&first, &second].map(|volume| summary(&volume.image));
    assert_eq!([told[0].edition, told[1].edition], [1, 2]);
    assert_eq!(told[0].geometry(), told[1].geometry());
    assert_eq!(summary(&[]).edition, 0);
    assert_eq!(report::report(&first.image), report::report(&second.image));
}

/// Names of 468, 469, 476 and 477 bytes; a name too long for the edition is 8, also where a file
/// must be there.
#[test]
fn longest_names() {
    for (edition, longest) in [(Edition::First, 476), (Edition::Second, 468)] {
        let mut volume = some_files_of(edition);
        for length in [468, 469, 476, 477] {
            let name = vec![b'x'; length];
            let fits = length <= longest;
            for request in [
                find(&name),
                read(&name, 0, 0),
                write(&name, 0, Vec::new()),
                resize(&name, 0),
                delete(&name),
                rename(&name, b"x"),
            ] {
                let expected = if fits {
                    code::NOT_THERE
                } else {
                    code::BAD_ARGUMENT
                };
                assert_eq!(volume.call(&Oracle, &request).0, expected);
            }
            let expected = if fits { code::DONE } else { code::BAD_ARGUMENT };
            assert_eq!(volume.call(&Oracle, &create(&name, 77)).0, expected);
            assert_eq!(volume.call(&Oracle, &rename(b"ab", &name)).0, expected);
            if fits {
                volume.done(&rename(&name, b"ab"));
                assert_eq!(volume.call(&Oracle, &find(&name)).0, code::NOT_THERE);
            }
        }
    }
}

/// On the first edition a wide time is 8 in every call that takes one, also where nothing would be
/// stored; it goes before 9 and the later numbers, and after 7.
#[test]
fn wide_times() {
    let requests = [
        create(b"new", 77),
        create(b"a", 1),
        delete(b"ab"),
        delete(b"none"),
        resize(b"ab", 0),
        resize(b"ab", 131_073),
        write(b"ab", 0, vec![1]),
        write(b"ab", 0, Vec::new()),
        write(b"ab", u64::MAX, vec![1]),
        rename(b"ab", b"new"),
        rename(b"ab", b"ab"),
        rename(b"none", b"new"),
        rename_set(&[(b"ab", b"new")]),
        rename_set(&[(b"ab", b"ab")]),
        rename_set(&[(b"none", b"new")]),
        read(b"ab", 0, 1),
        read(b"none", 0, 0),
        read(b"ab", u64::MAX, 0),
        list(0),
        list(3),
    ];
    for request in requests {
        for edition in Edition::BOTH {
            let mut volume = some_files_of(edition);
            let usual = Oracle.ask(&request, &volume.image, ANY).0.code();
            for time in [u64::from(u32::MAX), WIDE, u64::MAX] {
                let request = at_time(request.clone(), time);
                let refused = edition == Edition::First && time >= WIDE;
                let expected = if refused { code::BAD_ARGUMENT } else { usual };
                assert_eq!(volume.clone().call(&Oracle, &request).0, expected);
            }
            volume.image[2 * SECTOR] = 1;
            let wide = at_time(request.clone(), WIDE);
            assert_eq!(Oracle.ask(&wide, &volume.image, ANY).0.code(), 7);
        }
    }
}

#[test]
fn formats() {
    for (edition, time, code) in [
        (1, WIDE - 1, 0),
        (1, WIDE, 8),
        (1, u64::MAX, 8),
        (2, WIDE - 1, 0),
        (2, u64::MAX, 0),
        (0, 0, 8),
        (3, 0, 8),
        (1 << 16 | 1, 0, 8),
        (u64::MAX, 0, 8),
    ] {
        let format = FormatRequest {
            edition,
            time,
            ..SAMPLE
        };
        for position in [0, 1, 2, 3, 261] {
            let (answer, record) = Oracle.format_record(&format, position, RECORD);
            assert_eq!(answer.code, code, "{format:?}");
            if code == 0 && position == 2 {
                let times = match edition {
                    1 => [16, 20].map(|at| u64::from(get32(&record, CONTENTS + at))),
                    _ => [16, 24].map(|at| get64(&record, CONTENTS + at)),
                };
                assert_eq!(times, [time; 2]);
            }
        }
        let past = Oracle.format_record(&format, 262, 0).0.code;
        assert_eq!(past, if code == 0 { 9 } else { 8 });
        assert_eq!(format.records().is_some(), code == 0);
        assert_eq!(crate::Ledger::new(&format).is_some(), code == 0);
    }
}

/// The other edition's version makes other entries of the same bytes.
#[test]
fn editions_are_not_mixed() {
    let mut volume = some_files_of(Edition::First);
    assert_eq!(check(&volume.image).code, 0);
    volume.image[17] = 2;
    let judged = check(&volume.image);
    assert_eq!((judged.code, judged.fault, judged.place), (7, 22, 0));
}
