//! Names that can be typed, and older files whose names can't.

use crate::answers::code;
use crate::draw::Draw;
use crate::request::Lent;
use crate::testing::requests::{create, delete, find, read, rename, resize, write};
use crate::testing::volumes::{some_files, ANY};
use crate::testing::{Oracle, Subject};

/// Each byte in a name, alone and between others. The slash is 47.
#[test]
fn bytes_of_a_new_name() {
    let volume = some_files();
    let mut accepted = 0;
    for byte in 0..=255 {
        for name in [
            &[byte][..],
            &[b'x', byte],
            &[byte, b'x'],
            &[b'x', byte, b'x'],
        ] {
            let good = (33..=126).contains(&byte) && byte != 47;
            // "a" and "c" alone are there already.
            let there = name == b"a" || name == b"c";
            let expected = match (good, there) {
                (false, _) => code::BAD_ARGUMENT,
                (true, true) => code::ALREADY_THERE,
                (true, false) => code::DONE,
            };
            let (created, _) = Oracle.ask(&create(name, 77), &volume.image, ANY);
            assert_eq!(created.code(), expected, "{name:?}");
            let (renamed, _) = Oracle.ask(&rename(b"ab", name), &volume.image, ANY);
            assert_eq!(renamed.code() == 0, good, "{name:?}");
            // The other calls keep the former rule.
            let (found, _) = Oracle.ask(&find(name), &volume.image, Lent::NONE);
            let expected = match (byte, there) {
                (0, _) => code::BAD_ARGUMENT,
                (_, true) => code::DONE,
                (_, false) => code::NOT_THERE,
            };
            assert_eq!(found.code(), expected, "{name:?}");
            accepted += usize::from(good);
        }
    }
    assert_eq!(accepted, 4 * 93);
}

#[test]
fn lengths_of_a_new_name() {
    let volume = some_files();
    for (length, code) in [(0, 8), (1, 0), (476, 0), (477, 8)] {
        let name = vec![b'x'; length];
        for request in [create(&name, 77), rename(b"ab", &name)] {
            let (answer, _) = Oracle.ask(&request, &volume.image, ANY);
            assert_eq!(answer.code(), code, "{length}");
        }
    }
}

/// An older file is found, read, written, resized, renamed away and deleted; nothing gives its name
/// again.
#[test]
fn older_files() {
    for older in [&b"a b"[..], b"/", b"a/", b"\x7f", &[255; 476], b"\n"] {
        let mut volume = some_files();
        volume.done(&delete(b"cab"));
        volume.put_file(3, older, 5, &[4]);
        volume.compare();
        assert_eq!(volume.done(&read(older, 0, 9)).output.len(), 5);
        volume.done(&find(older));
        volume.done(&write(older, 5, Draw::new(1).bytes(700)));
        volume.done(&resize(older, 3));
        // 8 goes before 10, and before a rename to itself is done.
        for refused in [
            create(older, 77),
            create(older, 1),
            rename(older, older),
            rename(b"ab", older),
        ] {
            let (code, _) = volume.call(&Oracle, &refused);
            assert_eq!(code, code::BAD_ARGUMENT, "{refused:?}");
        }
        let mut deleted = volume.clone();
        deleted.done(&delete(older));
        volume.done(&rename(older, b"typed"));
        assert_eq!(volume.done(&read(b"typed", 0, 9)).output.len(), 3);
        volume.done(&rename(b"ab", b"typed"));
    }
}

/// Missing names: the old one of a rename is 9 whatever its bytes, unless they never could stand
/// there.
#[test]
fn missing_older_names() {
    let volume = some_files();
    for (request, code) in [
        (rename(b" ", b"new"), 9),
        (rename(b" ", b" "), 8),
        (rename(b"none", b" "), 8),
        (rename(b"a\0", b"new"), 8),
        (delete(b" "), 9),
        (write(b"/", 0, vec![1]), 9),
    ] {
        let (answer, _) = Oracle.ask(&request, &volume.image, Lent::NONE);
        assert_eq!(answer.code(), code, "{request:?}");
    }
}
