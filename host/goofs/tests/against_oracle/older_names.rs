//! Files of older volumes, whose names nobody can type: they stay sound, and can be found, listed,
//! read, written, resized, deleted and renamed away; no call gives such a name again.

use crate::counts::{count, Compared};
use crate::shared::{on_both, with_each_buffer, Both};
use oracle::draw::Draw;
use oracle::layout::Edition;
use oracle::testing::requests::{
    create, delete, find, list, read, rename, rename_set, resize, shortened, write,
};
use oracle::testing::volumes::{some_files_of, Volume};
use oracle::Request;

/// Each has one byte that a new name can't have: 32, 47, 127, 1, 10, 128, 255, at an end or inside.
fn older_names(edition: Edition) -> Vec<Vec<u8>> {
    let longest = edition.longest_name();
    vec![
        b" ".to_vec(),
        b"/".to_vec(),
        b"\x7f".to_vec(),
        b"\x01".to_vec(),
        b"a b".to_vec(),
        b"ab ".to_vec(),
        b" ab".to_vec(),
        b"dir/file".to_vec(),
        b"line\n".to_vec(),
        b"\x80".to_vec(),
        vec![255; longest],
        [&vec![b'x'; longest - 1][..], b" "].concat(),
    ]
}

/// "abc" and "cab" are gone; the file of this name has the entry and the extent of "cab", and one
/// extent is free.
fn with_older_file(edition: Edition, name: &[u8]) -> Volume {
    let mut volume = some_files_of(edition);
    volume.done(&delete(b"abc"));
    volume.done(&delete(b"cab"));
    volume.put_file(5, name, 700, &[4]);
    volume.disturb(&mut Draw::new(61));
    volume.compare();
    volume
}

#[test]
fn every_call() {
    on_both(|edition| {
        for name in older_names(edition) {
            let volume = with_older_file(edition, &name);
            let data = Draw::new(62).bytes(900);
            for (expected, request) in [
                (0, Request::Check),
                (0, find(&name)),
                (0, list(5)),
                (0, read(&name, 0, 65_536)),
                (0, read(&name, 699, 9)),
                (12, read(&name, 701, 9)),
                (0, write(&name, 0, data.clone())),
                (0, write(&name, 700, data.clone())),
                (0, write(&name, 5, Vec::new())),
                (0, resize(&name, 0)),
                (0, resize(&name, 700)),
                (0, resize(&name, 701)),
                (0, delete(&name)),
                (0, rename(&name, b"typed")),
                (0, rename(&name, b"ab")),
                (0, rename(&name, b"a")),
                // 8 goes before 10, and before a rename to itself is done.
                (8, create(&name, 77)),
                (8, create(&name, 1)),
                (8, rename(&name, &name)),
                (8, rename(b"ab", &name)),
                (8, rename(b"none", &name)),
                (0, rename_set(&[(&name, b"typed"), (b"typed", b"ab")])),
                (8, rename_set(&[(b"ab", b"t"), (b"t", &name)])),
            ] {
                count(Compared::ArgumentEdges, 1);
                let (code, _) = with_each_buffer(&request, &volume.image);
                assert_eq!(code, expected, "{}", shortened(&request));
            }
        }
    });
}

/// The same, each list landed, with the ledger of the calls.
#[test]
fn a_life_of_each() {
    on_both(|edition| {
        for name in older_names(edition) {
            let mut volume = with_older_file(edition, &name);
            let bytes = Draw::new(63).bytes(65_536);
            for request in [
                write(&name, 700, bytes.clone()),
                resize(&name, 65_000),
                rename(&name, b"typed"),
                write(b"typed", 65_000, bytes),
                rename(b"ab", b"typed"),
            ] {
                assert_eq!(volume.call(&Both, &request).0, 0, "{}", shortened(&request));
            }
            assert_eq!(volume.call(&Both, &find(&name)).0, 9);
            assert_eq!(volume.call(&Both, &rename(b"typed", &name)).0, 8);
            let mut volume = with_older_file(edition, &name);
            assert_eq!(volume.call(&Both, &delete(&name)).0, 0);
            assert_eq!(volume.call(&Both, &create(&name, 77)).0, 8);
            assert_eq!(volume.call(&Both, &find(&name)).0, 9);
        }
    });
}
