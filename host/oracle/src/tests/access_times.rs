//! Read and list set access times: what their lists write, byte by byte, and 14 over both buffers.

use crate::answers::code;
use crate::draw::Draw;
use crate::layout::{get32, Edition, SECTOR};
use crate::ledger::CutReport;
use crate::lists::{BARRIER, RECORD};
use crate::power::sector_numbers;
use crate::request::{Answer, Lent, Request};
use crate::testing::damage::entry_field;
use crate::testing::requests::{find, list, read};
use crate::testing::volumes::{some_files_of, Volume, ANY};
use crate::testing::{Filled, Oracle, Subject};

/// The lists have nine records.
const LENGTH: usize = 9 * RECORD;

/// The call's list writes this one target; in it only these bytes may change.
fn one_target(volume: &mut Volume, request: &Request, target: u64, time_at: usize, time: &[u8]) {
    let before = volume.image.clone();
    let Filled { list, .. } = volume.done(request);
    let reserve = 290 + 5 * 128;
    let expected = [
        reserve, 257, BARRIER, 0, BARRIER, target, BARRIER, 0, BARRIER,
    ];
    assert_eq!(sector_numbers(&list), expected);
    let mut expected = before;
    let at = target as usize * SECTOR + time_at;
    expected[at..at + time.len()].copy_from_slice(time);
    let metadata = 257 * SECTOR;
    assert!(
        volume.image[..metadata] == expected[..metadata],
        "{request:?}"
    );
}

#[test]
fn one_target_with_the_time() {
    for edition in Edition::BOTH {
        let mut volume = some_files_of(edition);
        volume.disturb(&mut Draw::new(81));
        let width = match edition {
            Edition::First => 4,
            Edition::Second => 8,
        };
        let file_time = &7_000_u64.to_be_bytes()[8 - width..];
        let root_time = &8_000_u64.to_be_bytes()[8 - width..];
        // Also a read of no bytes, of an empty file and at the end; twice with the same time.
        for (name, offset, count, index) in [
            (&b"ab"[..], 65_530, 20, 1),
            (b"ab", 0, 0, 1),
            (b"ab", 131_073, 5, 1),
            (b"a", 0, 65_536, 0),
            (b"a", 0, 0, 0),
        ] {
            one_target(
                &mut volume,
                &read(name, offset, count),
                2 + index,
                26,
                file_time,
            );
        }
        for index in [0, 5, 5] {
            one_target(&mut volume, &list(index), 1, 16, root_time);
        }
        let (found, _) = Oracle.ask(&find(b"ab"), &volume.image, Lent::NONE);
        let Answer::Find(found) = found else {
            panic!("find's answer")
        };
        assert_eq!(
            (found.access_time, found.change_time, found.version),
            (7_000, 5_000, 3)
        );
    }
}

/// List gives the entry's fields and sets the root's time.
#[test]
fn list_shows_the_entry() {
    let mut volume = some_files_of(Edition::First);
    volume.done(&read(b"ab", 0, 1));
    let (answer, filled) = Oracle.ask(&list(1), &volume.image, ANY);
    let Answer::List(answer) = answer else {
        panic!("list's answer")
    };
    assert_eq!((answer.access_time, answer.change_time), (7_000, 5_000));
    assert_eq!((answer.name_length, answer.length), (2, LENGTH as u64));
    assert_eq!(filled.output, b"ab");
    assert_eq!(get32(&volume.image, entry_field(1, 26)), 7_000);
}

/// 14 if either buffer is too short, and then neither changes; the answer's own lengths suffice.
#[test]
fn both_buffers() {
    let volume = some_files_of(Edition::First);
    for (request, output) in [
        (read(b"ab", 65_530, 20), 20),
        (read(b"a", 0, 9), 0),
        (list(5), 3),
    ] {
        for (output_lent, list_lent, expected) in [
            (output, LENGTH, code::DONE),
            (output, LENGTH - 1, code::BUFFER_TOO_SHORT),
            (output, 0, code::BUFFER_TOO_SHORT),
            (output + 9, LENGTH + 9, code::DONE),
            (output + 9, LENGTH - 1, code::BUFFER_TOO_SHORT),
        ] {
            let lent = Lent {
                output: output_lent,
                list: list_lent,
            };
            let (answer, filled) = Oracle.ask(&request, &volume.image, lent);
            assert_eq!(answer.code(), expected, "{request:?}");
            assert_eq!(volume.ledger.answer(&request, lent), answer);
            if expected == code::DONE {
                assert_eq!((filled.output.len(), filled.list.len()), (output, LENGTH));
            }
        }
        if output > 0 {
            let lent = Lent {
                output: output - 1,
                list: LENGTH,
            };
            let (answer, _) = Oracle.ask(&request, &volume.image, lent);
            assert_eq!(answer.code(), code::BUFFER_TOO_SHORT);
        }
    }
}

/// Refused calls leave the times alone, and cut ones set them exactly if the start mark landed.
#[test]
fn refused_and_cut() {
    let mut volume = some_files_of(Edition::Second);
    let before = volume.ledger.clone();
    for request in [
        read(b"ab", 131_074, 1),
        read(b"ab", 0, 65_537),
        read(b"none", 0, 0),
        list(3),
        list(255),
    ] {
        assert_ne!(volume.call(&Oracle, &request).0, 0);
    }
    assert_eq!(volume.ledger, before);
    for start_mark in [false, true] {
        let cut = CutReport {
            start_mark,
            data_sectors: Vec::new(),
        };
        for request in [read(b"ab", 0, 3), list(0)] {
            let told = volume.ledger.cut_call(&request, ANY, &cut);
            assert_eq!(
                told.map(|told| told.output.len()),
                Some(if request == list(0) { 1 } else { 3 })
            );
        }
        let accessed = volume.ledger.root().access_time == 8_000;
        assert_eq!(accessed, start_mark);
        let file = volume.ledger.slots()[1].as_ref().expect("ab");
        assert_eq!(file.access_time == 7_000, start_mark);
    }
}
