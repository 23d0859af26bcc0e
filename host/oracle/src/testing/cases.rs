//! The sample's cases P2 to P10 and a full directory, put to a subject in both editions.

use super::requests::{create, delete, find, resize, write};
use super::volumes::{sample_of, Volume};
use super::Subject;
use crate::answers::code;
use crate::draw::Draw;
use crate::layout::{get16, get32, superblock, Edition, SECTOR};
use crate::lists::{BARRIER, CONTENTS, RECORD};
use crate::power::sector_numbers;
use crate::request::{Answer, Lent, Request};
use crate::FormatRequest;

/// A fresh sample volume, and calls of one subject on it.
struct Sample<'s> {
    subject: &'s dyn Subject,
    volume: Volume,
}

impl Sample<'_> {
    fn new(subject: &dyn Subject, edition: Edition) -> Sample<'_> {
        Sample {
            subject,
            volume: Volume::formatted(subject, &sample_of(edition)),
        }
    }

    /// Makes the call, which must give this code, and gives its list.
    fn call(&mut self, expected: u64, request: &Request) -> Vec<u8> {
        let (code, filled) = self.volume.call(self.subject, request);
        assert_eq!(code, expected, "{request:?}");
        filled.list
    }

    /// Owner and offset of the four table entries; only the owner of a free one.
    fn table(&self) -> Vec<(u16, Option<u16>)> {
        let entries = self.volume.image[289 * SECTOR..][..16].chunks(4);
        let owned = entries.map(|entry| {
            let owner = get16(entry, 0);
            (owner, (owner != 65_535).then_some(get16(entry, 2)))
        });
        owned.collect()
    }
}

pub fn p2_to_p5_formats(subject: &dyn Subject) {
    for edition in Edition::BOTH {
        p2_to_p5_formats_of(subject, edition);
    }
}

fn p2_to_p5_formats_of(subject: &dyn Subject, edition: Edition) {
    let first_record = |sectors| {
        let format = FormatRequest {
            sectors,
            ..sample_of(edition)
        };
        subject.format_record(&format, 0, RECORD)
    };
    for (sectors, extent_sectors, extents) in [
        (1_057, 128, 2),
        (1_313, 128, 4),
        (8_389_408, 128, 65_535),
        (8_389_409, 256, 32_768),
    ] {
        let (answer, record) = first_record(sectors);
        assert_eq!((answer.code, answer.length), (0, 528));
        let number = get32(&record, CONTENTS + superblock::EXTENT_SECTORS);
        assert_eq!(number, extent_sectors, "{sectors}");
        let number = get16(&record, CONTENTS + superblock::EXTENTS);
        assert_eq!(number, extents, "{sectors}");
    }
    let (refused, _) = first_record(1_056);
    assert_eq!((refused.code, refused.length), (code::BAD_ARGUMENT, 0));
}

pub fn p6_first_create(subject: &dyn Subject) {
    for edition in Edition::BOTH {
        p6_first_create_of(subject, edition);
    }
}

fn p6_first_create_of(subject: &dyn Subject, edition: Edition) {
    let mut sample = Sample::new(subject, edition);
    let list = sample.call(0, &create(b"first", 1));
    assert_eq!(list.len(), 5_808);
    let expected = [
        674, 675, 257, BARRIER, 0, BARRIER, 1, 2, BARRIER, 0, BARRIER,
    ];
    assert_eq!(sector_numbers(&list), expected);
}

pub fn p7_to_p9_full_files(subject: &dyn Subject) {
    for edition in Edition::BOTH {
        p7_to_p9_full_files_of(subject, edition);
    }
}

fn p7_to_p9_full_files_of(subject: &dyn Subject, edition: Edition) {
    let mut sample = Sample::new(subject, edition);
    let mut draw = Draw::new(7);
    sample.call(0, &create(b"one", 1));
    sample.call(code::BAD_ARGUMENT, &write(b"one", 0, draw.bytes(65_537)));
    let list = sample.call(0, &write(b"one", 0, draw.bytes(65_536)));
    assert_eq!(list.len(), 139 * RECORD);
    let mut expected: Vec<u64> = (290..418).collect();
    expected.extend([
        674, 675, 257, BARRIER, 0, BARRIER, 2, 289, BARRIER, 0, BARRIER,
    ]);
    assert_eq!(sector_numbers(&list), expected);

    for (name, id) in [(b"two", 2), (b"six", 3)] {
        sample.call(0, &create(name, id));
        sample.call(0, &write(name, 0, draw.bytes(65_536)));
    }
    assert_eq!(
        sample.table(),
        [(0, Some(0)), (1, Some(0)), (2, Some(0)), (65_535, None)]
    );
    let one_more = write(b"one", 65_536, vec![42]);
    sample.call(code::NO_ROOM, &one_more);
    sample.call(code::NO_ROOM, &resize(b"one", 65_537));
    sample.call(0, &delete(b"two"));
    sample.call(0, &one_more);
    assert_eq!(
        sample.table(),
        [(0, Some(0)), (0, Some(1)), (2, Some(0)), (65_535, None)]
    );
}

pub fn p10_longest_name(subject: &dyn Subject) {
    for (edition, longest) in [(Edition::First, 476), (Edition::Second, 468)] {
        let mut sample = Sample::new(subject, edition);
        sample.call(0, &create(&vec![b'n'; longest], 1));
        sample.call(code::BAD_ARGUMENT, &create(&vec![b'm'; longest + 1], 2));
    }
}

/// All 255 entries are taken; then some are free again, and so are their ids.
pub fn full_directory(subject: &dyn Subject) {
    for edition in Edition::BOTH {
        full_directory_of(subject, edition);
    }
}

fn full_directory_of(subject: &dyn Subject, edition: Edition) {
    let mut sample = Sample::new(subject, edition);
    let name = |number: u64| format!("file-{number}").into_bytes();
    for number in 1..=255 {
        sample.call(0, &create(&name(number), number));
    }
    sample.call(code::DIRECTORY_FULL, &create(&name(256), 256));
    sample.call(code::ALREADY_THERE, &create(&name(256), 255));
    for number in [200, 100, 255, 1] {
        sample.call(0, &delete(&name(number)));
    }
    // The lowest free entry first.
    for (number, id, index) in [
        (300, 200, 0),
        (301, 301, 99),
        (302, 1, 199),
        (303, 303, 254),
    ] {
        sample.call(0, &create(&name(number), id));
        let (answer, _) = subject.ask(&find(&name(number)), &sample.volume.image, Lent::NONE);
        assert!(matches!(answer, Answer::Find(found) if found.index == index && found.id == id));
    }
    sample.call(code::DIRECTORY_FULL, &create(&name(304), 304));
}
