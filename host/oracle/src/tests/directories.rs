//! The largest directory: 65,535 files, of which 65,534 is the last.

use crate::answers::code;
use crate::layout::{get16, put16, Geometry, SECTOR};
use crate::lists::RECORD;
use crate::testing::images::{blank, put_file, table_entry};
use crate::testing::requests::{create, delete, find, list, read, write};
use crate::testing::volumes::{Volume, ANY, SAMPLE};
use crate::testing::{Oracle, Subject};
use crate::{carry_out, check, summary, Answer, FormatRequest, Request};

/// The sample's sectors, and as many more as the directory is longer.
const MOST_FILES: FormatRequest = FormatRequest {
    sectors: 1_313 + 65_535 - 255,
    files: 65_535,
    ..SAMPLE
};

#[test]
fn bounds_of_the_format() {
    let geometry = MOST_FILES.geometry().expect("65,535 files are accepted");
    let areas = [geometry.journal_at(), geometry.table_at()].map(|sector| sector.0);
    assert_eq!(areas, [65_537, 65_569]);
    assert_eq!(MOST_FILES.records(), Some(65_535 + 1 + 6));
    for (files, code) in [(254, 8), (255, 0), (65_535, 0), (65_536, 8)] {
        let format = FormatRequest {
            files,
            ..MOST_FILES
        };
        assert_eq!(Oracle.format_record(&format, 0, RECORD).0.code, code);
    }
    let volume = Volume::formatted(&Oracle, &MOST_FILES);
    volume.compare();
    assert_eq!(summary(&volume.image).files, 65_535);
    assert_eq!(check(&volume.image).code, 0);
}

/// All entries but the last are occupied. The last one is taken, written and freed again.
#[test]
fn last_file() {
    let geometry = Geometry::new(65_535, 4, 128).expect("within the bounds");
    let mut image = blank(geometry, geometry.end().0);
    for index in 0..65_534 {
        put_file(
            &mut image,
            geometry,
            index,
            &index.to_string().into_bytes(),
            0,
            &[],
        );
    }
    let mut call = |request: &Request, expected: u64| {
        let (answer, filled) = Oracle.ask(request, &image, ANY);
        assert_eq!(answer.code(), expected, "{request:?}");
        assert_eq!(carry_out(&mut image, &filled.list), 0);
        (answer, filled.output)
    };
    call(&list(65_534), code::NOT_THERE);
    call(&list(65_535), code::BAD_ARGUMENT);
    call(&create(b"last", 1), 0);
    call(&create(b"none", 2), code::DIRECTORY_FULL);
    let (found, _) = call(&find(b"last"), 0);
    assert!(matches!(found, Answer::Find(found) if found.index == 65_534));
    let (_, name) = call(&list(65_534), 0);
    assert_eq!(name, b"last");
    call(&write(b"last", 0, vec![7; 600]), 0);
    let (_, bytes) = call(&read(b"last", 599, 5), 0);
    assert_eq!(bytes, [7]);

    let owner = table_entry(geometry, 0);
    assert_eq!(get16(&image, owner), 65_534);
    // Without its file the owner is a fault, while 65,535 still means no file.
    let last_mark = (2 + 65_534) * SECTOR;
    put16(&mut image, last_mark, 0);
    let judged = check(&image);
    assert_eq!((judged.code, judged.fault, judged.place), (7, 25, 0));
    put16(&mut image, last_mark, 65_535);
    let (_, filled) = Oracle.ask(&delete(b"last"), &image, ANY);
    assert_eq!(carry_out(&mut image, &filled.list), 0);
    assert_eq!(get16(&image, owner), 65_535);
    assert_eq!(check(&image).code, 0);
}
