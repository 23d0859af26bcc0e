//! The listing program's output, on sound, damaged and cut volumes.

use crate::answers::fault;
use crate::draw::Draw;
use crate::layout::{get16, get64, put16, put64, Edition, SECTOR};
use crate::listing::listing;
use crate::testing::damage::{entry_field, name_length_field, spoil_fields, Spoil};
use crate::testing::volumes::{some_files, some_files_of, Volume};
use crate::{check, report};

fn text(input: &[u8]) -> String {
    String::from_utf8(listing(input)).expect("these names are text")
}

const SOME_FILES: &str = "0 0 a\n1 131073 ab\n2 5 abc\n4 0 c\n5 600 cab\n";

#[test]
fn lines_of_some_files() {
    assert_eq!(text(&Volume::sample().image), "");
    for edition in Edition::BOTH {
        let mut volume = some_files_of(edition);
        volume.disturb(&mut Draw::new(131));
        assert_eq!(text(&volume.image), SOME_FILES);
        // What follows the directory is ignored, whatever it is.
        let directory_end = 257 * SECTOR;
        assert_eq!(text(&volume.image[..directory_end]), SOME_FILES);
        volume.image[directory_end..].fill(7);
        assert_eq!(text(&volume.image), SOME_FILES);
    }
}

/// An entry's own faults stand in its place; those of names, ids and the table are not told.
#[test]
fn faults() {
    let cases: [(&str, &str, Spoil); 9] = [
        ("1 131073 ab", "fault 21 at 1", |image| {
            put16(image, entry_field(1, 0), 7)
        }),
        ("4 0 c", "fault 22 at 4", |image| {
            put16(image, entry_field(4, 34), 0)
        }),
        ("4 0 c", "fault 22 at 4", |image| {
            put16(image, entry_field(4, 34), 477)
        }),
        ("2 5 abc", "fault 22 at 2", |image| {
            image[entry_field(2, 37)] = 0
        }),
        ("2 5 abc", "fault 22 at 2", |image| {
            put64(image, entry_field(2, 2), 6 * 65_536 + 1)
        }),
        ("2 5 abc", "2 393216 abc", |image| {
            put64(image, entry_field(2, 2), 6 * 65_536)
        }),
        ("2 5 abc", "2 5 ab", |image| {
            put16(image, entry_field(2, 34), 2)
        }),
        ("4 0 c", "4 0 c", |image| {
            put64(image, entry_field(4, 14), 0)
        }),
        ("4 0 c", "4 0 c", |image| {
            image[289 * SECTOR..290 * SECTOR].fill(1)
        }),
    ];
    for (line, expected, spoil) in cases {
        let mut image = some_files().image;
        spoil(&mut image);
        assert_eq!(text(&image), SOME_FILES.replace(line, expected));
    }
    let mut image = some_files().image;
    put16(&mut image, entry_field(254, 0), 1);
    put16(&mut image, entry_field(3, 0), 1);
    let expected = SOME_FILES.replace("4 0 c\n", "fault 21 at 3\n4 0 c\n") + "fault 21 at 254\n";
    assert_eq!(text(&image), expected);
}

/// Names are printed as they are.
#[test]
fn names_that_are_no_text() {
    let mut volume = Volume::sample();
    volume.put_file(9, b"\xff \n", 0, &[]);
    volume.put_file(10, &[b'x'; 476], 70_000, &[2, 0]);
    let mut expected = b"9 0 \xff \n\n10 70000 ".to_vec();
    expected.extend([b'x'; 476]);
    expected.push(b'\n');
    assert_eq!(listing(&volume.image), expected);
}

/// Only the refusal, if the superblock is short, refused or not clean; the image's length is not
/// tested.
#[test]
fn refused_superblocks() {
    let image = some_files().image;
    for length in [0, 1, 511] {
        assert_eq!(text(&image[..length]), "refused 1\n");
    }
    let with = |at: usize, number: u16| {
        let mut image = image.clone();
        put16(&mut image, at, number);
        text(&image)
    };
    assert_eq!(with(8, 0), "refused 2\n");
    assert_eq!(with(16, 3), "refused 2\n");
    assert_eq!(with(0, 254), "refused 3\n");
    assert_eq!(with(2, 1), "refused 3\n");
    assert_eq!(with(6, 127), "refused 3\n");
    assert_eq!(with(18, 65_535), "refused 4\n");
    assert_eq!(with(18, 1), "refused 5\n");
    assert_eq!(with(18, 1_025), "refused 6\n");
    // More extents than the image has room for.
    assert_eq!(with(2, 65_535), SOME_FILES);
}

/// Input that ends before the directory does: the lines so far, then 1.
#[test]
fn cut_short() {
    let image = some_files().image;
    for (sectors, lines) in [
        (1, 0),
        (2, 0),
        (3, 1),
        (4, 2),
        (5, 3),
        (6, 3),
        (7, 4),
        (8, 5),
        (256, 5),
    ] {
        let lines: String = SOME_FILES.split_inclusive('\n').take(lines).collect();
        for more in [0, 1, 511] {
            let length = sectors * SECTOR + more;
            assert_eq!(
                text(&image[..length]),
                format!("{lines}refused 1\n"),
                "{length}"
            );
        }
    }
    assert_eq!(text(&image[..257 * SECTOR]), SOME_FILES);
    // More files than the input has.
    let mut longer = image.clone();
    put16(&mut longer, 0, 65_535);
    assert!(text(&longer).ends_with("refused 1\n"));
}

/// Spoilt images: a line for each occupied entry, and a fault where check finds that one first.
#[test]
fn spoilt_images() {
    spoil_fields(2_500, |image| {
        let judged = check(image);
        let output = listing(image);
        match judged.code {
            2..=6 if report::report(image).starts_with("refused") || judged.code > 3 => {
                assert_eq!(output, format!("refused {}\n", judged.code).into_bytes());
            }
            7 if judged.fault <= fault::NAME_OR_SIZE => {
                let line = format!("fault {} at {}\n", judged.fault, judged.place);
                let line = line.as_bytes();
                assert!(output.windows(line.len()).any(|window| window == line));
            }
            0 | 7 => assert_eq!(output, plain_lines(image)),
            _ => {}
        }
        judged
    });
}

/// The lines of a volume without faults 21 and 22, word by word.
fn plain_lines(image: &[u8]) -> Vec<u8> {
    let mut lines = Vec::new();
    for index in 0..u64::from(get16(image, 0)) {
        if get16(image, entry_field(index, 0)) == 65_535 {
            let at = name_length_field(image, index);
            let length = usize::from(get16(image, at));
            let size = get64(image, entry_field(index, 2));
            lines.extend(format!("{index} {size} ").into_bytes());
            lines.extend(&image[at + 2..at + 2 + length]);
            lines.push(b'\n');
        }
    }
    lines
}
