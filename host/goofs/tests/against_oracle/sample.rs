//! The reading calls on the sample volume, empty and with files.

use crate::shared::{alike, calls_alike, on_both, output};
use oracle::draw::Draw;
use oracle::layout::SECTOR;
use oracle::testing::requests::{create, delete, find, list, read, write};
use oracle::testing::volumes::{sample_of, some_files_of, Volume, SAMPLE};
use oracle::testing::Oracle;
use oracle::{Answer, Lent, Request};

/// Summary, check, every list index and, of every file, find and some reads.
fn everything_alike(volume: &Volume) {
    let image = &volume.image;
    let before = image.clone();
    calls_alike(image);
    for index in 0..volume.ledger.geometry().files() + 2 {
        alike(&list(index), image, output(476));
    }
    for (_, file) in volume.ledger.files() {
        let size = file.bytes.len() as u64;
        alike(&find(&file.name), image, Lent::NONE);
        for offset in [0, 1, 511, 512, 65_535, 65_536, size / 2, size, size + 1] {
            for count in [0, 1, 512, 513, 65_536] {
                let (answer, filled) =
                    alike(&read(&file.name, offset, count), image, output(65_536));
                if answer.code() == 0 {
                    let end = size.min(offset + count);
                    assert!(filled.output == file.bytes[offset as usize..end as usize]);
                }
            }
        }
    }
    assert!(*image == before, "a reading call changed the image");
}

#[test]
fn empty() {
    on_both(|edition| {
        let volume = Volume::formatted(&Oracle, &sample_of(edition));
        everything_alike(&volume);
        let (answer, _) = alike(&Request::Summary, &volume.image, Lent::NONE);
        let Answer::Summary(told) = answer else {
            panic!("a summary's answer");
        };
        assert_eq!(told.edition, edition.number());
        assert_eq!(
            (told.files, told.extents, told.extent_sectors, told.state),
            (255, 4, 128, 0)
        );
    });
}

#[test]
fn with_files() {
    on_both(|edition| {
        let mut volume = Volume::formatted(&Oracle, &sample_of(edition));
        let mut draw = Draw::new(1);
        volume.done(&create(b"alpha", 1));
        volume.done(&create(&vec![b'x'; edition.longest_name()], u64::MAX));
        volume.done(&create(b"beta", 3));
        everything_alike(&volume);
        volume.done(&write(b"beta", 0, draw.bytes(65_536)));
        volume.done(&write(b"alpha", 0, draw.bytes(10)));
        volume.done(&write(b"beta", 65_536, draw.bytes(65_535)));
        everything_alike(&volume);
        // The file's second extent then stands before its first.
        volume.done(&delete(b"alpha"));
        volume.done(&write(b"beta", 131_071, draw.bytes(1)));
        volume.done(&create(b"gamma", 1));
        everything_alike(&volume);
        everything_alike(&some_files_of(edition));
    });
}

#[test]
fn a_full_directory() {
    on_both(|edition| {
        let mut volume = Volume::formatted(&Oracle, &sample_of(edition));
        for number in 0..SAMPLE.files {
            // From 1 to 255 bytes; each name is the start of the next.
            let name = vec![b'n'; number as usize + 1];
            volume.done(&create(&name, 1_000 - number % 100 + 1_000 * number));
        }
        everything_alike(&volume);
        alike(&find(&[b'n'; 256]), &volume.image, Lent::NONE);
    });
}

#[test]
fn an_image_longer_than_its_volume() {
    on_both(|edition| {
        let mut volume = some_files_of(edition);
        let noise = Draw::new(2).bytes(7 * SECTOR);
        volume.image.extend(noise);
        everything_alike(&volume);
    });
}
