//! Volumes that are clean and not sound: each fault, at several places.

use oracle::layout::{put16, put64, Edition, SECTOR};
use oracle::testing::damage::{entry_field, name_field, name_length_field, table_field};
use oracle::testing::images::edition_of;

use crate::maker::{EXTENT, ROOT_ID};
use crate::sound::{some_files, vector};
use crate::statement::{Stands, Vector};

type Spoil = fn(&mut [u8]);

fn set_name_length(image: &mut [u8], index: u64, length: usize) {
    let at = name_length_field(image, index);
    put16(image, at, length as u16);
}

/// Gives the entry the name of another.
fn copy_name(image: &mut [u8], from: u64, to: u64) {
    let start = name_length_field(image, from);
    let at = name_length_field(image, to);
    image.copy_within(start..entry_field(from, SECTOR), at);
}

/// The fault and its place, the end of the vector's name, what is wrong, and what makes it so.
const FAULTS: [(u64, u64, &str, &str, Spoil); 23] = [
    (21, 0, "occupied", "The mark of an occupied entry is 65534.", |image| {
        put16(image, entry_field(0, 0), 65_534)
    }),
    (21, 2, "free", "The mark of a free entry is 1.", |image| {
        put16(image, entry_field(2, 0), 1)
    }),
    (21, 254, "half", "The mark of the last entry is 65280: one of its bytes is an occupied entry's.", |image| {
        put16(image, entry_field(254, 0), 0xff00)
    }),
    (22, 1, "no-name", "The name length of an occupied entry is 0.", |image| {
        set_name_length(image, 1, 0)
    }),
    (22, 3, "long-name", "A name length is greater by 1 than the edition's longest, 476 or 468.", |image| {
        set_name_length(image, 3, edition_of(image).longest_name() + 1)
    }),
    (22, 0, "zero-in-name", "A byte within a name is 0.", |image| {
        image[name_field(image, 0, 4)] = 0
    }),
    (22, 3, "size", "A size is greater by 1 than all extents together.", |image| {
        put64(image, entry_field(3, 2), 4 * EXTENT + 1)
    }),
    (23, 1, "second", "Entry 1 has the name of entry 0.", |image| copy_name(image, 0, 1)),
    (23, 3, "last", "Entry 3 has the name of entry 1, whose file is empty.", |image| {
        copy_name(image, 1, 3)
    }),
    (24, 1, "zero", "An id is 0.", |image| put64(image, entry_field(1, 14), 0)),
    (24, 3, "root", "An id is the root's.", |image| {
        put64(image, entry_field(3, 14), ROOT_ID)
    }),
    (24, 3, "double", "An id is that of an entry of lower index.", |image| {
        let first = entry_field(0, 14);
        image.copy_within(first..first + 8, entry_field(3, 14))
    }),
    (25, 3, "free-entry", "The table gives the last extent to entry 2, which is free.", |image| {
        put16(image, table_field(3, 0), 2)
    }),
    (25, 0, "no-entry", "The table gives the first extent to entry 255; the directory ends with 254.", |image| {
        put16(image, table_field(0, 0), 255)
    }),
    (25, 2, "last-index", "The table gives an extent to entry 65534.", |image| {
        put16(image, table_field(2, 0), 65_534)
    }),
    (26, 0, "too-few", "A file of two extents has only the first.", |image| {
        put16(image, table_field(1, 0), 65_535)
    }),
    (26, 0, "twice", "Both extents of a file have the offset 0.", |image| {
        put16(image, table_field(1, 2), 0)
    }),
    (26, 0, "gap", "The extents of a file have the offsets 0 and 2.", |image| {
        put16(image, table_field(1, 2), 2)
    }),
    (26, 1, "empty-file", "An empty file has an extent.", |image| {
        put16(image, table_field(3, 0), 1);
        put16(image, table_field(3, 2), 0)
    }),
    (26, 3, "grown", "A size asks for a second extent, and there is none.", |image| {
        put64(image, entry_field(3, 2), EXTENT + 1)
    }),
    (26, 3, "too-many", "A file of 600 bytes has a second extent, the last of the volume.", |image| {
        put16(image, table_field(3, 0), 3);
        put16(image, table_field(3, 2), 1)
    }),
    (22, 1, "several", "Faults 22 at entries 1 and 3, 24 at 0 and 25 at extent 0: the lowest number counts, then the lowest place.", |image| {
        set_name_length(image, 1, 0);
        set_name_length(image, 3, 0);
        put64(image, entry_field(0, 14), 0);
        put16(image, table_field(0, 0), 200)
    }),
    (21, 3, "not-occupied", "The mark of entry 3 is 1, so it is no occupied entry: its extent is fault 25 too, its name no fault.", |image| {
        put16(image, entry_field(3, 0), 1);
        set_name_length(image, 3, 0)
    }),
];

/// Each spoils the volume `some-files`.
pub fn faults(edition: Edition) -> Vec<Vector> {
    let maker = some_files(edition);
    let geometry = maker.geometry();
    let faults = FAULTS.iter().map(|(fault, place, name, what, spoil)| {
        let mut image = maker.volume.image.clone();
        spoil(&mut image);
        let stands = Stands::Faulty(edition, geometry, *fault, *place);
        vector(
            &format!("fault-{fault}-{name}"),
            edition,
            what,
            image,
            stands,
        )
    });
    faults.collect()
}
