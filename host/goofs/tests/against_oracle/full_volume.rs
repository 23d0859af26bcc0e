//! A long directory and the largest table: 1,024 files and 65,535 extents of 128 sectors; and the
//! largest directory, 65,535 files. Such an image
//! has 4.3 GB, of which only the pages that are used take up memory; one stands at a time.

use std::sync::{Mutex, MutexGuard};

use crate::counts::{count, Compared};
use crate::shared::{alike, on_both, output, with_each_buffer};
use oracle::draw::Draw;
use oracle::layout::{put16, put64, Edition, Geometry, SECTOR};
use oracle::testing::damage::entry_field;
use oracle::testing::images::{blank_of, put_file, table_entry};
use oracle::testing::requests::{
    create, delete, find, list, read, rename, rename_set, resize, write,
};
use oracle::testing::volumes::ANY;
use oracle::{Lent, Request};

static ONE_AT_A_TIME: Mutex<()> = Mutex::new(());

pub fn alone() -> MutexGuard<'static, ()> {
    // A test that failed leaves nothing behind that the next could stumble over.
    ONE_AT_A_TIME
        .lock()
        .unwrap_or_else(|failed| failed.into_inner())
}

pub fn geometry() -> Geometry {
    Geometry::new(1_024, 65_535, 128).expect("within the bounds")
}

/// Names of the greatest length that differ only at their end.
fn name(edition: Edition, index: u64) -> Vec<u8> {
    format!("{index:n>0$}", edition.longest_name()).into_bytes()
}

/// All entries are occupied, and all usable extents; those of a file are scattered.
fn full(edition: Edition) -> Vec<u8> {
    let geometry = geometry();
    let mut image = blank_of(edition, geometry, geometry.end().0);
    let usable = geometry.usable_extents();
    assert_eq!(usable, 65_530);
    let mut extents = vec![Vec::new(); 1_024];
    for extent in 0..usable {
        // 7,919 and the number of extents have no common divisor.
        extents[(extent % 1_024) as usize].push(extent * 7_919 % usable);
    }
    for (index, extents) in extents.iter().enumerate() {
        let size = extents.len() as u64 * 65_536 - index as u64 % 3;
        let index = index as u64;
        let name = name(edition, index);
        put_file(&mut image, geometry, index, &name, size, extents);
    }
    image
}

#[test]
fn every_call() {
    on_both(|edition| {
        let _alone = alone();
        let mut image = full(edition);
        let name = |index| name(edition, index);
        let mut draw = Draw::new(41);
        alike(&Request::Summary, &image, Lent::NONE);
        let (answer, _) = alike(&Request::Check, &image, Lent::NONE);
        assert_eq!(answer.code(), 0);
        for index in (0..1_024).step_by(31).chain([1_023, 1_024, 65_535]) {
            alike(&list(index), &image, output(476));
            alike(&list(index), &image, output(475));
            alike(&find(&name(index)), &image, Lent::NONE);
        }
        for index in [0, 1, 2, 513, 1_022, 1_023] {
            let size = 63 * 65_536;
            for edge in [0, 65_536, size / 2, size - 65_536] {
                // Noise where the span is read, so that a wrong extent shows.
                scatter_noise(&mut image, &mut draw);
                for (offset, count) in [(edge, 65_536), (edge + 65_535, 65_536), (edge + 1, 600)] {
                    alike(&read(&name(index), offset, count), &image, output(65_536));
                }
            }
        }
        let long_after = read(&name(1_023), 64 * 65_536 + 1, 1);
        assert_eq!(alike(&long_after, &image, output(1)).0.code(), 12);
        for index in [0, 1, 1_023] {
            let size = if index < 1_018 { 64 } else { 63 } * 65_536 - index % 3;
            for (expected, request) in [
                (11, create(b"new", 1)),
                (10, create(&name(index), 1)),
                (0, delete(&name(index))),
                (0, resize(&name(index), 0)),
                (0, resize(&name(index), size - 65_536)),
                (13, resize(&name(index), size + 3)),
                (0, write(&name(index), 0, vec![1; 65_536])),
                (13, write(&name(index), size, vec![1; 3])),
                (0, rename(&name(index), b"new")),
                (0, rename(&name(index), &name(512))),
                (0, rename(&name(512), &name(index))),
            ] {
                assert_eq!(
                    with_each_buffer(&request, &image).0,
                    expected,
                    "file {index}"
                );
            }
        }
    });
}

/// Bytes here and there in the data area.
fn scatter_noise(image: &mut [u8], draw: &mut Draw) {
    let data = geometry().data_at().0 as usize * SECTOR;
    for _ in 0..200 {
        let at = data + draw.below((image.len() - data - 8) as u64) as usize;
        put64(image, at, draw.number());
    }
}

/// Each fault at its first and last places.
#[test]
fn every_fault() {
    on_both(|edition| {
        let _alone = alone();
        let mut image = full(edition);
        let name = |index| name(edition, index);
        let mut expect = |at: usize, bytes: &[u8], fault: (u64, u64)| {
            let old = image[at..at + bytes.len()].to_vec();
            image[at..at + bytes.len()].copy_from_slice(bytes);
            count(Compared::DamagedImages, 1);
            for request in [Request::Check, find(&name(9)), list(9)] {
                alike(&request, &image, ANY);
            }
            let told = oracle::check(&image);
            assert_eq!((told.fault, told.place), fault, "byte {at}");
            image[at..at + old.len()].copy_from_slice(&old);
        };
        let (length_at, name_at) = (edition.name_length(), edition.name());
        let too_long = (edition.longest_name() as u16 + 1).to_be_bytes();
        for index in [0, 1, 1_022, 1_023] {
            expect(entry_field(index, 0), &[255, 254], (21, index));
            expect(entry_field(index, length_at), &too_long, (22, index));
            expect(entry_field(index, SECTOR - 1), &[0], (22, index));
            expect(entry_field(index, 2), &[0; 8], (26, index));
            expect(entry_field(index, 14), &[0; 8], (24, index));
        }
        expect(entry_field(1_023, name_at), &name(0), (23, 1_023));
        expect(entry_field(1_023, name_at), &name(1_022), (23, 1_023));
        expect(entry_field(0, name_at), &name(1), (23, 1));
        let id = |index: u64| (0xfedc_ba98_0000_0000 + index).to_be_bytes();
        expect(entry_field(1_023, 14), &id(0), (24, 1_023));
        expect(entry_field(0, 14), &id(1_023), (24, 1_023));
        expect(entry_field(500, 14), &900_u64.to_be_bytes(), (24, 500));
        let table = |extent| table_entry(geometry(), extent);
        for extent in [0, 127, 128, 65_529, 65_530, 65_534] {
            expect(table(extent), &[4, 0], (25, extent));
        }
        // The last extents may belong to a file as any other; this one has no such offset.
        for extent in [65_530, 65_534] {
            expect(table(extent), &[0, 0], (26, 0));
        }
        let owner = |image: &[u8], extent| {
            u64::from(u16::from_be_bytes([
                image[table(extent)],
                image[table(extent) + 1],
            ]))
        };
        let owners = [0, 65_529].map(|extent| (extent, owner(&full_table(edition), extent)));
        for (extent, owner) in owners {
            expect(table(extent) + 2, &[255, 255], (26, owner));
            expect(table(extent), &[255, 255], (26, owner));
        }
    });
}

/// Only the start of the full image, up to the end of the table.
fn full_table(edition: Edition) -> Vec<u8> {
    let mut image = full(edition);
    image.truncate(geometry().data_at().0 as usize * SECTOR);
    image.shrink_to_fit();
    image
}

/// One file, "all", with all usable extents in falling order.
pub fn one_file(edition: Edition) -> Vec<u8> {
    let geometry = geometry();
    let mut image = blank_of(edition, geometry, geometry.end().0);
    let extents: Vec<u64> = (0..geometry.usable_extents()).rev().collect();
    let size = size_of_all();
    put_file(&mut image, geometry, 1_023, b"all", size, &extents);
    image
}

/// The size of a file with all usable extents.
pub fn size_of_all() -> u64 {
    geometry().usable_extents() * geometry().extent_bytes()
}

#[test]
fn one_file_with_everything() {
    on_both(|edition| {
        let _alone = alone();
        let geometry = geometry();
        let size = size_of_all();
        let mut image = one_file(edition);
        assert_eq!(alike(&Request::Check, &image, Lent::NONE).0.code(), 0);
        let mut draw = Draw::new(42);
        for offset in [0, 65_535, size / 2 + 1, size - 65_536, size - 1, size] {
            scatter_noise(&mut image, &mut draw);
            alike(&read(b"all", offset, 65_536), &image, output(65_536));
        }
        for (at, bytes) in [(2, [255, 249]), (0, [255, 255]), (2, [0, 1])] {
            let entry = table_entry(geometry, 32_000);
            let old = image[entry..entry + 4].to_vec();
            image[entry + at..entry + at + 2].copy_from_slice(&bytes);
            count(Compared::DamagedImages, 1);
            assert_eq!(alike(&Request::Check, &image, Lent::NONE).0.code(), 7);
            image[entry..entry + 4].copy_from_slice(&old);
        }
        put16(&mut image, 18, 1_024);
        assert_eq!(alike(&Request::Check, &image, Lent::NONE).0.code(), 5);
    });
}

/// The largest directory: all of its entries but the last, which is then taken, written and freed;
/// and faults at its last indexes.
#[test]
fn largest_directory() {
    on_both(|edition| {
        let _alone = alone();
        let geometry = Geometry::new(65_535, 200, 128).expect("within the bounds");
        let name = |index| name(edition, index);
        let mut image = blank_of(edition, geometry, geometry.end().0);
        for index in 0..65_534 {
            let extents = [index];
            let (size, extents) = match index {
                0..150 => (65_536, &extents[..]),
                _ => (0, &[][..]),
            };
            put_file(&mut image, geometry, index, &name(index), size, extents);
        }
        for index in [0, 1, 65_533, 65_534, 65_535, 65_536] {
            alike(&list(index), &image, output(476));
            alike(&find(&name(index)), &image, Lent::NONE);
        }
        let last = name(65_534);
        let swap = rename_set(&[(&last, b"t"), (&name(1), &last), (b"t", &name(1))]);
        for (expected, request) in [
            (0, create(&last, 1)),
            (11, create(b"none", 2)),
            (0, write(&last, 0, vec![7; 600])),
            (0, resize(&last, 10)),
            // Onto the first entry, which is then free, and back from there.
            (0, rename(&last, &name(0))),
            (0, create(&last, 3)),
            (0, rename(&name(0), &last)),
            // The second entry and the last change names, and back.
            (0, swap.clone()),
            (0, swap),
        ] {
            assert_eq!(
                with_each_buffer(&request, &image).0,
                expected,
                "{request:?}"
            );
            if expected == 0 {
                let (_, filled) = alike(&request, &image, ANY);
                assert_eq!(goofs::carry_out(&mut image, &filled.list), 0);
            }
        }
        alike(&find(&last), &image, Lent::NONE);
        alike(&read(&last, 0, 20), &image, output(20));
        assert_eq!(alike(&Request::Check, &image, Lent::NONE).0.code(), 0);
        let mut place_of = |spoil: &dyn Fn(&mut [u8])| {
            let held = image[..geometry.data_at().0 as usize * SECTOR].to_vec();
            spoil(&mut image);
            count(Compared::DamagedImages, 1);
            let (answer, _) = alike(&Request::Check, &image, Lent::NONE);
            assert_eq!(answer.code(), 7);
            image[..held.len()].copy_from_slice(&held);
        };
        let mark = entry_field(65_534, 0);
        let length_at = edition.name_length();
        place_of(&|image| put16(image, mark, 0));
        place_of(&|image| put16(image, mark, 1));
        place_of(&|image| put64(image, entry_field(65_534, 14), 0));
        place_of(&|image| put64(image, entry_field(65_534, 14), 0xfedc_ba98_0000_0001));
        place_of(&|image| {
            image.copy_within(
                entry_field(3, length_at)..entry_field(4, 0),
                entry_field(65_534, length_at),
            )
        });
        place_of(&|image| put16(image, table_entry(geometry, 160), 65_534));
        let (_, filled) = alike(&delete(&last), &image, ANY);
        assert_eq!(goofs::carry_out(&mut image, &filled.list), 0);
        assert_eq!(alike(&Request::Check, &image, Lent::NONE).0.code(), 0);
    });
}
