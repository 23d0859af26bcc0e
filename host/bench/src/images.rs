//! The images that are timed: the sample volume, and volumes up to the largest directory and table,
//! more or less filled. An image of the largest has 4.3 GB, of which only the pages that are used
//! take up memory.

use oracle::draw::Draw;
use oracle::layout::{Edition, Extent, Geometry, SECTOR};
use oracle::testing::images::{blank, blank_of, put_file};

pub const SAMPLE_SECTORS: u64 = 1_313;

/// The most files and extents that a volume has.
pub fn largest() -> Geometry {
    geometry(65_535, 65_535)
}

/// A geometry with the shortest extents.
pub fn geometry(files: u64, extents: u64) -> Geometry {
    Geometry::new(files, extents, 128).expect("within the bounds")
}

pub fn short_name(index: u64) -> Vec<u8> {
    format!("calibration-{index:05}.dat").into_bytes()
}

/// A name of 476 bytes; only the last ones differ.
pub fn long_name(index: u64) -> Vec<u8> {
    let mut name = vec![b'n'; 476];
    name[471..].copy_from_slice(format!("{index:05}").as_bytes());
    name
}

/// The sample of 1,313 sectors: "calibration" with two extents, "empty", and one extent free.
pub fn sample(edition: Edition) -> Vec<u8> {
    let geometry = geometry(255, 4);
    let mut image = blank_of(edition, geometry, SAMPLE_SECTORS);
    put_file(&mut image, geometry, 0, b"calibration", 131_072, &[2, 0]);
    put_file(&mut image, geometry, 1, b"empty", 0, &[]);
    fill_extents(&mut image, geometry, &[2, 0]);
    image
}

/// The sample's geometry with so many files, all usable extents taken.
pub fn sample_filled(files: u64) -> Vec<u8> {
    let geometry = geometry(255, 4);
    filled(geometry, files, geometry.usable_extents(), short_name)
}

/// One file with two extents.
pub fn nearly_empty() -> Vec<u8> {
    let geometry = largest();
    let mut image = blank(geometry, geometry.end().0);
    put_file(
        &mut image,
        geometry,
        0,
        &short_name(0),
        131_072,
        &[40_000, 7],
    );
    fill_extents(&mut image, geometry, &[40_000, 7]);
    image
}

/// All entries and all usable extents are taken.
pub fn full(name: fn(u64) -> Vec<u8>) -> Vec<u8> {
    let geometry = largest();
    filled(geometry, geometry.files(), geometry.usable_extents(), name)
}

/// As full, but the last entry and one extent are free.
pub fn almost_full() -> Vec<u8> {
    let geometry = largest();
    filled(
        geometry,
        geometry.files() - 1,
        geometry.usable_extents() - 1,
        short_name,
    )
}

/// The first entries are occupied and the first extents taken. The extents of a file are scattered,
/// and the last file begins in the last of them.
pub fn filled(geometry: Geometry, occupied: u64, taken: u64, name: fn(u64) -> Vec<u8>) -> Vec<u8> {
    let mut image = blank(geometry, geometry.end().0);
    let mut extents = vec![Vec::new(); occupied as usize];
    for number in 0..taken {
        let file = occupied - 1 - number % occupied;
        // A prime that does not divide the number of extents: each is met once.
        extents[file as usize].push(taken - 1 - number * 7_919 % taken);
    }
    for (index, extents) in (0..).zip(&extents) {
        let size = extents.len() as u64 * geometry.extent_bytes();
        put_file(&mut image, geometry, index, &name(index), size, extents);
    }
    let last = &extents[occupied as usize - 1];
    fill_extents(&mut image, geometry, &last[..last.len().min(2)]);
    image
}

/// One file with all usable extents, in falling order.
pub fn one_file() -> Vec<u8> {
    let geometry = largest();
    let mut image = blank(geometry, geometry.end().0);
    let extents: Vec<u64> = (0..geometry.usable_extents()).rev().collect();
    put_file(
        &mut image,
        geometry,
        1_023,
        b"all",
        extents.len() as u64 * geometry.extent_bytes(),
        &extents,
    );
    image
}

/// One file with all usable extents, and in the first entry an empty one.
pub fn one_file_and_a_new_one() -> Vec<u8> {
    let mut image = one_file();
    put_file(&mut image, largest(), 0, b"new", 0, &[]);
    image
}

/// Another writer's volume: the lowest extents are free, one more than must stay free, so that the search
/// for them from the top passes over all others. "all" has these, "empty" none.
pub fn free_below() -> Vec<u8> {
    let geometry = largest();
    let mut image = blank(geometry, geometry.end().0);
    let extents: Vec<u64> = (geometry.reserve_extents() + 1..geometry.extents()).collect();
    let size = extents.len() as u64 * geometry.extent_bytes();
    put_file(&mut image, geometry, 0, b"empty", 0, &[]);
    put_file(&mut image, geometry, 1_023, b"all", size, &extents);
    image
}

/// The same, and the free extents are scattered over the table.
pub fn free_scattered() -> Vec<u8> {
    let geometry = largest();
    let mut image = blank(geometry, geometry.end().0);
    let apart = geometry.extents() / (geometry.reserve_extents() + 1);
    let extents: Vec<u64> = (0..geometry.extents())
        .filter(|extent| extent % apart != apart / 2)
        .collect();
    let size = extents.len() as u64 * geometry.extent_bytes();
    put_file(&mut image, geometry, 0, b"empty", 0, &[]);
    put_file(&mut image, geometry, 1_023, b"all", size, &extents);
    image
}

/// Makes sure that both sides take the image for a sound volume, so that no refusal is timed.
pub fn assert_sound(image: &[u8]) {
    let (proved, plain) = (goofs::check(image), oracle::check(image));
    assert_eq!((proved.code, proved.fault, proved.place), (0, 0, 0));
    assert_eq!((plain.code, plain.fault, plain.place), (0, 0, 0));
}

/// Noise in the extents that are read, so that they are real memory.
fn fill_extents(image: &mut [u8], geometry: Geometry, extents: &[u64]) {
    let mut draw = Draw::new(1);
    for extent in extents {
        let at = geometry.extent_at(Extent(*extent)).0 as usize * SECTOR;
        draw.fill(&mut image[at..at + geometry.extent_bytes() as usize]);
    }
}
