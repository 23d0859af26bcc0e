//! Images made by hand: empty volumes of any geometry, and files put into them.

use super::damage::entry_field;
use crate::format::superblock_sector;
use crate::layout::{
    entry, get16, put16, put32, put64, root, superblock, Edition, Extent, Geometry, SECTOR,
};

/// An empty volume of the first edition and any geometry.
pub fn blank(geometry: Geometry, image_sectors: u64) -> Vec<u8> {
    blank_of(Edition::First, geometry, image_sectors)
}

/// An empty volume of any geometry, made without a format: superblock, root and a free table. All
/// else is zero, so that a large image takes up little memory.
pub fn blank_of(edition: Edition, geometry: Geometry, image_sectors: u64) -> Vec<u8> {
    let mut image = vec![0; image_sectors as usize * SECTOR];
    image[..SECTOR].copy_from_slice(&superblock_sector(edition, geometry, 0));
    put64(&mut image[SECTOR..], root::ID, 900);
    let table = geometry.table_at().0 as usize * SECTOR;
    image[table..geometry.data_at().0 as usize * SECTOR].fill(255);
    image
}

/// A file put in by hand, with these extents in the order of their offsets.
pub fn put_file(
    image: &mut [u8],
    geometry: Geometry,
    index: u64,
    name: &[u8],
    size: u64,
    extents: &[u64],
) {
    let edition = edition_of(image);
    let sector = &mut image[entry_field(index, 0)..][..SECTOR];
    put16(sector, entry::MARK, entry::OCCUPIED);
    put64(sector, entry::SIZE, size);
    put32(sector, entry::VERSION, 0x0102_0304 ^ index as u32);
    put64(sector, entry::ID, 0xfedc_ba98_0000_0000 + index);
    put32(sector, entry::MODE, 0xf0e0_d0c0 ^ index as u32);
    // The first edition keeps the lower half.
    edition.put_time(sector, entry::ACCESS_TIME, u64::MAX - index);
    let change_time = 0x8000_0000_8000_0000 + index;
    edition.put_time(sector, edition.entry_change_time(), change_time);
    edition.put_name(sector, name);
    for (offset, extent) in extents.iter().enumerate() {
        let at = table_entry(geometry, *extent);
        put16(image, at, index as u16);
        put16(image, at + 2, offset as u16);
    }
}

/// The edition of a volume that has one.
pub fn edition_of(image: &[u8]) -> Edition {
    let version = get16(image, superblock::VERSION);
    Edition::of(u64::from(version)).expect("version 1 or 2")
}

/// The byte offset in the image of an extent's table entry.
pub fn table_entry(geometry: Geometry, extent: u64) -> usize {
    let (sector, at) = geometry.table_place(Extent(extent));
    sector.0 as usize * SECTOR + at
}
