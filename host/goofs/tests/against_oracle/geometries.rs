//! Other geometries than a format gives: extents of an odd number of sectors, reserves of more than
//! one extent, every number of files, images of exactly the volume and one sector less.

use crate::counts::{count, Compared};
use crate::full_volume::alone;
use crate::shared::{alike, calls, on_both, output, with_each_buffer, Both};
use oracle::draw::Draw;
use oracle::layout::{put16, put64, Edition, Geometry, SECTOR};
use oracle::power::{draw_cut, groups};
use oracle::testing::cuts::recovery_length;
use oracle::testing::images::{blank_of, put_file, table_entry};
use oracle::testing::requests::{create, delete, find, list, read, rename, resize, write};
use oracle::testing::volumes::ANY;
use oracle::testing::{Filled, Subject};
use oracle::{Lent, Request};

/// Fills a volume with files of random lengths in random extents of the first so many, as many as there
/// are. Gives the files and what is left of these extents.
fn fill(
    image: &mut [u8],
    geometry: Geometry,
    extents: u64,
    draw: &mut Draw,
) -> (Vec<(Vec<u8>, u64)>, Vec<u64>) {
    let extent_bytes = geometry.extent_bytes();
    let mut free: Vec<u64> = (0..extents).collect();
    for at in (1..free.len()).rev() {
        free.swap(at, draw.below(at as u64 + 1) as usize);
    }
    let mut files = Vec::new();
    let mut index = 0;
    while index < geometry.files() && files.len() < 12 {
        let most = (free.len() as u64).min(40);
        let count = draw.below(most + 1);
        let size = match count {
            0 => 0,
            _ => (count - 1) * extent_bytes + draw.between(1, extent_bytes),
        };
        let extents = free.split_off(free.len() - count as usize);
        let name = format!("file-{index}").into_bytes();
        put_file(image, geometry, index, &name, size, &extents);
        for extent in extents.iter().rev().take(3).chain(extents.first()) {
            let start = (geometry.data_at().0 + extent * geometry.extent_sectors()) as usize;
            let bytes = &mut image[start * SECTOR..][..extent_bytes as usize];
            draw.fill(bytes);
        }
        files.push((name, size));
        index += draw.between(1, geometry.files() / 12);
    }
    (files, free)
}

/// Every reading call on the files, with spans around the extents' edges.
fn all_alike(image: &[u8], geometry: Geometry, files: &[(Vec<u8>, u64)], draw: &mut Draw) {
    alike(&Request::Summary, image, Lent::NONE);
    let (answer, _) = alike(&Request::Check, image, Lent::NONE);
    assert_eq!(answer.code(), 0);
    for index in [0, 1, geometry.files() - 1, geometry.files()] {
        alike(&list(index), image, output(100));
    }
    for (name, size) in files {
        alike(&find(name), image, Lent::NONE);
        let edge = geometry.extent_bytes() * draw.below(size / geometry.extent_bytes() + 1);
        for offset in [0, edge.max(1) - 1, edge, edge + 1, draw.below(size + 1)] {
            for count in [1, 513, 65_536] {
                alike(&read(name, offset, count), image, output(65_536));
            }
        }
    }
}

/// Every changing call on the files, each with a list that is long, exact and too short.
fn changes_alike(image: &[u8], geometry: Geometry, files: &[(Vec<u8>, u64)], draw: &mut Draw) {
    with_each_buffer(&create(b"new", 77), image);
    let data = draw.bytes(65_536);
    for (name, size) in files {
        let edge = geometry.extent_bytes() * draw.below(size / geometry.extent_bytes() + 1);
        let (other, _) = draw.pick(files);
        for request in [
            delete(name),
            resize(name, 0),
            resize(name, edge),
            resize(name, size + 65_536),
            write(name, *size, data.clone()),
            write(
                name,
                edge.min(size.saturating_sub(300)),
                data[..700].to_vec(),
            ),
            rename(name, b"new"),
            rename(name, other),
        ] {
            with_each_buffer(&request, image);
        }
    }
}

/// Of each two files renames one onto the other, then deletes what is left; the power fails each
/// time.
fn cut_changes_alike(image: &mut [u8], files: &[(Vec<u8>, u64)], draw: &mut Draw) {
    for pair in files.chunks(2) {
        let mut names: Vec<&[u8]> = pair.iter().map(|(name, _)| &name[..]).collect();
        if draw.one_in(2) {
            names.reverse();
        }
        if let [old, new] = names[..] {
            cut_until_gone(image, &rename(old, new), old, draw);
        }
        let left = names[names.len() - 1];
        cut_until_gone(image, &delete(left), left, draw);
    }
}

/// Asks for the change and cuts it, and the recoveries after it, until no file has the name.
fn cut_until_gone(image: &mut [u8], change: &Request, name: &[u8], draw: &mut Draw) {
    while oracle::find(image, name).code == 0 {
        let (answer, Filled { list, .. }) = alike(change, image, ANY);
        assert_eq!(answer.code(), 0);
        land_a_part(image, &list, draw);
        count(Compared::Cuts, 1);
        loop {
            let needed = recovery_length(&Both, image);
            if needed == 0 {
                break;
            }
            let (_, list) = Both.recover(image, needed);
            land_a_part(image, &list, draw);
            count(Compared::Recoveries, 1);
            count(Compared::CutRecoveries, 1);
        }
        assert_eq!(alike(&Request::Check, image, Lent::NONE).0.code(), 0);
    }
}

/// Lands a list up to a random cut.
fn land_a_part(image: &mut [u8], list: &[u8], draw: &mut Draw) {
    let groups = groups(list);
    let cut = draw_cut(&groups, draw).expect("the list is not empty");
    cut.apply(&groups, image);
}

/// An owner in the extents around the first of the last K, a size at its bound and above it, the last entry.
fn edges_alike(image: &mut [u8], geometry: Geometry) {
    let usable = geometry.usable_extents();
    let mut try_field = |at: usize, width: usize, number: u64| {
        let old = image[at..at + width].to_vec();
        match width {
            2 => put16(image, at, number as u16),
            _ => put64(image, at, number),
        }
        count(Compared::DamagedImages, 1);
        alike(&Request::Check, image, Lent::NONE);
        image[at..at + width].copy_from_slice(&old);
    };
    for extent in [0, usable - 1, usable, geometry.extents() - 1] {
        for owner in [0, 1, geometry.files() - 1, geometry.files(), 65_534, 65_535] {
            try_field(table_entry(geometry, extent), 2, owner);
        }
        for offset in [0, 1, usable - 1, usable, 65_535] {
            try_field(table_entry(geometry, extent) + 2, 2, offset);
        }
    }
    let largest = geometry.largest_size();
    for size in [0, 1, largest - 1, largest, largest + 1, u64::MAX] {
        try_field(2 * SECTOR + 2, 8, size);
    }
    try_field((1 + geometry.files() as usize) * SECTOR, 2, 7);
}

fn one_geometry(
    edition: Edition,
    (files, extents, extent_sectors): (u64, u64, u64),
    reserve: u64,
    seed: u64,
) {
    let geometry = Geometry::new(files, extents, extent_sectors).expect("within the bounds");
    assert_eq!(geometry.reserve_extents(), reserve);
    let mut draw = Draw::new(seed);
    let mut image = blank_of(edition, geometry, geometry.end().0);
    let empty = [(b"none".to_vec(), 0)];
    all_alike(&image, geometry, &empty, &mut draw);
    let (files, _) = fill(&mut image, geometry, geometry.usable_extents(), &mut draw);
    all_alike(&image, geometry, &files, &mut draw);
    changes_alike(&image, geometry, &files, &mut draw);
    edges_alike(&mut image, geometry);

    let short = image.len() - SECTOR;
    count(Compared::Truncations, 1);
    let (answer, _) = alike(&Request::Check, &image[..short], Lent::NONE);
    assert_eq!(answer.code(), 3);
    cut_changes_alike(&mut image, &files, &mut draw);
}

#[test]
fn odd_extent_sectors() {
    on_both(|edition| {
        for (seed, extent_sectors) in [129, 131, 257, 255, 300, 1_001].into_iter().enumerate() {
            let files = 700 + extent_sectors % 300;
            one_geometry(edition, (255, 9, extent_sectors), 1, seed as u64);
            one_geometry(edition, (files, 40, extent_sectors), 1, seed as u64);
        }
    });
}

#[test]
fn few_extents() {
    on_both(|edition| {
        for (seed, extents) in [2, 3, 127, 128, 129, 256, 257].into_iter().enumerate() {
            one_geometry(edition, (255, extents, 128), 1, seed as u64);
        }
    });
}

#[test]
fn every_number_of_files() {
    on_both(|edition| {
        for files in [255, 256, 257, 511, 512, 767, 1_023, 1_024, 1_025, 4_096] {
            one_geometry(edition, (files, 12, 128), 1, files);
        }
    });
}

/// T + 3 sectors to stage and S in an extent: the reserve has one extent up to 125 table sectors
/// of extents of 128 sectors, then two.
#[test]
fn reserves_of_several_extents() {
    on_both(|edition| {
        one_geometry(edition, (255, 125 * 128, 128), 1, 1);
        one_geometry(edition, (255, 125 * 128 + 1, 128), 2, 2);
        one_geometry(edition, (300, 126 * 128, 129), 1, 3);
        one_geometry(edition, (300, 126 * 128 + 1, 129), 2, 4);
        one_geometry(edition, (1_024, 253 * 128, 128), 2, 5);
        one_geometry(edition, (1_024, 253 * 128 + 1, 128), 3, 6);
    });
}

/// Other writers' volumes: files in any extents, the last ones too, and so many left free.
#[test]
fn foreign_volumes() {
    on_both(|edition| {
        let _alone = alone();
        for (seed, (files, extents, extent_sectors, reserve)) in [
            (255, 40, 131, 1),
            (300, 257, 128, 1),
            (255, 125 * 128 + 1, 128, 2),
            (300, 126 * 128 + 1, 129, 2),
            (1_024, 253 * 128 + 1, 128, 3),
        ]
        .into_iter()
        .enumerate()
        {
            let geometry = Geometry::new(files, extents, extent_sectors).expect("in the bounds");
            assert_eq!(geometry.reserve_extents(), reserve);
            for left in [0, reserve - 1, reserve, reserve + 1, reserve + 5] {
                one_foreign_volume(edition, geometry, left, seed as u64);
            }
        }
    });
}

fn one_foreign_volume(edition: Edition, geometry: Geometry, left: u64, seed: u64) {
    let mut draw = Draw::new(seed);
    let mut image = blank_of(edition, geometry, geometry.end().0);
    let (files, mut free) = fill(&mut image, geometry, geometry.extents(), &mut draw);
    // One more file has all that are not to be left.
    let rest = free.split_off((left as usize).min(free.len()));
    let (last, size) = (
        geometry.files() - 1,
        rest.len() as u64 * geometry.extent_bytes(),
    );
    put_file(&mut image, geometry, last, b"rest", size, &rest);
    all_alike(&image, geometry, &files, &mut draw);
    changes_alike(&image, geometry, &files, &mut draw);
    edges_alike(&mut image, geometry);
    if free.len() as u64 >= geometry.reserve_extents() {
        cut_changes_alike(&mut image, &files, &mut draw);
    }
}

/// Volumes far longer than any image are refused, and no product overflows.
#[test]
fn geometries_too_large_for_the_image() {
    on_both(|edition| {
        for (files, extents, extent_sectors) in [
            (255, 2, u64::from(u32::MAX)),
            (1_024, 65_535, u64::from(u32::MAX)),
            (1_024, 65_535, 1 << 31),
            (65_535, 65_535, u64::from(u32::MAX)),
            (65_535, 65_535, 1 << 31),
            (255, 65_535, 128),
            (255, 32_768, 1 << 25),
        ] {
            let geometry =
                Geometry::new(files, extents, extent_sectors).expect("within the bounds");
            let image = blank_start(edition, geometry);
            count(Compared::DamagedImages, 1);
            for request in calls() {
                let (answer, _) = alike(&request, &image, ANY);
                assert_eq!(answer.code(), 3);
            }
        }
    });
}

/// The first sectors of a volume that is much longer.
fn blank_start(edition: Edition, geometry: Geometry) -> Vec<u8> {
    let small = Geometry::new(255, 2, 128).expect("within the bounds");
    let mut image = blank_of(edition, small, 2_000);
    put16(&mut image, 0, geometry.files() as u16);
    put16(&mut image, 2, geometry.extents() as u16);
    image[4..8].copy_from_slice(&(geometry.extent_sectors() as u32).to_be_bytes());
    image
}
