//! Sound volumes: made by our own calls, at the edges of the rules, and by other writers.

use oracle::draw::Draw;
use oracle::layout::{entry, put16, Edition, Extent, FileIndex, Geometry, Sector, SECTOR};
use oracle::ledger::File;
use oracle::testing::images::table_entry;
use oracle::testing::requests;

use crate::maker::{contents, sector_mut, Maker, EXTENT, EXTENT_SECTORS, FILES};
use crate::statement::{Stands, Vector};

/// A vector of one edition, whose number ends the name.
pub fn vector(name: &str, edition: Edition, what: &str, image: Vec<u8>, stands: Stands) -> Vector {
    Vector {
        name: format!("{name}-e{}", edition.number()),
        what: what.to_string(),
        image,
        stands,
    }
}

fn sound(name: &str, what: &str, maker: Maker) -> Vector {
    maker.volume.compare();
    let edition = maker.edition;
    let stands = Stands::Sound(Box::new(maker.volume.ledger));
    vector(name, edition, what, maker.volume.image, stands)
}

/// Four extents: "alpha" has the first two, "gamma" the third, "beta" is empty. Entry 2 was occupied and
/// is free again.
pub fn some_files(edition: Edition) -> Maker {
    let mut maker = Maker::formatted(edition, 4);
    maker.file("alpha", 70_000);
    maker.create("beta");
    maker.create("delta");
    maker.file("gamma", 600);
    maker.call(requests::delete(b"delta"));
    maker
}

/// Made by our own calls, from a format on.
pub fn own(edition: Edition) -> Vec<Vector> {
    let mut vectors = Vec::new();
    vectors.push(sound(
        "empty",
        "Freshly formatted: no file, and as few extents as there may be.",
        Maker::formatted(edition, 2),
    ));
    vectors.push(sound(
        "some-files",
        "A file over two extents, an empty one, one of 600 bytes, and a free entry between them. Old copies stand in the reserve.",
        some_files(edition),
    ));

    let mut maker = Maker::formatted(edition, 4);
    maker.file("alpha", EXTENT);
    maker.file("beta", EXTENT);
    maker.file("gamma", EXTENT - 1);
    vectors.push(sound(
        "full",
        "All extents but the reserve are held: a file that needs one more is refused with 13.",
        maker,
    ));

    let mut maker = Maker::formatted(edition, 9);
    for size in [0, 1, 511, 512, 513, EXTENT - 1, EXTENT, EXTENT + 1] {
        maker.file(&format!("size-{size}"), size);
    }
    vectors.push(sound(
        "sizes",
        "Sizes on both sides of a sector's and of an extent's edge.",
        maker,
    ));

    let mut maker = Maker::formatted(edition, 3);
    let longest = edition.longest_name();
    maker.create(&"n".repeat(longest));
    maker.create("n");
    maker.create(&"n".repeat(longest - 1));
    vectors.push(sound(
        "long-names",
        "The longest name that the edition takes, one a byte shorter, and one of a single byte. Each is the beginning of a longer one.",
        maker,
    ));

    let mut maker = Maker::formatted(edition, 4);
    maker.file("beta", 10);
    maker.file("beta.new", EXTENT + 5);
    maker.call(requests::rename(b"beta.new", b"beta"));
    maker.call(requests::read(b"beta", 0, 1));
    maker.call(requests::list(1));
    vectors.push(sound(
        "renamed",
        "A file was saved beside the old one and renamed onto it; then it was read and listed, which set the access times.",
        maker,
    ));

    let mut maker = some_files(edition);
    disturb(&mut maker);
    vectors.push(sound(
        "unused-bytes",
        "All that is unused holds noise: the ends of superblock, root and entries, free entries after their mark, offsets of free \
         extents, the table's padding, free extents, bytes past a file's end, sectors after the volume.",
        maker,
    ));

    if edition == Edition::First {
        let mut maker = Maker::formatted(edition, 2);
        for index in 0..FILES {
            maker.put(index, format!("f{index}").as_bytes(), 0, &[]);
        }
        vectors.push(sound(
            "full-directory",
            "Every entry is occupied: one more file is refused with 11.",
            maker,
        ));
    }
    vectors
}

/// Noise where nothing is judged. Of the free entries only a few get some, to keep the text short.
fn disturb(maker: &mut Maker) {
    let (edition, geometry) = (maker.edition, maker.geometry());
    let time_bytes = edition.entry_change_time() - entry::ACCESS_TIME;
    let root_end = edition.root_change_time() + time_bytes;
    let mut draw = Draw::new(41);
    let mut noise = |sector: Sector, from: usize, to: usize, image: &mut [u8]| {
        draw.fill(&mut sector_mut(image, sector)[from..to]);
    };
    let image = &mut maker.volume.image;
    noise(Sector(0), 20, 40, image);
    noise(Sector(0), 500, SECTOR, image);
    noise(geometry.root_at(), root_end, 60, image);
    for (index, used) in [
        (0, edition.name() + 5),
        (2, 2),
        (3, edition.name() + 5),
        (254, 2),
    ] {
        noise(geometry.entry_at(FileIndex(index)), used, used + 60, image);
    }
    let padding = 4 * geometry.extents() as usize;
    noise(geometry.table_at(), padding, padding + 40, image);
    put16(image, table_entry(geometry, 3) + 2, 1);
    noise(Sector(geometry.extent_at(Extent(2)).0 + 1), 88, 130, image);
    noise(Sector(geometry.extent_at(Extent(3)).0 + 100), 0, 40, image);
    noise(Sector(geometry.end().0), 0, 40, image);
}

fn geometry(files: u64, extents: u64, extent_sectors: u64) -> Geometry {
    Geometry::new(files, extents, extent_sectors).expect("within the bounds")
}

/// As another writer may have made them; all of them have extents enough free.
pub fn others(edition: Edition) -> Vec<Vector> {
    let mut vectors = Vec::new();
    let mut maker = Maker::other_writer(edition, geometry(FILES, 6, EXTENT_SECTORS));
    maker.put(9, b"scattered", 2 * EXTENT + 1, &[4, 0, 2]);
    maker.put(4, b"between", 700, &[3]);
    vectors.push(sound(
        "scattered",
        "A file's extents stand in another order than its bytes, with those of another file between them, in entries 4 and 9.",
        maker,
    ));

    let mut maker = Maker::other_writer(edition, geometry(FILES, 3, 129));
    let extent = 129 * SECTOR as u64;
    maker.put(0, b"odd", extent + 1, &[1, 0]);
    vectors.push(sound(
        "odd-extents",
        "Extents of 129 sectors: the size need not be a power of two.",
        maker,
    ));

    let mut maker = Maker::other_writer(edition, geometry(300, 5, 200));
    maker.put(299, b"last entry", 200 * SECTOR as u64, &[3]);
    maker.put(0, b"first entry", 3, &[0]);
    vectors.push(sound(
        "more-files",
        "300 entries, the last of them occupied, and five extents of 200 sectors.",
        maker,
    ));

    let mut maker = Maker::other_writer(edition, geometry(FILES, 4, EXTENT_SECTORS));
    for (index, name) in [
        &b"with space"[..],
        b"a/b",
        b"\xc3\xa9t\xc3\xa9",
        b"\x01\xff",
        b"\"\\\"",
    ]
    .iter()
    .enumerate()
    {
        maker.put(index as u64, name, 0, &[]);
    }
    vectors.push(sound(
        "old-names",
        "Names with spaces, slashes, bytes above 126 and below 33: our create refuses them with 8, but they are sound.",
        maker,
    ));

    let mut maker = Maker::other_writer(edition, geometry(FILES, 4, EXTENT_SECTORS));
    let widest = match edition {
        Edition::First => u64::from(u32::MAX),
        Edition::Second => u64::MAX,
    };
    maker.put_file(
        0,
        File {
            name: b"widest".to_vec(),
            version: u32::MAX,
            id: u64::MAX,
            mode: u32::MAX,
            access_time: widest,
            change_time: widest - 1,
            bytes: contents("widest", EXTENT, EXTENT),
            extents: vec![Extent(2)],
        },
    );
    vectors.push(sound(
        "widest-fields",
        "Version, id, mode and times of a file as large as their fields allow.",
        maker,
    ));

    if edition == Edition::First {
        vectors.push(sound(
            "two-table-sectors",
            "130 extents, so that the table has two sectors; a file holds 129, and the first entry of the second sector.",
            two_table_sectors(edition),
        ));
    }
    vectors
}

/// 130 extents, of which "all" has 129.
pub fn two_table_sectors(edition: Edition) -> Maker {
    let mut maker = Maker::other_writer(edition, geometry(FILES, 130, EXTENT_SECTORS));
    maker.put(0, b"none", 0, &[]);
    // The words of 129 extents would be long: the bytes are zeros but for the first and the last.
    let extents: Vec<Extent> = (0..129).map(Extent).collect();
    let mut bytes = vec![0; 128 * EXTENT as usize + 7];
    bytes[..5].copy_from_slice(b"begin");
    bytes[128 * EXTENT as usize..].copy_from_slice(b"the end");
    let time = crate::maker::first_time(edition);
    maker.put_file(
        1,
        File {
            name: b"all".to_vec(),
            version: 3,
            id: 7,
            mode: 0o644,
            access_time: time,
            change_time: time + 1,
            bytes,
            extents,
        },
    );
    maker
}

/// Six extents: the files have the first, the third and the last.
pub fn reserve_taken(edition: Edition) -> Maker {
    let mut maker = Maker::other_writer(edition, geometry(FILES, 6, EXTENT_SECTORS));
    maker.put(3, b"last", EXTENT + 9, &[5, 2]);
    maker.put(7, b"first", 9, &[0]);
    maker
}

/// Other writers' volumes in which files hold what our format keeps as the reserve (T-12).
pub fn taken_reserves(edition: Edition) -> Vec<Vector> {
    let six = || Maker::other_writer(edition, geometry(FILES, 6, EXTENT_SECTORS));
    let mut vectors = Vec::new();
    vectors.push(sound(
        "reserve-taken",
        "A file holds the last extent; three others are free, so our calls change the volume and stage in the highest of them.",
        reserve_taken(edition),
    ));

    let mut maker = six();
    maker.put(0, b"low", EXTENT + 1, &[1, 0]);
    maker.put(1, b"high", 2 * EXTENT + 1, &[5, 4, 3]);
    vectors.push(sound(
        "one-free",
        "Only extent 2 is free, as many as must stay free: a change that takes no extent is done, any other is refused with 13.",
        maker,
    ));

    let mut maker = six();
    maker.put(0, b"low", 2 * EXTENT + 1, &[0, 1, 2]);
    maker.put(1, b"high", 3 * EXTENT, &[5, 4, 3]);
    maker.put(2, b"none", 0, &[]);
    vectors.push(sound(
        "none-free",
        "No extent is free: the volume is sound and its files are read, but our calls refuse every change with 13 (frozen).",
        maker,
    ));

    let mut maker = Maker::other_writer(edition, geometry(FILES, 2, EXTENT_SECTORS));
    maker.put(254, b"everything", 2 * EXTENT, &[1, 0]);
    vectors.push(sound(
        "largest-file",
        "One file holds every extent to its last byte: it has the largest size that is no fault. Frozen.",
        maker,
    ));
    vectors
}
